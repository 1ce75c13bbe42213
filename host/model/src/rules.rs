//! The rules of a record as data. `Rules::paper` has the paper's; the tests
//! change one at a time, to see that each such mistake would be noticed.

use std::ops::RangeInclusive;

use crate::design::{driver, Driver};
use crate::layout::*;

/// A test of one record.
#[derive(Clone, Copy, Debug, PartialEq, Eq)]
pub enum Test {
    HeaderWhole,
    TagKnown,
    TagDue,
    Length,
    BodyWhole,
    SliceNumber,
    Choices,
    Combinations,
    Drivers,
}

/// A byte of the slice body that holds a choice, 0 to `greatest`.
#[derive(Clone, Copy, Debug, PartialEq, Eq)]
pub struct Choice {
    pub at: usize,
    pub greatest: u8,
}

/// The parts of rule 6: what may not stand together in a slice.
#[derive(Clone, Copy, Debug, PartialEq, Eq)]
pub enum Combination {
    SliceLWithMode,
    MemoryAndShift,
    MemoryWithoutD,
    CascadeAtD,
    CascadeIntoNoShift,
    CascadeFromNoShift,
    ShiftWithHighBits,
    StartBelowSliceZero,
}

/// What a record is tested by.
#[derive(Clone, Debug)]
pub struct Rules {
    /// The tests of a record, in their order.
    pub order: Vec<Test>,
    /// The lists that n and m are on.
    pub n: RangeInclusive<usize>,
    pub m: RangeInclusive<usize>,
    /// The choices of a slice and their lists.
    pub choices: Vec<Choice>,
    /// The parts of rule 6.
    pub combinations: Vec<Combination>,
    /// The driver of a code, if there is one in a column of n slices and m inputs.
    pub driver: fn(code: u16, n: usize, m: usize) -> Option<Driver>,
}

impl Rules {
    pub fn paper() -> Rules {
        Rules {
            order: vec![
                Test::HeaderWhole,
                Test::TagKnown,
                Test::TagDue,
                Test::Length,
                Test::BodyWhole,
                Test::SliceNumber,
                Test::Choices,
                Test::Combinations,
                Test::Drivers,
            ],
            n: 1..=64,
            m: 0..=64,
            choices: choices(),
            combinations: vec![
                Combination::SliceLWithMode,
                Combination::MemoryAndShift,
                Combination::MemoryWithoutD,
                Combination::CascadeAtD,
                Combination::CascadeIntoNoShift,
                Combination::CascadeFromNoShift,
                Combination::ShiftWithHighBits,
                Combination::StartBelowSliceZero,
            ],
            driver,
        }
    }
}

/// Every choice byte of a slice, in the file's order.
fn choices() -> Vec<Choice> {
    let one = |at, greatest| vec![Choice { at, greatest }];
    let each_letter = |first, greatest| {
        let choice = |letter| Choice {
            at: first + letter,
            greatest,
        };
        LETTERS.map(choice).to_vec()
    };
    [
        one(KIND, 1),
        each_letter(MODE, 2),
        each_letter(SHIFT_DATA, 1),
        each_letter(CARRY_DATA, 1),
        one(CARRY_START, 3),
        each_letter(MUX, 4),
        each_letter(MAIN, 5),
        each_letter(SECOND, 1),
        one(SET_RESET_PIN, 1),
    ]
    .concat()
}

impl Combination {
    /// Whether a slice has what this part of rule 6 forbids.
    pub fn found_in(self, body: &[u8]) -> bool {
        let mode = |letter: usize| body[MODE + letter];
        let cascade = |letter: usize| body[SHIFT_DATA + letter] == 1;
        let any = |test: &dyn Fn(usize) -> bool| LETTERS.into_iter().any(test);
        let any_but_d = |test: &dyn Fn(usize) -> bool| [A, B, C].into_iter().any(test);
        match self {
            Combination::SliceLWithMode => body[KIND] == 0 && any(&|letter| mode(letter) != 0),
            Combination::MemoryAndShift => {
                any(&|letter| mode(letter) == 1) && any(&|letter| mode(letter) == 2)
            }
            Combination::MemoryWithoutD => any_but_d(&|letter| mode(letter) == 1) && mode(D) != 1,
            Combination::CascadeAtD => cascade(D),
            Combination::CascadeIntoNoShift => any(&|letter| cascade(letter) && mode(letter) != 2),
            Combination::CascadeFromNoShift => {
                any_but_d(&|letter| cascade(letter) && mode(letter + 1) != 2)
            }
            Combination::ShiftWithHighBits => {
                any(&|letter| mode(letter) == 2 && contents(body, letter) >> 32 != 0)
            }
            Combination::StartBelowSliceZero => body[NUMBER] == 0 && body[CARRY_START] == 3,
        }
    }
}
