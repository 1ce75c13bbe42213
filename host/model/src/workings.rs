//! How a column runs, as data. `Workings::paper` has the paper's way; the tests
//! change one thing at a time, to see that each such mistake would be noticed.

use crate::design::{Design, MainInput, SecondInput, Signal, Source};
use crate::edits::{edit, Edit, Editable};
use crate::layout::*;
use crate::simulate::Answer;
use crate::values::{edited, State};

/// The values after an edit, by those before it and the signals that read the
/// changed thing themselves.
pub type Edited = fn(&Workings, &Design, State, values: &[u8], first: &[bool]) -> Vec<u8>;

/// Tests a list of edits and makes them.
pub type EditAll = fn(&Workings, &Design, &mut Editable, &[Edit]) -> Answer;

/// What a signal, a flip-flop and a table take, and what a call tests.
#[derive(Clone, Copy, Debug)]
pub struct Workings {
    /// All that a signal reads, in the order of `Design::sources`.
    pub sources: fn(&Design, signal: usize) -> Vec<Source>,
    /// The signals that belong to the contents of a letter's table.
    pub of_table: fn(letter: usize) -> Vec<Signal>,
    pub edited: Edited,
    pub edit: EditAll,
    /// The most edits that a list may have.
    pub most_edits: usize,
    /// Whether all slices see the signals settled before the edge.
    pub together: bool,
    /// Whether a set/reset acts without clock enable.
    pub set_reset_over_enable: bool,
    /// What a letter's flip-flops take.
    pub main_input: fn(&Design, slice: usize, letter: usize) -> Source,
    pub second_input: fn(&Design, slice: usize, letter: usize) -> Source,
    /// The pins with the address that a letter writes at, lowest first.
    pub write_address: fn(letter: usize) -> Vec<usize>,
    /// The letter whose bit 31 a letter takes as cascade data.
    pub cascade_from: fn(letter: usize) -> usize,
    /// The bits that a table in shift mode has.
    pub shift_bits: u64,
    pub tests: Tests,
}

/// What refusal 11 is given for.
#[derive(Clone, Copy, Debug)]
pub struct Tests {
    pub input_bytes: bool,
    pub value_bytes: bool,
    pub words: bool,
    pub new_byte: bool,
    pub new_word: bool,
}

impl Workings {
    pub fn paper() -> Workings {
        Workings {
            sources: Design::sources,
            of_table,
            edited,
            edit,
            most_edits: 256,
            together: true,
            set_reset_over_enable: true,
            main_input,
            second_input,
            write_address: |_| (1..=6).map(|pin| table_pin(D, pin)).collect(),
            cascade_from: |letter| letter + 1,
            shift_bits: 0xFFFF_FFFF,
            tests: Tests {
                input_bytes: true,
                value_bytes: true,
                words: true,
                new_byte: true,
                new_word: true,
            },
        }
    }
}

/// O6 and O5 of the table, MC31 if it is A; the modes make no difference.
pub fn of_table(letter: usize) -> Vec<Signal> {
    let mut signals = vec![Signal::O6(letter), Signal::O5(letter)];
    if letter == A {
        signals.push(Signal::Mc31);
    }
    signals
}

pub fn main_input(design: &Design, slice: usize, letter: usize) -> Source {
    let own = |signal: Signal| Source::Signal(signal.of_slice(slice));
    match design.slices[slice].main[letter] {
        MainInput::O6 => own(Signal::O6(letter)),
        MainInput::O5 => own(Signal::O5(letter)),
        MainInput::Sum => own(Signal::Sum(letter)),
        MainInput::Carry => own(Signal::Carry(letter)),
        MainInput::Wide => own(Signal::wide(letter)),
        MainInput::Bypass => design.pin(slice, bypass_pin(letter)),
    }
}

pub fn second_input(design: &Design, slice: usize, letter: usize) -> Source {
    match design.slices[slice].second[letter] {
        SecondInput::O5 => Source::Signal(Signal::O5(letter).of_slice(slice)),
        SecondInput::Bypass => design.pin(slice, bypass_pin(letter)),
    }
}
