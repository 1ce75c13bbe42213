//! The design to look for loops in, whatever else is wrong with the slices.

use model::layout::*;
use model::rules::{Choice, Combination};
use model::{Design, Rules};

/// A file's design, with refusals 5, 6 and 7 mended so that it reads no more than it would mended
/// otherwise. So the loops found in it stay, whatever becomes of those faults:
/// - a driver that doesn't exist is the constant 0, and so is a carry start that may not be there;
/// - a MUX output that doesn't exist is the second flip-flop, which reads nothing;
/// - a mode that doesn't exist, or may have to become shift mode, is shift mode: its O6 reads pins
///   2 to 6, as in every mode, and its O5 nothing;
/// - carry data that don't exist are O5: that reads no pin but those of O6, which the carry reads
///   first and anyway, so a way through this O5 goes through O6 as well;
/// - no other choice is read before the edge.
pub fn design(rules: &Rules, file: &[u8], n: usize, m: usize) -> Design {
    let mut file = file[..record_start(n)].to_vec();
    for number in 0..n {
        let body = &mut file[record_start(number) + HEADER..][..SLICE_BODY];
        body[NUMBER] = number as u8;
        mend_modes(body);
        if Combination::StartBelowSliceZero.found_in(body) {
            body[CARRY_START] = 0;
        }
        mend_choices(rules, body);
        mend_drivers(rules, body, n, m);
    }
    Design::decode(rules, &file, n, m)
}

/// Rule 6 can make a letter shift where it or the one before has cascade, and where it is in
/// memory mode and may not be.
fn mend_modes(body: &mut [u8]) {
    for letter in LETTERS {
        if body[SHIFT_DATA + letter] == 1 {
            body[MODE + letter] = 2;
            body[MODE + (letter + 1).min(D)] = 2;
        }
    }
    let about_memory = [
        Combination::SliceLWithMode,
        Combination::MemoryAndShift,
        Combination::MemoryWithoutD,
    ];
    if about_memory.iter().any(|part| part.found_in(body)) {
        let modes = body[MODE..SHIFT_DATA].iter_mut();
        modes.filter(|mode| **mode == 1).for_each(|mode| *mode = 2);
    }
}

fn mend_choices(rules: &Rules, body: &mut [u8]) {
    for &Choice { at, greatest } in &rules.choices {
        if body[at] > greatest {
            body[at] = match at {
                MODE..SHIFT_DATA | MUX..MAIN => greatest,
                _ => 0,
            };
        }
    }
}

fn mend_drivers(rules: &Rules, body: &mut [u8], n: usize, m: usize) {
    for pin in 0..PIN_COUNT {
        if (rules.driver)(pin_code(body, pin), n, m).is_none() {
            body[pin_bytes(pin)].fill(0);
        }
    }
}
