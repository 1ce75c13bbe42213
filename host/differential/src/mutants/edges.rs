//! Mistakes about the clock edge.

use model::design::{Design, MainInput, Signal, Source};
use model::layout::*;
use model::workings::main_input;

use super::Mutant;

pub fn all() -> Vec<Mutant> {
    let together: Mutant = ("slice by slice", |w| w.together = false);
    [vec![together], flops(), tables()].concat()
}

fn flops() -> Vec<Mutant> {
    vec![
        ("set/reset under clock enable", |w| {
            w.set_reset_over_enable = false
        }),
        ("second flip-flops always take O5", |w| {
            w.second_input = |_, slice, letter| own(slice, Signal::O5(letter))
        }),
        ("second flip-flops always take the bypass pin", |w| {
            w.second_input = bypass
        }),
        ("second flip-flops take what the main ones do", |w| {
            w.second_input = main_input
        }),
        ("main flip-flops take O6 for O5", |w| {
            w.main_input = o6_for_o5
        }),
        ("main flip-flops' wide by letter", |w| {
            w.main_input = wide_by_letter
        }),
    ]
}

fn tables() -> Vec<Mutant> {
    vec![
        ("cascade from the letter itself", |w| {
            w.cascade_from = |letter| letter
        }),
        ("cascade always from D", |w| w.cascade_from = |_| D),
        ("shift keeps bits 32-63", |w| w.shift_bits = u64::MAX),
        ("shift of 31 bits", |w| w.shift_bits = 0x7FFF_FFFF),
        ("memory written without pin 6", |w| {
            w.write_address = |_| (1..=5).map(|pin| table_pin(D, pin)).collect()
        }),
        ("memory written without pin 1", |w| {
            w.write_address = |_| (2..=6).map(|pin| table_pin(D, pin)).collect()
        }),
        ("each letter at its own address", |w| {
            w.write_address = |letter| (1..=6).map(|pin| table_pin(letter, pin)).collect()
        }),
    ]
}

fn own(slice: usize, signal: Signal) -> Source {
    Source::Signal(signal.of_slice(slice))
}

fn bypass(design: &Design, slice: usize, letter: usize) -> Source {
    design.pin(slice, bypass_pin(letter))
}

fn o6_for_o5(design: &Design, slice: usize, letter: usize) -> Source {
    match design.slices[slice].main[letter] {
        MainInput::O5 => own(slice, Signal::O6(letter)),
        _ => main_input(design, slice, letter),
    }
}

/// F7A, F7B, F8, MC31 for A to D: as the signals are numbered.
fn wide_by_letter(design: &Design, slice: usize, letter: usize) -> Source {
    let wide = [Signal::F7A, Signal::F7B, Signal::F8, Signal::Mc31];
    match design.slices[slice].main[letter] {
        MainInput::Wide => own(slice, wide[letter]),
        _ => main_input(design, slice, letter),
    }
}
