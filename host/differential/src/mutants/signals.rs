//! Mistakes about the value of a signal.

use model::design::{Design, Mode, MuxOutput, Signal, Source, SIGNALS};
use model::layout::*;

use super::Mutant;

pub fn all() -> Vec<Mutant> {
    vec![
        ("F8 selected by AX", |w| w.sources = f8_by_ax),
        ("F7A gives A's O6 at 0", |w| {
            w.sources = |design, x| exchanged(design, x, Signal::F7A)
        }),
        ("F7B gives C's O6 at 0", |w| {
            w.sources = |design, x| exchanged(design, x, Signal::F7B)
        }),
        ("F8 gives F7A at 0", |w| {
            w.sources = |design, x| exchanged(design, x, Signal::F8)
        }),
        ("carry of B is its data if O6 is 1", |w| {
            w.sources = |design, x| exchanged(design, x, Signal::Carry(B))
        }),
        ("carry start of 0 and 1 exchanged", |w| {
            w.sources = inverted_start
        }),
        ("pin 6 lowest", |w| w.sources = pin_6_lowest),
        ("O5 without pin 5", |w| w.sources = o5_of_four_pins),
        ("O6 of a shift without pin 6", |w| {
            w.sources = shift_of_four_pins
        }),
        ("wide at D is 0 in DMUX", |w| w.sources = no_mc31_at_dmux),
    ]
}

/// The signal of a number and what it rightly reads.
pub(super) fn rightly(design: &Design, signal: usize) -> (Signal, Vec<Source>) {
    let sources = design.sources(signal);
    (Signal::numbered(signal % SIGNALS), sources)
}

fn f8_by_ax(design: &Design, signal: usize) -> Vec<Source> {
    let (kind, mut sources) = rightly(design, signal);
    if kind == Signal::F8 {
        sources[0] = design.pin(signal / SIGNALS, bypass_pin(A));
    }
    sources
}

/// The two sides of a multiplexer, the other way round.
pub(super) fn exchanged(design: &Design, signal: usize, multiplexer: Signal) -> Vec<Source> {
    let (kind, mut sources) = rightly(design, signal);
    if kind == multiplexer {
        sources.swap(1, 2);
    }
    sources
}

pub(super) fn inverted_start(design: &Design, signal: usize) -> Vec<Source> {
    let (kind, mut sources) = rightly(design, signal);
    if matches!(kind, Signal::Carry(A) | Signal::Sum(A)) {
        if let Source::Constant(bit) = sources[1] {
            sources[1] = Source::Constant(!bit);
        }
    }
    sources
}

fn pin_6_lowest(design: &Design, signal: usize) -> Vec<Source> {
    let (kind, mut sources) = rightly(design, signal);
    if matches!(kind, Signal::O6(_)) {
        sources.reverse();
    }
    sources
}

fn o5_of_four_pins(design: &Design, signal: usize) -> Vec<Source> {
    let (kind, mut sources) = rightly(design, signal);
    if matches!(kind, Signal::O5(_)) {
        sources.truncate(4);
    }
    sources
}

fn shift_of_four_pins(design: &Design, signal: usize) -> Vec<Source> {
    let (kind, mut sources) = rightly(design, signal);
    let shifts = |letter: usize| design.slices[signal / SIGNALS].mode[letter] == Mode::Shift;
    if matches!(kind, Signal::O6(letter) if shifts(letter)) {
        sources.truncate(4);
    }
    sources
}

fn no_mc31_at_dmux(design: &Design, signal: usize) -> Vec<Source> {
    let (kind, sources) = rightly(design, signal);
    let wide = design.slices[signal / SIGNALS].mux[D] == MuxOutput::Wide;
    match kind {
        Signal::Mux(D) if wide => vec![Source::Constant(false)],
        _ => sources,
    }
}
