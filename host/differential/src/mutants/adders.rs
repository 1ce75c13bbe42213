//! Mistakes about the carry column, and about the numbers at it. Some make a signal read what the paper's doesn't depend on: that can't loop
//! in adder columns, whose pins read slices below and what is stored.

use model::adders::{Addends, Numbers};
use model::design::{CarryData, CarryStart, Design, Signal, Source, SIGNALS};
use model::layout::*;

use super::signals::{exchanged, inverted_start, rightly};
use super::Mutant;

/// Wrong carries and sums.
pub fn of_columns() -> Vec<Mutant> {
    [sums(), sides(), letters(), data(), starts()].concat()
}

fn sums() -> Vec<Mutant> {
    vec![
        ("sum of A by its carry", |w| w.sources = sum_by_carry::<A>),
        ("sum of B by its carry", |w| w.sources = sum_by_carry::<B>),
        ("sum of C by its carry", |w| w.sources = sum_by_carry::<C>),
        ("sum of D by its carry", |w| w.sources = sum_by_carry::<D>),
    ]
}

fn sides() -> Vec<Mutant> {
    vec![
        ("carry of A is its data if O6 is 1", |w| {
            w.sources = |design, x| exchanged(design, x, Signal::Carry(A))
        }),
        ("carry of B is its data if O6 is 1", |w| {
            w.sources = |design, x| exchanged(design, x, Signal::Carry(B))
        }),
        ("carry of C is its data if O6 is 1", |w| {
            w.sources = |design, x| exchanged(design, x, Signal::Carry(C))
        }),
        ("carry of D is its data if O6 is 1", |w| {
            w.sources = |design, x| exchanged(design, x, Signal::Carry(D))
        }),
    ]
}

fn letters() -> Vec<Mutant> {
    vec![
        ("carry start into B", |w| w.sources = from_two_below::<B>),
        ("carry of A into C", |w| w.sources = from_two_below::<C>),
        ("carry of B into D", |w| w.sources = from_two_below::<D>),
    ]
}

fn data() -> Vec<Mutant> {
    vec![
        ("carry data O5 for bypass and bypass for O5", |w| {
            w.sources = |design, x| other_data(design, x, other_kind)
        }),
        ("carry data of the next letter", |w| {
            w.sources = |design, x| other_data(design, x, of_next_letter)
        }),
    ]
}

fn starts() -> Vec<Mutant> {
    vec![
        ("carry start of 0 and 1 exchanged", |w| {
            w.sources = inverted_start
        }),
        ("AX isn't taken as carry start", |w| {
            w.sources = |design, x| other_start(design, x, CarryStart::Ax, |_, _| ZERO)
        }),
        ("BX is taken as carry start", |w| {
            w.sources = |design, x| {
                let bx = |design: &Design, slice| design.pin(slice, bypass_pin(B));
                other_start(design, x, CarryStart::Ax, bx)
            }
        }),
        ("chains end at every slice", |w| w.sources = ended),
        ("chains end at slice 1", |w| w.sources = ended_at::<1>),
        ("chains end at slice 32", |w| w.sources = ended_at::<32>),
        ("chains end at slice 63", |w| w.sources = ended_at::<63>),
        ("C's carry of the slice below", |w| {
            w.sources = |design, x| other_start(design, x, CarryStart::SliceBelow, c_below)
        }),
        ("D's sum of the slice below", |w| {
            w.sources = |design, x| other_start(design, x, CarryStart::SliceBelow, sum_below)
        }),
    ]
}

const ZERO: Source = Source::Constant(false);

fn sum_by_carry<const LETTER: usize>(design: &Design, signal: usize) -> Vec<Source> {
    let (kind, mut sources) = rightly(design, signal);
    if kind == Signal::Sum(LETTER) {
        sources[1] = Source::Signal(Signal::Carry(LETTER).of_slice(signal / SIGNALS));
    }
    sources
}

/// The carry coming into the letter before comes into this one.
fn from_two_below<const LETTER: usize>(design: &Design, signal: usize) -> Vec<Source> {
    let (kind, mut sources) = rightly(design, signal);
    if kind == Signal::Carry(LETTER) || kind == Signal::Sum(LETTER) {
        let before = Signal::Carry(LETTER - 1).of_slice(signal / SIGNALS);
        sources[1] = design.sources(before)[1];
    }
    sources
}

/// The carry data of a letter of a slice, by whoever has it wrong.
type Data = fn(&Design, slice: usize, letter: usize) -> Source;

fn other_data(design: &Design, signal: usize, data: Data) -> Vec<Source> {
    let (kind, mut sources) = rightly(design, signal);
    if let Signal::Carry(letter) = kind {
        sources[2] = data(design, signal / SIGNALS, letter);
    }
    sources
}

fn other_kind(design: &Design, slice: usize, letter: usize) -> Source {
    match design.slices[slice].carry_data[letter] {
        CarryData::O5 => design.pin(slice, bypass_pin(letter)),
        CarryData::Bypass => Source::Signal(Signal::O5(letter).of_slice(slice)),
    }
}

/// The next letter of D is A.
fn of_next_letter(design: &Design, slice: usize, letter: usize) -> Source {
    let next = Signal::Carry((letter + 1) % 4).of_slice(slice);
    design.sources(next)[2]
}

/// Another carry coming into A of a slice with this carry start.
fn other_start(
    design: &Design,
    signal: usize,
    start: CarryStart,
    other: fn(&Design, slice: usize) -> Source,
) -> Vec<Source> {
    let (kind, mut sources) = rightly(design, signal);
    let slice = signal / SIGNALS;
    let into_a = matches!(kind, Signal::Carry(A) | Signal::Sum(A));
    if into_a && design.slices[slice].carry_start == start {
        sources[1] = other(design, slice);
    }
    sources
}

/// A slice that starts with the one below starts with 0.
fn ended(design: &Design, signal: usize) -> Vec<Source> {
    other_start(design, signal, CarryStart::SliceBelow, |_, _| ZERO)
}

fn ended_at<const SLICE: usize>(design: &Design, signal: usize) -> Vec<Source> {
    match signal / SIGNALS == SLICE {
        true => ended(design, signal),
        false => design.sources(signal),
    }
}

fn c_below(_: &Design, slice: usize) -> Source {
    Source::Signal(Signal::Carry(C).of_slice(slice - 1))
}

fn sum_below(_: &Design, slice: usize) -> Source {
    Source::Signal(Signal::Sum(D).of_slice(slice - 1))
}

/// A mistake's name, and the numbers that it makes of those rightly read.
pub type Misreading = (&'static str, fn(Numbers) -> Numbers);

/// Wrong readings of the numbers.
pub fn of_reading() -> Vec<Misreading> {
    vec![
        ("highest bits first", |read| each(read, reversed)),
        ("highest slices first", |read| each(read, slices_reversed)),
        ("the lowest 64 bits", |read| {
            each(read, |bits| bits.iter().take(64).copied().collect())
        }),
        ("a counted from letter D", a_from_d),
        ("b is O6", |mut read| {
            read.addends.b = exclusive_or(&read.addends.a, &read.addends.b);
            read
        }),
        ("no carry coming in", |mut read| {
            read.addends.c = false;
            read
        }),
        ("sums without the top slice", |mut read| {
            read.sums.truncate(read.sums.len() - 4);
            read
        }),
        ("no top carry", |read| Numbers { top: false, ..read }),
    ]
}

/// Other bits in place of each number's.
fn each(read: Numbers, other: fn(&[bool]) -> Vec<bool>) -> Numbers {
    let Addends { a, b, c } = read.addends;
    let (a, b) = (other(&a), other(&b));
    Numbers {
        addends: Addends { a, b, c },
        sums: other(&read.sums),
        top: read.top,
    }
}

fn reversed(bits: &[bool]) -> Vec<bool> {
    bits.iter().rev().copied().collect()
}

fn slices_reversed(bits: &[bool]) -> Vec<bool> {
    bits.chunks(4).rev().flatten().copied().collect()
}

fn exclusive_or(one: &[bool], other: &[bool]) -> Vec<bool> {
    let pairs = one.iter().zip(other);
    pairs.map(|(one, other)| one != other).collect()
}

/// Each O6 leaves another bit for b then.
fn a_from_d(mut read: Numbers) -> Numbers {
    let Addends { a, b, .. } = &mut read.addends;
    let o6 = exclusive_or(a, b);
    *a = reversed(&slices_reversed(a));
    *b = exclusive_or(&o6, a);
    read
}
