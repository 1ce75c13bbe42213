//! The values of signals, by the rule of each.

use crate::design::{Design, Mode, Signal, Source, SIGNALS};
use crate::graph::dependents;
use crate::layout::*;
use crate::workings::Workings;

/// Contents, flip-flops and inputs of a column, of the right lengths.
#[derive(Clone, Copy)]
pub struct State<'a> {
    pub contents: &'a [u64],
    pub flops: &'a [u8],
    pub inputs: &'a [u8],
}

impl<'a> State<'a> {
    pub fn of(contents: &'a [u64], flops: &'a [u8], inputs: &'a [u8]) -> State<'a> {
        State {
            contents,
            flops,
            inputs,
        }
    }
}

/// The value of a source, with signals taken from a table of values.
pub fn value(source: Source, inputs: &[u8], values: &[u8]) -> bool {
    match source {
        Source::Constant(bit) => bit,
        Source::Input(input) => inputs[input] == 1,
        Source::Signal(signal) => values[signal] == 1,
    }
}

/// The number whose bits these are, lowest first.
pub fn number(bits: &[bool]) -> usize {
    let high_first = bits.iter().rev();
    high_first.fold(0, |number, &bit| 2 * number + usize::from(bit))
}

/// A signal's rule; `read` has the values of its sources, in their order.
fn rule(design: &Design, state: State, signal: usize, read: &[bool]) -> bool {
    let at = signal / SIGNALS;
    let shifts = |letter: usize| design.slices[at].mode[letter] == Mode::Shift;
    let bit = |letter: usize, bit: usize| state.contents[4 * at + letter] >> bit & 1 == 1;
    let flop = |bit: usize| state.flops[at] >> bit & 1 == 1;
    match Signal::numbered(signal % SIGNALS) {
        Signal::O6(letter) => bit(letter, number(read)),
        Signal::O5(letter) => !shifts(letter) && bit(letter, number(read)),
        Signal::Sum(_) => read[0] != read[1],
        Signal::Carry(_) | Signal::F7A | Signal::F7B | Signal::F8 => {
            if read[0] {
                read[1]
            } else {
                read[2]
            }
        }
        Signal::Mc31 => shifts(A) && bit(A, 31),
        Signal::Mux(_) => read[0],
        Signal::Main(letter) => flop(letter),
        Signal::Second(letter) => flop(4 + letter),
    }
}

/// A table of values that is being computed.
struct Computed<'a> {
    workings: &'a Workings,
    design: &'a Design,
    state: State<'a>,
    /// The values that are known.
    known: Vec<Option<bool>>,
}

impl Computed<'_> {
    /// A signal's value, after those it reads. There is no loop.
    fn signal(&mut self, signal: usize) -> bool {
        if let Some(bit) = self.known[signal] {
            return bit;
        }
        let sources = (self.workings.sources)(self.design, signal);
        let read: Vec<bool> = sources.into_iter().map(|x| self.source(x)).collect();
        let bit = rule(self.design, self.state, signal, &read);
        self.known[signal] = Some(bit);
        bit
    }

    fn source(&mut self, source: Source) -> bool {
        match source {
            Source::Constant(bit) => bit,
            Source::Input(input) => self.state.inputs[input] == 1,
            Source::Signal(signal) => self.signal(signal),
        }
    }
}

/// Every signal by its rule, apart from those whose values are known.
fn compute(
    workings: &Workings,
    design: &Design,
    state: State,
    known: Vec<Option<bool>>,
) -> Vec<u8> {
    let mut computed = Computed {
        workings,
        design,
        state,
        known,
    };
    let signals = 0..SIGNALS * design.n;
    signals.map(|x| u8::from(computed.signal(x))).collect()
}

/// The settled values.
pub fn settled(workings: &Workings, design: &Design, state: State) -> Vec<u8> {
    compute(workings, design, state, vec![None; SIGNALS * design.n])
}

/// The values after a change, where `first` has the signals that read the
/// changed thing themselves: those and all that depend on them are recomputed.
pub fn edited(
    workings: &Workings,
    design: &Design,
    state: State,
    values: &[u8],
    first: &[bool],
) -> Vec<u8> {
    let reached = dependents(&graph(workings, design), first);
    recomputed(workings, design, state, values, &reached)
}

/// A table of values with some signals recomputed. The others keep their bytes,
/// stale or not, and are read at them.
pub fn recomputed(
    workings: &Workings,
    design: &Design,
    state: State,
    values: &[u8],
    reached: &[bool],
) -> Vec<u8> {
    let kept = |(&byte, &reached): (&u8, &bool)| (!reached).then_some(byte == 1);
    let known = values.iter().zip(reached).map(kept).collect();
    compute(workings, design, state, known)
}

/// For each signal the signals it reads directly.
pub fn graph(workings: &Workings, design: &Design) -> Vec<Vec<usize>> {
    let reads = |signal| {
        let sources = (workings.sources)(design, signal).into_iter();
        sources.filter_map(Source::signal).collect()
    };
    (0..SIGNALS * design.n).map(reads).collect()
}
