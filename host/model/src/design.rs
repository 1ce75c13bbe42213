//! A file that passed refusals 1 to 8, decoded, and what each signal reads.

use std::fmt;

use crate::layout::*;
use crate::rules::Rules;

#[derive(Clone, Copy, Debug, PartialEq, Eq)]
pub enum Kind {
    SliceL,
    SliceM,
}

#[derive(Clone, Copy, Debug, PartialEq, Eq)]
pub enum Mode {
    Logic,
    Memory,
    Shift,
}

#[derive(Clone, Copy, Debug, PartialEq, Eq)]
pub enum ShiftData {
    Bypass,
    Cascade,
}

#[derive(Clone, Copy, Debug, PartialEq, Eq)]
pub enum CarryData {
    O5,
    Bypass,
}

#[derive(Clone, Copy, Debug, PartialEq, Eq)]
pub enum CarryStart {
    Zero,
    One,
    Ax,
    SliceBelow,
}

#[derive(Clone, Copy, Debug, PartialEq, Eq)]
pub enum MuxOutput {
    O5,
    Sum,
    Carry,
    Wide,
    Second,
}

#[derive(Clone, Copy, Debug, PartialEq, Eq)]
pub enum MainInput {
    O6,
    O5,
    Sum,
    Carry,
    Wide,
    Bypass,
}

#[derive(Clone, Copy, Debug, PartialEq, Eq)]
pub enum SecondInput {
    O5,
    Bypass,
}

/// What drives a pin: nothing, where it is left open and the board pulls it up.
#[derive(Clone, Copy, Debug, PartialEq, Eq)]
pub enum Driver {
    Constant(bool),
    Open,
    Input(usize),
    Output { slice: usize, output: Output },
}

/// An output of a slice, with its letter.
#[derive(Clone, Copy, Debug, PartialEq, Eq)]
pub enum Output {
    O6(usize),
    Mux(usize),
    Main(usize),
}

impl Output {
    /// The output that has this number in its slice.
    pub fn numbered(k: u16) -> Option<Output> {
        let letter = usize::from(k % 4);
        match k {
            0..=3 => Some(Output::O6(letter)),
            4..=7 => Some(Output::Mux(letter)),
            8..SLICE_OUTPUTS => Some(Output::Main(letter)),
            _ => None,
        }
    }

    /// The signal that the output is.
    pub fn signal(self) -> Signal {
        match self {
            Output::O6(letter) => Signal::O6(letter),
            Output::Mux(letter) => Signal::Mux(letter),
            Output::Main(letter) => Signal::Main(letter),
        }
    }
}

/// The driver of a code, if there is one in a column of n slices and m inputs.
pub fn driver(code: u16, n: usize, m: usize) -> Option<Driver> {
    match code {
        0 => Some(Driver::Constant(false)),
        1 => Some(Driver::Constant(true)),
        OPEN_CODE => Some(Driver::Open),
        INPUT_CODES..OUTPUT_CODES => {
            let input = usize::from(code - INPUT_CODES);
            (input < m).then_some(Driver::Input(input))
        }
        OUTPUT_CODES.. => {
            let slice = usize::from((code - OUTPUT_CODES) / SLICE_CODES);
            let output = Output::numbered((code - OUTPUT_CODES) % SLICE_CODES)?;
            (slice < n).then_some(Driver::Output { slice, output })
        }
        _ => None,
    }
}

#[derive(Clone, Debug)]
pub struct Slice {
    pub kind: Kind,
    pub mode: [Mode; 4],
    pub shift_data: [ShiftData; 4],
    pub contents: [u64; 4],
    pub carry_data: [CarryData; 4],
    pub carry_start: CarryStart,
    pub mux: [MuxOutput; 4],
    pub main: [MainInput; 4],
    pub second: [SecondInput; 4],
    /// Bits 0 to 3 main flip-flops A to D, 4 to 7 second ones.
    pub power_up: u8,
    pub set_reset_values: u8,
    pub set_reset_used: bool,
    /// By the order of `layout::PIN_NAMES`.
    pub pins: [Driver; PIN_COUNT],
}

#[derive(Clone, Debug)]
pub struct Design {
    pub n: usize,
    pub m: usize,
    pub slices: Vec<Slice>,
}

impl Design {
    /// Decodes a file that passed `check` with the same rules.
    pub fn decode(rules: &Rules, file: &[u8], n: usize, m: usize) -> Design {
        let slice = |number| {
            let body = &file[record_start(number) + HEADER..][..SLICE_BODY];
            decode_slice(body, |code| {
                (rules.driver)(code, n, m).expect("the drivers were checked")
            })
        };
        Design {
            n,
            m,
            slices: (0..n).map(slice).collect(),
        }
    }
}

/// Decodes a slice body whose choices were checked, so the last arm of each
/// match is its last choice.
fn decode_slice(body: &[u8], driver: impl Fn(u16) -> Driver) -> Slice {
    Slice {
        kind: match body[KIND] {
            0 => Kind::SliceL,
            _ => Kind::SliceM,
        },
        mode: LETTERS.map(|letter| match body[MODE + letter] {
            0 => Mode::Logic,
            1 => Mode::Memory,
            _ => Mode::Shift,
        }),
        shift_data: LETTERS.map(|letter| match body[SHIFT_DATA + letter] {
            0 => ShiftData::Bypass,
            _ => ShiftData::Cascade,
        }),
        contents: LETTERS.map(|letter| contents(body, letter)),
        carry_data: LETTERS.map(|letter| match body[CARRY_DATA + letter] {
            0 => CarryData::O5,
            _ => CarryData::Bypass,
        }),
        carry_start: match body[CARRY_START] {
            0 => CarryStart::Zero,
            1 => CarryStart::One,
            2 => CarryStart::Ax,
            _ => CarryStart::SliceBelow,
        },
        mux: LETTERS.map(|letter| match body[MUX + letter] {
            0 => MuxOutput::O5,
            1 => MuxOutput::Sum,
            2 => MuxOutput::Carry,
            3 => MuxOutput::Wide,
            _ => MuxOutput::Second,
        }),
        main: LETTERS.map(|letter| match body[MAIN + letter] {
            0 => MainInput::O6,
            1 => MainInput::O5,
            2 => MainInput::Sum,
            3 => MainInput::Carry,
            4 => MainInput::Wide,
            _ => MainInput::Bypass,
        }),
        second: LETTERS.map(|letter| match body[SECOND + letter] {
            0 => SecondInput::O5,
            _ => SecondInput::Bypass,
        }),
        power_up: body[POWER_UP],
        set_reset_values: body[SET_RESET_VALUES],
        set_reset_used: body[SET_RESET_PIN] == 1,
        pins: std::array::from_fn(|pin| driver(pin_code(body, pin))),
    }
}

/// Signals of one slice.
pub const SIGNALS: usize = 32;

/// A signal of a slice, with its letter.
#[derive(Clone, Copy, Debug, PartialEq, Eq)]
pub enum Signal {
    O6(usize),
    O5(usize),
    Carry(usize),
    Sum(usize),
    F7A,
    F7B,
    F8,
    Mc31,
    Mux(usize),
    Main(usize),
    Second(usize),
}

impl Signal {
    /// The signal that has this number in its slice.
    pub fn numbered(k: usize) -> Signal {
        match k {
            0..=3 => Signal::O6(k),
            4..=7 => Signal::O5(k - 4),
            8..=11 => Signal::Carry(k - 8),
            12..=15 => Signal::Sum(k - 12),
            16 => Signal::F7A,
            17 => Signal::F7B,
            18 => Signal::F8,
            19 => Signal::Mc31,
            20..=23 => Signal::Mux(k - 20),
            24..=27 => Signal::Main(k - 24),
            28..=31 => Signal::Second(k - 28),
            _ => panic!("a slice has {SIGNALS} signals"),
        }
    }

    /// The signal's number in the column.
    pub fn of_slice(self, slice: usize) -> usize {
        let k = match self {
            Signal::O6(letter) => letter,
            Signal::O5(letter) => 4 + letter,
            Signal::Carry(letter) => 8 + letter,
            Signal::Sum(letter) => 12 + letter,
            Signal::F7A => 16,
            Signal::F7B => 17,
            Signal::F8 => 18,
            Signal::Mc31 => 19,
            Signal::Mux(letter) => 20 + letter,
            Signal::Main(letter) => 24 + letter,
            Signal::Second(letter) => 28 + letter,
        };
        SIGNALS * slice + k
    }

    /// The wide signal that a letter's MUX or main flip-flop can take.
    pub fn wide(letter: usize) -> Signal {
        [Signal::F7A, Signal::F8, Signal::F7B, Signal::Mc31][letter]
    }
}

/// The signal's name in its slice.
impl fmt::Display for Signal {
    fn fmt(&self, out: &mut fmt::Formatter) -> fmt::Result {
        let (before, after) = match self {
            Signal::O6(letter) => (LETTER_NAMES[*letter], ".O6"),
            Signal::O5(letter) => (LETTER_NAMES[*letter], ".O5"),
            Signal::Carry(letter) => (LETTER_NAMES[*letter], ".carry"),
            Signal::Sum(letter) => (LETTER_NAMES[*letter], ".sum"),
            Signal::F7A => ("F7A", ""),
            Signal::F7B => ("F7B", ""),
            Signal::F8 => ("F8", ""),
            Signal::Mc31 => ("MC31", ""),
            Signal::Mux(letter) => (LETTER_NAMES[*letter], "MUX"),
            Signal::Main(letter) => (LETTER_NAMES[*letter], "Q"),
            Signal::Second(letter) => (LETTER_NAMES[*letter], "5Q"),
        };
        write!(out, "{before}{after}")
    }
}

/// Something that a signal reads.
#[derive(Clone, Copy, Debug, PartialEq, Eq)]
pub enum Source {
    Constant(bool),
    Input(usize),
    Signal(usize),
}

impl Source {
    /// The signal, if it is one.
    pub fn signal(self) -> Option<usize> {
        match self {
            Source::Signal(signal) => Some(signal),
            Source::Constant(_) | Source::Input(_) => None,
        }
    }
}

/// What a signal reads, and the pin of its slice through which it does, if through one.
#[derive(Clone, Copy, Debug, PartialEq, Eq)]
pub struct Read {
    pub pin: Option<usize>,
    pub source: Source,
}

impl From<Source> for Read {
    fn from(source: Source) -> Read {
        Read { pin: None, source }
    }
}

impl Design {
    /// For each signal the signals it reads directly.
    pub fn graph(&self) -> Vec<Vec<usize>> {
        (0..SIGNALS * self.n).map(|x| self.reads(x)).collect()
    }

    /// The signals that a signal reads directly; one is there twice if it is
    /// read in two ways.
    pub fn reads(&self, signal: usize) -> Vec<usize> {
        let sources = self.sources(signal);
        sources.into_iter().filter_map(Source::signal).collect()
    }

    /// All that a signal reads directly.
    pub fn sources(&self, signal: usize) -> Vec<Source> {
        let reads = self.reads_by_pin(signal).into_iter();
        reads.map(|read| read.source).collect()
    }

    /// The same, with the pins.
    pub fn reads_by_pin(&self, signal: usize) -> Vec<Read> {
        let at = signal / SIGNALS;
        let slice = &self.slices[at];
        let own = |signal: Signal| Read::from(Source::Signal(signal.of_slice(at)));
        let pin = |pin| self.through(at, pin);
        match Signal::numbered(signal % SIGNALS) {
            Signal::O6(letter) => {
                let first = match slice.mode[letter] {
                    Mode::Logic | Mode::Memory => 1,
                    Mode::Shift => 2,
                };
                (first..=6).map(|i| pin(table_pin(letter, i))).collect()
            }
            Signal::O5(letter) => match slice.mode[letter] {
                Mode::Logic | Mode::Memory => (1..=5).map(|i| pin(table_pin(letter, i))).collect(),
                Mode::Shift => vec![],
            },
            Signal::Carry(letter) => vec![
                own(Signal::O6(letter)),
                self.carry_in(at, letter),
                self.carry_data(at, letter),
            ],
            Signal::Sum(letter) => vec![own(Signal::O6(letter)), self.carry_in(at, letter)],
            Signal::F7A => vec![pin(bypass_pin(A)), own(Signal::O6(A)), own(Signal::O6(B))],
            Signal::F7B => vec![pin(bypass_pin(C)), own(Signal::O6(C)), own(Signal::O6(D))],
            Signal::F8 => vec![pin(bypass_pin(B)), own(Signal::F7A), own(Signal::F7B)],
            Signal::Mc31 => vec![],
            Signal::Mux(letter) => vec![own(match slice.mux[letter] {
                MuxOutput::O5 => Signal::O5(letter),
                MuxOutput::Sum => Signal::Sum(letter),
                MuxOutput::Carry => Signal::Carry(letter),
                MuxOutput::Wide => Signal::wide(letter),
                MuxOutput::Second => Signal::Second(letter),
            })],
            Signal::Main(_) | Signal::Second(_) => vec![],
        }
    }

    /// What drives a pin.
    pub fn pin(&self, slice: usize, pin: usize) -> Source {
        match self.slices[slice].pins[pin] {
            Driver::Constant(bit) => Source::Constant(bit),
            Driver::Open => Source::Constant(true),
            Driver::Input(input) => Source::Input(input),
            Driver::Output { slice, output } => Source::Signal(output.signal().of_slice(slice)),
        }
    }

    /// Reads a pin.
    fn through(&self, slice: usize, pin: usize) -> Read {
        Read {
            pin: Some(pin),
            source: self.pin(slice, pin),
        }
    }

    /// The carry coming into a letter.
    pub(crate) fn carry_in(&self, slice: usize, letter: usize) -> Read {
        if letter != A {
            return Source::Signal(Signal::Carry(letter - 1).of_slice(slice)).into();
        }
        match self.slices[slice].carry_start {
            CarryStart::Zero => Source::Constant(false).into(),
            CarryStart::One => Source::Constant(true).into(),
            CarryStart::Ax => self.through(slice, bypass_pin(A)),
            CarryStart::SliceBelow => Source::Signal(Signal::Carry(D).of_slice(slice - 1)).into(),
        }
    }

    /// The carry data of a letter.
    pub(crate) fn carry_data(&self, slice: usize, letter: usize) -> Read {
        match self.slices[slice].carry_data[letter] {
            CarryData::O5 => Source::Signal(Signal::O5(letter).of_slice(slice)).into(),
            CarryData::Bypass => self.through(slice, bypass_pin(letter)),
        }
    }
}
