//! Names of what a pin can read and of all signals: `in 3`, `s3.B.O6`, `s3.BQ`.

use model::design::{Driver, Output, Signal, SIGNALS};
use model::layout::*;

/// The last input and the last slice that a driver's code can name.
pub const LAST_INPUT: usize = (OUTPUT_CODES - INPUT_CODES - 1) as usize;
const LAST_SLICE: usize = ((u16::MAX - OUTPUT_CODES) / SLICE_CODES) as usize;

/// Something that has a bit: an outside input, or a signal by its number in the column.
#[derive(Clone, Copy, Debug, PartialEq, Eq)]
pub enum Wire {
    Input(usize),
    Signal(usize),
}

/// The name of a wire. In a word of its own an input is written without the space.
pub fn wire(wire: Wire) -> String {
    match wire {
        Wire::Input(input) => format!("in{input}"),
        Wire::Signal(signal) => self::signal(signal),
    }
}

/// The name of a signal by its number in the column.
pub fn signal(number: usize) -> String {
    let signal = Signal::numbered(number % SIGNALS);
    format!("s{}.{signal}", number / SIGNALS)
}

/// The number of a named signal, whether the column has its slice or not.
pub fn signal_named(name: &str) -> Option<usize> {
    let (slice, name) = name.strip_prefix('s')?.split_once('.')?;
    let slice = number(slice).filter(|&slice| slice <= LAST_SLICE)?;
    let k = (0..SIGNALS).find(|&k| Signal::numbered(k).to_string() == name)?;
    Some(SIGNALS * slice + k)
}

/// The number of a named table, `s0.A`: that of its word in the contents.
pub fn table_named(name: &str) -> Option<usize> {
    let signal = signal_named(&format!("{name}.O6"))?;
    Some(LETTERS.len() * (signal / SIGNALS) + signal % SIGNALS)
}

/// The number of an input written as `in3`.
fn input_named(name: &str) -> Option<usize> {
    number(name.strip_prefix("in")?).filter(|&input| input <= LAST_INPUT)
}

/// The wire of a name: `in3`, `s0.AQ`.
pub fn wire_named(name: &str) -> Option<Wire> {
    let input = input_named(name).map(Wire::Input);
    input.or(signal_named(name).map(Wire::Signal))
}

/// A decimal number of at most seven digits, written in the one way that there is.
pub fn number(digits: &str) -> Option<usize> {
    let is_number = digits.len() <= 7 && digits.bytes().all(|x| x.is_ascii_digit());
    let is_short = digits == "0" || !digits.starts_with('0');
    digits.parse().ok().filter(|_| is_number && is_short)
}

/// What stands for a pin that is left open.
pub const OPEN: &str = "open";

/// A driver by its code. Inputs and slices that the column doesn't have are named too; a code that stands for nothing is written as a number.
pub fn driver(code: u16) -> String {
    match code {
        0 | 1 => code.to_string(),
        OPEN_CODE => OPEN.to_string(),
        INPUT_CODES..OUTPUT_CODES => format!("in {}", code - INPUT_CODES),
        _ => match wire_of(code) {
            Some(Wire::Signal(number)) => signal(number),
            _ => format!("code {code}"),
        },
    }
}

/// The wire that a code stands for in a column that is large enough.
pub fn wire_of(code: u16) -> Option<Wire> {
    match model::design::driver(code, usize::MAX, usize::MAX)? {
        Driver::Constant(_) | Driver::Open => None,
        Driver::Input(input) => Some(Wire::Input(input)),
        Driver::Output { slice, output } => Some(Wire::Signal(output.signal().of_slice(slice))),
    }
}

/// The code of a wire as a driver, where a pin can be driven by it.
pub fn code_of(wire: Wire) -> Option<u16> {
    match wire {
        Wire::Input(input) => Some(INPUT_CODES + input as u16),
        Wire::Signal(number) => {
            let signal = Signal::numbered(number % SIGNALS);
            let is_signal = |output: Output| output.signal() == signal;
            let k = (0..SLICE_OUTPUTS).find(|&k| Output::numbered(k).is_some_and(is_signal))?;
            Some(OUTPUT_CODES + SLICE_CODES * (number / SIGNALS) as u16 + k)
        }
    }
}

/// The flip-flop of a bit in a byte of eight: AQ to DQ, then A5Q to D5Q.
pub fn flop(bit: usize) -> String {
    match bit.checked_sub(LETTERS.len()) {
        None => format!("{}Q", LETTER_NAMES[bit]),
        Some(letter) => format!("{}5Q", LETTER_NAMES[letter]),
    }
}

#[cfg(test)]
mod tests {
    use super::*;

    #[test]
    fn drivers_have_the_names_of_the_paper() {
        for (code, name) in [
            (0, "0"),
            (1, "1"),
            (2, "open"),
            (3, "code 3"),
            (255, "code 255"),
            (256, "in 0"),
            (319, "in 63"),
            (4095, "in 3839"),
            (4096, "s0.A.O6"),
            (4099, "s0.D.O6"),
            (4100, "s0.AMUX"),
            (4107, "s0.DQ"),
            (4108, "code 4108"),
            (4111, "code 4111"),
            (4112, "s1.A.O6"),
            (65531, "s3839.DQ"),
            (65535, "code 65535"),
        ] {
            assert_eq!(driver(code), name);
        }
    }

    #[test]
    fn names_lead_back() {
        for number in 0..64 * SIGNALS {
            assert_eq!(signal_named(&signal(number)), Some(number));
        }
        for code in 0..=u16::MAX {
            assert_eq!(wire_of(code).and_then(code_of), wire_of(code).map(|_| code));
        }
        for name in [
            "s0", "s.AQ", "s0.aq", "sx.AQ", "s00.AQ", "s+1.AQ", "s3840.AQ", "AQ", "s0.A",
        ] {
            assert_eq!(signal_named(name), None, "{name}");
        }
        for name in ["in3840", "in03", "in", "in-1", "xin3", "in12345678"] {
            assert_eq!(wire_named(name), None, "{name}");
        }
        assert_eq!(wire_named("in3839"), Some(Wire::Input(3839)));
        assert_eq!((table_named("s5.C"), table_named("s5.E")), (Some(22), None));
    }
}
