//! Names of wires: `s3_B_O6` is O6 of letter B of slice 3, `s3_BMUX` its output BMUX, `s3_B6` its pin B6.

use model::design::{Driver, Output, Signal};
use model::layout::{LETTER_NAMES, PIN_NAMES};

pub fn signal(slice: usize, signal: Signal) -> String {
    let name = signal.to_string().replace('.', "_").to_uppercase();
    format!("s{slice}_{name}")
}

pub fn pin(slice: usize, pin: usize) -> String {
    format!("s{slice}_{}", PIN_NAMES[pin])
}

/// Bit 31 of a table in shift mode.
pub fn bit_31(slice: usize, letter: usize) -> String {
    format!("s{slice}_{}_Q31", LETTER_NAMES[letter])
}

pub fn constant(bit: bool) -> String {
    format!("1'b{}", u8::from(bit))
}

/// What drives a pin.
pub fn driver(driver: Driver) -> String {
    match driver {
        Driver::Constant(bit) => constant(bit),
        // Pulled up.
        Driver::Open => format!("{} /* open */", constant(true)),
        Driver::Input(input) => format!("inputs[{input}]"),
        Driver::Output { slice, output } => match output {
            Output::O6(letter) => signal(slice, Signal::O6(letter)),
            Output::Mux(letter) => signal(slice, Signal::Mux(letter)),
            Output::Main(letter) => signal(slice, Signal::Main(letter)),
        },
    }
}
