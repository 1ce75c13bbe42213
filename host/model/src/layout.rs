//! Where everything stands in a file and in the body of a slice record.

use std::ops::Range;

pub const TAG_SIZE: u8 = 1;
pub const TAG_SLICE: u8 = 2;
pub const TAG_END: u8 = 3;

/// A record's header: the tag and two bytes of length.
pub const HEADER: usize = 3;
pub const SIZE_BODY: usize = 2;
pub const SLICE_BODY: usize = 124;
pub const END_BODY: usize = 0;

pub const SIZE_RECORD: usize = HEADER + SIZE_BODY;
pub const SLICE_RECORD: usize = HEADER + SLICE_BODY;
pub const END_RECORD: usize = HEADER + END_BODY;

/// The four letters of a slice.
pub const A: usize = 0;
pub const B: usize = 1;
pub const C: usize = 2;
pub const D: usize = 3;
pub const LETTERS: [usize; 4] = [A, B, C, D];
pub const LETTER_NAMES: [&str; 4] = ["A", "B", "C", "D"];

// Offsets in a slice body; where there is one a letter, that of letter A.
pub const NUMBER: usize = 0;
pub const KIND: usize = 1;
pub const MODE: usize = 2;
pub const SHIFT_DATA: usize = 6;
pub const CONTENTS: usize = 10;
pub const CARRY_DATA: usize = 42;
pub const CARRY_START: usize = 46;
pub const MUX: usize = 47;
pub const MAIN: usize = 51;
pub const SECOND: usize = 55;
pub const POWER_UP: usize = 59;
pub const SET_RESET_VALUES: usize = 60;
pub const SET_RESET_PIN: usize = 61;
pub const PINS: usize = 62;

/// The pins in their order in the file.
pub const PIN_NAMES: [&str; 31] = [
    "A1", "A2", "A3", "A4", "A5", "A6", "B1", "B2", "B3", "B4", "B5", "B6", "C1", "C2", "C3", "C4",
    "C5", "C6", "D1", "D2", "D3", "D4", "D5", "D6", "AX", "BX", "CX", "DX", "CE", "SR", "WE",
];
pub const PIN_COUNT: usize = PIN_NAMES.len();
pub const CE: usize = 28;
pub const SR: usize = 29;
pub const WE: usize = 30;

/// The pins of a table.
pub const TABLE_PINS: usize = 6;

/// Pin 1 to 6 of a letter's table.
pub fn table_pin(letter: usize, pin: usize) -> usize {
    TABLE_PINS * letter + pin - 1
}

/// A letter's bypass pin, AX to DX.
pub fn bypass_pin(letter: usize) -> usize {
    24 + letter
}

/// The code of a pin left open, the first codes of outside inputs and of outputs,
/// how many codes a slice has, and how many of them are outputs.
pub const OPEN_CODE: u16 = 2;
pub const INPUT_CODES: u16 = 256;
pub const OUTPUT_CODES: u16 = 4096;
pub const SLICE_CODES: u16 = 16;
pub const SLICE_OUTPUTS: u16 = 12;

/// The header of a record with a tag and a body of so many bytes.
pub fn header(tag: u8, body: usize) -> [u8; HEADER] {
    let [low, high] = (body as u16).to_le_bytes();
    [tag, low, high]
}

/// The length of a file of n slices.
pub const fn file_length(n: usize) -> usize {
    record_start(n) + END_RECORD
}

/// The offset of a slice record; with `number` = n, that of the end record.
pub const fn record_start(number: usize) -> usize {
    SIZE_RECORD + SLICE_RECORD * number
}

/// Two bytes, low byte first.
pub fn two_bytes(bytes: &[u8]) -> u16 {
    u16::from(bytes[0]) + 256 * u16::from(bytes[1])
}

/// Where a table's contents stand in a slice body.
pub fn contents_bytes(letter: usize) -> Range<usize> {
    let at = CONTENTS + 8 * letter;
    at..at + 8
}

/// A table's contents.
pub fn contents(body: &[u8], letter: usize) -> u64 {
    let low_first = body[contents_bytes(letter)].iter();
    low_first
        .rev()
        .fold(0, |word, &byte| word << 8 | u64::from(byte))
}

/// Where the code of a pin's driver stands in a slice body.
pub fn pin_bytes(pin: usize) -> Range<usize> {
    let at = PINS + 2 * pin;
    at..at + 2
}

/// The code of a pin's driver.
pub fn pin_code(body: &[u8], pin: usize) -> u16 {
    two_bytes(&body[pin_bytes(pin)])
}
