//! The paper's worked cases, sizes at the limits and truncations, with the
//! lines they have to give, written by hand.

use crate::column::{z, z_slicem, Column};
use model::layout::*;

/// A file and the line that it has to give.
pub struct Case {
    pub name: String,
    pub file: Vec<u8>,
    pub line: String,
}

pub fn case(name: impl Into<String>, file: Vec<u8>, line: impl Into<String>) -> Case {
    Case {
        name: name.into(),
        file,
        line: line.into(),
    }
}

/// A column's file as a case.
pub fn column_case(name: impl Into<String>, column: Column, line: impl Into<String>) -> Case {
    case(name, column.bytes(), line)
}

/// Cases 1 to 12.
pub fn worked() -> Vec<Case> {
    let mut z_and_one_more = z().bytes();
    z_and_one_more.push(0);
    vec![
        column_case("1: Z", z(), "accepted 1 0"),
        column_case("2: contents A = 1", z().contents(0, A, 1), "accepted 1 0"),
        column_case(
            "3: carry start 1",
            z().set(0, CARRY_START, 1),
            "accepted 1 0",
        ),
        column_case("4: all contents ones", all_ones(), "accepted 1 0"),
        column_case("5: A1 by 4096", z().pin(0, "A1", 4096), "refused 9 0"),
        column_case("6: A1 by 4100", z().pin(0, "A1", 4100), "refused 9 4"),
        column_case("6: A6 by 4100", z().pin(0, "A6", 4100), "accepted 1 0"),
        column_case("7: A1 by 4104", z().pin(0, "A1", 4104), "accepted 1 0"),
        column_case("8: driver 3", z().pin(0, "A1", 3), "refused 7 5"),
        column_case("8: driver 256", z().pin(0, "A1", 256), "refused 7 5"),
        column_case("8: driver 4108", z().pin(0, "A1", 4108), "refused 7 5"),
        column_case("8: driver 4112", z().pin(0, "A1", 4112), "refused 7 5"),
        column_case("9: D shifts", d_shifts(), "accepted 1 0"),
        column_case("10: D is memory", d_is_memory(), "accepted 1 0"),
        // Case 11 is about the clock; of its file there is only to say that it is accepted.
        column_case("11: SR over CE", set_reset_over_enable(), "accepted 1 0"),
        case("12: empty input", vec![], "refused 1 0"),
        case("12: Z and one byte more", z_and_one_more, "refused 8 135"),
    ]
}

/// The file of a worked case, the first of its number.
pub fn worked_file(number: usize) -> Vec<u8> {
    let start = format!("{number}:");
    let mut cases = worked().into_iter();
    let case = cases.find(|case| case.name.starts_with(&start));
    case.expect("a worked case").file
}

fn all_ones() -> Column {
    let column = z().set(0, CARRY_START, 1);
    let fill = |column: Column, letter| column.contents(0, letter, u64::MAX);
    LETTERS.into_iter().fold(column, fill)
}

fn d_shifts() -> Column {
    let column = z_slicem().set(0, MODE + D, 2);
    column.pin(0, "DX", 1).pin(0, "WE", 1)
}

fn d_is_memory() -> Column {
    let pins = ["D1", "D2", "D3", "D4", "D5", "D6", "DX", "WE"];
    let column = z_slicem().set(0, MODE + D, 1);
    let drive = |column: Column, pin| column.pin(0, pin, 1);
    pins.into_iter().fold(column, drive)
}

fn set_reset_over_enable() -> Column {
    let column = z().set(0, SET_RESET_PIN, 1).set(0, SET_RESET_VALUES, 1);
    column.pin(0, "SR", 1).pin(0, "CE", 0)
}

/// Every truncation of Z: what is cut is the size record (at 0), the slice (at
/// 5) or the end record (at 132).
pub fn truncations() -> Vec<Case> {
    let cut = |length: usize| {
        let line = match length {
            0..=4 => "refused 1 0",
            5..=131 => "refused 1 5",
            _ => "refused 1 132",
        };
        let file = z().bytes()[..length].to_vec();
        case(format!("the first {length} bytes of Z"), file, line)
    };
    (0..135).map(cut).collect()
}

/// Lengths at and past the limits.
pub fn sizes() -> Vec<Case> {
    let full = full_file();
    vec![
        case("64 slices", full.clone(), "accepted 64 0"),
        case(
            "64 slices without the last byte",
            full[..8135].to_vec(),
            "refused 1 8133",
        ),
        case(
            "64 slices and one byte more",
            longer(&full, 8137),
            "refused 8 8136",
        ),
        column_case(
            "64 slices, 64 inputs",
            Column::zeros(64, 64),
            "accepted 64 64",
        ),
    ]
}

/// Files far longer than any that is accepted.
pub fn long_files() -> Vec<Case> {
    let ten_million = 10_000_000;
    vec![
        case(
            "Z and 100,000 bytes more",
            longer(&z().bytes(), 100_135),
            "refused 8 135",
        ),
        case("10 MB of zeros", longer(&[], ten_million), "refused 2 0"),
        case(
            "64 slices and 10 MB",
            longer(&full_file(), ten_million),
            "refused 8 8136",
        ),
    ]
}

fn full_file() -> Vec<u8> {
    let file = Column::zeros(64, 0).bytes();
    assert_eq!(file.len(), 8136);
    file
}

/// A file with zeros after it, up to a length.
fn longer(file: &[u8], length: usize) -> Vec<u8> {
    let mut file = file.to_vec();
    file.resize(length, 0);
    file
}
