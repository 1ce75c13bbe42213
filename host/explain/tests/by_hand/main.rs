//! Explanations written by hand from docs/FORMAT.md. Slice s begins at byte 5 + 127s, its body
//! three bytes later: 5, 132, 259, 386 and 8, 135, 262, 389.

mod choices;
mod combinations;
mod drivers;
mod framing;
mod loops;
mod numbers;
mod sizes;
mod together;

use explain::{explain, Explained};
use model::layout::*;
use quagmuffin::judge;
use testkit::column::{z, Column};

/// The explanation, whose first fault is the proved judge's.
fn explained(file: &[u8]) -> Explained {
    let explained = explain(file);
    let first = explained.faults.first();
    let first = first.map(|fault| (fault.number, fault.place as u64));
    assert_eq!(first, judge(file).err().map(|x| (x.number, x.place)));
    explained
}

/// All faults and the note, as they are printed.
fn printed(file: &[u8]) -> String {
    let Explained { faults, note } = explained(file);
    let blocks = faults.iter().map(|fault| fault.to_string()).chain(note);
    blocks.collect::<Vec<_>>().join("\n")
}

/// The numbers and places of all faults.
fn places(file: &[u8]) -> Vec<(u8, usize)> {
    let faults = explained(file).faults.into_iter();
    faults.map(|fault| (fault.number, fault.place)).collect()
}

fn assert_printed(file: &[u8], lines: &[&str]) {
    assert_eq!(printed(file), lines.join("\n"));
}

/// A column's file with one byte replaced.
fn with(column: Column, place: usize, byte: u8) -> Vec<u8> {
    let mut file = column.bytes();
    file[place] = byte;
    file
}

const TAKEN: &str = "Each record was taken as the one due at its place.";
const ENDS: &str = "The file ends there: what should follow could not be looked at.";
const NO_LOOPS: &str = "Loops were not looked for.";
const SOME_LOOPS: &str =
    "Of loops only those are listed that stay whatever the faults above become.";

#[test]
fn nothing_is_wrong() {
    assert_printed(&z().bytes(), &[]);
}
