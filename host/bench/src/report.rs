//! Lines of numbers, as the benchmarks print them.

use crate::timing::{Spread, ROUNDS, RUN};
use std::io::{Result, Write};

/// What the numbers of a line are.
pub fn heading(out: &mut impl Write) -> Result<()> {
    writeln!(out, "A number from the fastest runs, then median (quartiles) over {ROUNDS} rounds of runs of {RUN:?}.")
}

pub fn line(
    out: &mut impl Write,
    name: &str,
    spread: Spread,
    digits: usize,
    note: &str,
) -> Result<()> {
    let write = |number: f64| format!("{number:.digits$}");
    let quartiles = format!("({} to {})", write(spread.lower), write(spread.upper));
    let (fastest, median) = (write(spread.fastest), write(spread.median));
    writeln!(
        out,
        "  {name:<34}{fastest:>8}{median:>9} {quartiles:<20}{note}"
    )
}
