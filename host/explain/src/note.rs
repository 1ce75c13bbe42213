//! What a list of faults leaves out, and why.

use std::ops::RangeInclusive;

use crate::due::Due;
use crate::fault::Fault;
use crate::size;

/// A sentence a line, or nothing where all was looked at as it stands.
pub fn note(
    file: &[u8],
    stopped: Option<Due>,
    faults: &[Fault],
    loops_looked_for: bool,
) -> Option<String> {
    // Of the record where it stopped nothing was taken.
    let stop = stopped.map(Due::place);
    let has = |numbers: RangeInclusive<u8>| {
        let is_one = |x: &Fault| numbers.contains(&x.number) && Some(x.place) != stop;
        faults.iter().any(is_one)
    };
    let mut lines = vec![];
    if faults.iter().any(|x| (x.number, x.place) == (5, 0)) {
        let (n, m) = size::of(file);
        let line = format!("The rest was read with n = {n} and m = {m}, as they stand.");
        lines.push(line);
    }
    if has(2..=4) {
        lines.push("Each record was taken as the one due at its place.".to_string());
    }
    lines.extend(stopped.and_then(|due| why_stopped(file, due)));
    if !loops_looked_for {
        lines.push("Loops were not looked for.".to_string());
    } else if has(5..=7) {
        let line = "Of loops only those are listed that stay whatever the faults above become.";
        lines.push(line.to_string());
    }
    (!lines.is_empty()).then(|| lines.join("\n"))
}

/// Why nothing after a record could be looked at, if anything was due there.
fn why_stopped(file: &[u8], due: Due) -> Option<String> {
    let (place, end) = (due.place(), due.end());
    if file.len() <= end {
        let line = "The file ends there: what should follow could not be looked at.";
        return due.next().map(|_| line.to_string());
    }
    let why = match (due, due.next()) {
        // Whatever stands for n, nothing is due by it.
        (Due::Size { .. }, _) => String::new(),
        (_, Some(next)) => format!(": {} doesn't begin at byte {end}", next.name()),
        (_, None) => format!(": the file doesn't end at byte {end}"),
    };
    let lost = format!("What follows byte {place} can't be told apart{why}.");
    Some(lost)
}
