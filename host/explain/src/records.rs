//! The records due, one after the other, each at its place: refusals 1 to 8.

use std::iter::successors;

use model::Rules;

use crate::due::Due;
use crate::fault::Fault;
use crate::words::counted;
use crate::{framing, size, slice};

/// What the records have.
pub struct Found {
    pub faults: Vec<Fault>,
    /// The record after which nothing can be told, if there is one.
    pub stopped: Option<Due>,
}

/// The faults of all records of a file whose n and m stand so. A wrong tag or length hides nothing
/// behind it where the next record begins as it should: the record is then taken as the one due.
pub fn faults(rules: &Rules, file: &[u8], n: usize, m: usize) -> Found {
    let mut faults = vec![];
    for due in successors(Some(Due::Size { n }), |due| due.next()) {
        let framing = framing::faults(file, due);
        let is_framed = framing.is_empty();
        faults.extend(framing);
        if !is_framed && !due.is_followed(file) {
            let stopped = Some(due);
            return Found { faults, stopped };
        }
        faults.extend(match due {
            Due::Size { .. } => size::faults(rules, n, m),
            Due::Slice { number, .. } => slice::faults(rules, file, number, n, m),
            Due::End { .. } => bytes_after(file, due, n).into_iter().collect(),
        });
    }
    let stopped = None;
    Found { faults, stopped }
}

/// Bytes after the end record.
fn bytes_after(file: &[u8], due: Due, n: usize) -> Option<Fault> {
    let end = due.end();
    let more = file.len().checked_sub(end).filter(|&more| more > 0)?;
    let slices = counted(n, "slice");
    Some(Fault {
        number: 8,
        place: end,
        at: format!("byte {end}, after the end record"),
        stands: format!("{} more", counted(more, "byte")),
        may: format!("nothing: a file of {slices} ends at byte {end}"),
    })
}
