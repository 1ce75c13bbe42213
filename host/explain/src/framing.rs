//! What is wrong with a record's header, and bytes that are missing: refusals 1, 2, 3, and 4 for
//! the tag.

use std::ops::Range;

use model::layout::*;

use crate::due::{Due, Kind};
use crate::fault::Fault;
use crate::words::{bytes, counted};

/// The faults of the header and the length of the record that is due.
pub fn faults(file: &[u8], due: Due) -> Vec<Fault> {
    let rest = file.get(due.place()..).unwrap_or(&[]);
    let Some((header, body)) = rest.split_first_chunk() else {
        return vec![cut(due, "header", 0..HEADER, rest.len())];
    };
    let tag = tag(file, due, header);
    // Behind another tag another record may stand, and its length is its own.
    if tag.is_some() && !due.is_followed(file) {
        return tag.into_iter().collect();
    }
    let mut faults: Vec<Fault> = tag.into_iter().chain(length(due, header)).collect();
    if body.len() < due.kind().body {
        let all = HEADER..HEADER + due.kind().body;
        faults.push(cut(due, "body", all, body.len()));
    }
    faults
}

/// Bytes `all` of the record are due, and only so many of them are there.
fn cut(due: Due, part: &str, all: Range<usize>, there: usize) -> Fault {
    let (place, count) = (due.place(), all.len());
    let missing = match count - there {
        1 => "1 byte is missing".to_string(),
        missing => format!("{missing} bytes are missing"),
    };
    let length = match due {
        Due::Size { .. } => String::new(),
        Due::Slice { n, .. } | Due::End { n } => {
            let (slices, length) = (counted(n, "slice"), file_length(n));
            format!("; a file of {slices} has {length} bytes")
        }
    };
    let all = bytes(place + all.start..place + all.end);
    Fault {
        number: 1,
        place,
        at: format!("the {part} of {}: {all}", due.name()),
        stands: format!("{there} of {count} bytes: {missing}"),
        may: format!("{count} bytes{length}"),
    }
}

/// A tag that doesn't exist, or is not the one due.
fn tag(file: &[u8], due: Due, header: &[u8; HEADER]) -> Option<Fault> {
    let place = due.place();
    let (number, stands) = match Kind::tagged(header[0]) {
        None => (2, format!("{}, which is no tag", header[0])),
        Some(kind) if kind == due.kind() => return None,
        Some(kind) if kind.header() == *header && !due.is_followed(file) => {
            (4, format!("{}{}", kind.worded(), hint(due, kind)))
        }
        Some(kind) => (4, kind.worded()),
    };
    Some(Fault {
        number,
        place,
        at: format!("the tag of {}: {}", due.name(), bytes(place..place + 1)),
        stands,
        may: due.kind().worded(),
    })
}

/// What may have happened where a record of another kind stands.
fn hint(due: Due, kind: Kind) -> String {
    match (due, kind.tag) {
        (Due::Size { .. }, _) => ": was the size record left out?".to_string(),
        (Due::Slice { number, n }, TAG_END) => {
            let there = match number {
                0 => "none is".to_string(),
                1 => "only 1 is".to_string(),
                _ => format!("only {number} are"),
            };
            format!(": n says {}, and {there} there", counted(n, "slice"))
        }
        (Due::End { n }, TAG_SLICE) => {
            format!(": n says {}, and one more follows", counted(n, "slice"))
        }
        _ => String::new(),
    }
}

/// A length that is not that of the record due.
fn length(due: Due, header: &[u8; HEADER]) -> Option<Fault> {
    let place = due.place();
    let stands = usize::from(two_bytes(&header[1..]));
    if stands == due.kind().body {
        return None;
    }
    let (name, at) = (due.name(), bytes(place + 1..place + HEADER));
    Some(Fault {
        number: 3,
        place,
        at: format!("the length of {name}: {at}, in the record at byte {place}"),
        stands: stands.to_string(),
        may: due.kind().body.to_string(),
    })
}
