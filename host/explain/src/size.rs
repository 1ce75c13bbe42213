//! n and m: refusal 5 of the size record.

use std::ops::RangeInclusive;

use model::layout::*;
use model::Rules;

use crate::fault::Fault;

/// n and m as they stand; 0 where the file has ended before.
pub fn of(file: &[u8]) -> (usize, usize) {
    let byte = |at| file.get(at).copied().map_or(0, usize::from);
    (byte(HEADER), byte(HEADER + 1))
}

/// n and m outside their lists.
pub fn faults(rules: &Rules, n: usize, m: usize) -> Vec<Fault> {
    let sizes = [
        (n, &rules.n, "n, the number of slices", HEADER),
        (m, &rules.m, "m, the number of outside inputs", HEADER + 1),
    ];
    let fault = |(stands, list, name, at): (usize, &RangeInclusive<usize>, &str, usize)| {
        (!list.contains(&stands)).then(|| Fault {
            number: 5,
            place: 0,
            at: format!("{name}: byte {at}, in the size record"),
            stands: stands.to_string(),
            may: format!("{} to {}", list.start(), list.end()),
        })
    };
    sizes.into_iter().filter_map(fault).collect()
}
