//! The first fault is what the proved judge says.

use explain::{explain, Explained};
use quagmuffin::judge;

use crate::files;

/// No fault and no note where the judge accepts; else its refusal comes first.
#[test]
fn the_first_fault_is_the_judges() {
    let mut accepted = 0;
    for file in files::all() {
        let Explained { faults, note } = explain(&file);
        let first = faults
            .first()
            .map(|fault| (fault.number, fault.place as u64));
        let refused = judge(&file).err().map(|x| (x.number, x.place));
        assert_eq!(first, refused, "{file:?}");
        if refused.is_none() {
            assert_eq!(note, None, "{file:?}");
            accepted += 1;
        }
    }
    assert!(accepted > 1000);
}

/// Faults stand in the order of the file, and those of one record in the order of its tests.
#[test]
fn faults_are_in_the_order_of_the_tests() {
    // The tests of a record: 1, 2, 4, 3, 1, 4, 5, 6, 7. Of 1 and 4 two are there.
    let ranks: [&[usize]; 10] = [
        &[],
        &[0, 4],
        &[1],
        &[3],
        &[2, 5],
        &[6],
        &[7],
        &[8],
        &[9],
        &[10],
    ];
    for file in files::all() {
        let mut last = (0, 0);
        for fault in explain(&file).faults {
            // 8 and 9 come after all records, 8 at the end of the file, 9 by signals.
            let place = match fault.number {
                9 => usize::MAX,
                _ => fault.place,
            };
            let later = |rank: &&usize| (place, **rank) >= last;
            let rank = ranks[usize::from(fault.number)].iter().find(later);
            last = (
                place,
                *rank.unwrap_or_else(|| panic!("{fault} is out of order: {file:?}")),
            );
        }
    }
}
