//! Slices that are not the ones due: 4.

use super::*;

/// Slice 1 of four was left out: then 2 and 3 come too early, and the end.
#[test]
fn a_slice_left_out() {
    let file = Column::zeros(4, 0).bytes();
    let file = [&file[..132], &file[259..]].concat();
    let lines = [
        "4: a record or slice that is not the one due",
        "  at      slice 1, its number: byte 135, in the record at byte 132",
        "  stands  2: was slice 1 left out?",
        "  may     1",
        "4: a record or slice that is not the one due",
        "  at      slice 2, its number: byte 262, in the record at byte 259",
        "  stands  3, which follows the 2 before it",
        "  may     2",
        "4: a record or slice that is not the one due",
        "  at      the tag of slice 3 (of 0 to 3): byte 386",
        "  stands  3 (end): n says 4 slices, and only 3 are there",
        "  may     2 (slice)",
        TAKEN,
        ENDS,
        NO_LOOPS,
    ];
    assert_printed(&file, &lines);
}

#[test]
fn a_slice_twice() {
    let file = Column::zeros(3, 0).bytes();
    let file = [&file[..259], &file[132..]].concat();
    let lines = [
        "4: a record or slice that is not the one due",
        "  at      slice 2, its number: byte 262, in the record at byte 259",
        "  stands  1: does slice 1 stand twice?",
        "  may     2",
        "4: a record or slice that is not the one due",
        "  at      the tag of the end record: byte 386",
        "  stands  2 (slice): n says 3 slices, and one more follows",
        "  may     3 (end)",
        TAKEN,
        "What follows byte 386 can't be told apart: the file doesn't end at byte 389.",
    ];
    assert_printed(&file, &lines);
}

#[test]
fn other_numbers() {
    let stands = |n: usize, slice: usize, number: u8| {
        let file = Column::zeros(n, 0).set(slice, NUMBER, number).bytes();
        let faults = explained(&file).faults;
        assert_eq!(places(&file), [(4, 5 + 127 * slice)]);
        faults[0].stands.clone()
    };
    assert_eq!(stands(6, 1, 5), "5: were slices 1 to 4 left out?");
    assert_eq!(stands(6, 1, 6), "6: n says 6 slices");
    assert_eq!(stands(1, 0, 255), "255: n says 1 slice");
}

/// A slice is judged as the one due: 3 is no carry start of the first, whatever its number.
#[test]
fn a_slice_is_the_one_due() {
    let column = Column::zeros(2, 0).set(0, NUMBER, 1).set(1, NUMBER, 0);
    let column = column.set(0, CARRY_START, 3).set(1, CARRY_START, 3);
    assert_eq!(places(&column.bytes()), [(4, 5), (6, 5), (4, 132)]);
}
