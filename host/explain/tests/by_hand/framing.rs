//! Refusals 1, 2, 3, 8, and 4 for the tag.

use super::*;

#[test]
fn an_empty_file() {
    let lines = [
        "1: the file ends too early",
        "  at      the header of the size record: bytes 0 to 2",
        "  stands  0 of 3 bytes: 3 bytes are missing",
        "  may     3 bytes",
        ENDS,
        NO_LOOPS,
    ];
    assert_printed(&[], &lines);
}

#[test]
fn a_cut_size_record() {
    let lines = [
        "1: the file ends too early",
        "  at      the body of the size record: bytes 3 and 4",
        "  stands  1 of 2 bytes: 1 byte is missing",
        "  may     2 bytes",
        ENDS,
        NO_LOOPS,
    ];
    assert_printed(&[1, 2, 0, 1], &lines);
}

#[test]
fn a_cut_header() {
    let lines = [
        "1: the file ends too early",
        "  at      the header of slice 0 (the only one): bytes 5 to 7",
        "  stands  1 of 3 bytes: 2 bytes are missing",
        "  may     3 bytes; a file of 1 slice has 135 bytes",
        ENDS,
        NO_LOOPS,
    ];
    assert_printed(&z().bytes()[..6], &lines);
}

#[test]
fn a_cut_body() {
    let lines = [
        "1: the file ends too early",
        "  at      the body of slice 2 (of 0 to 3): bytes 262 to 385",
        "  stands  38 of 124 bytes: 86 bytes are missing",
        "  may     124 bytes; a file of 4 slices has 516 bytes",
        ENDS,
        NO_LOOPS,
    ];
    assert_printed(&Column::zeros(4, 0).bytes()[..300], &lines);
}

/// All slices are there, so their loops are found.
#[test]
fn a_cut_end() {
    let lines = [
        "1: the file ends too early",
        "  at      the header of the end record: bytes 132 to 134",
        "  stands  2 of 3 bytes: 1 byte is missing",
        "  may     3 bytes; a file of 1 slice has 135 bytes",
    ];
    assert_printed(&z().bytes()[..134], &lines);
    let looped = z().pin(0, "A1", 4096).bytes();
    assert_eq!(places(&looped[..133]), [(1, 132), (9, 0)]);
}

#[test]
fn a_tag_that_does_not_exist() {
    let lines = [
        "2: a tag that doesn't exist",
        "  at      the tag of slice 1 (of 0 to 2): byte 132",
        "  stands  9, which is no tag",
        "  may     2 (slice)",
        TAKEN,
    ];
    assert_printed(&with(Column::zeros(3, 0), 132, 9), &lines);
}

#[test]
fn a_wrong_length() {
    let lines = [
        "3: a length that is not the tag's",
        "  at      the length of slice 0 (the only one): bytes 6 and 7, in the record at byte 5",
        "  stands  380",
        "  may     124",
        TAKEN,
    ];
    assert_printed(&with(z(), 7, 1), &lines);
}

/// Its length is wrong and it is cut as well: 5 + 3 + 50 bytes.
#[test]
fn a_wrong_length_of_a_cut_record() {
    let file = with(z(), 6, 125);
    assert_eq!(places(&file[..58]), [(3, 5), (1, 5)]);
}

#[test]
fn too_few_slices() {
    let lines = [
        "4: a record or slice that is not the one due",
        "  at      the tag of slice 1 (of 0 to 1): byte 132",
        "  stands  3 (end): n says 2 slices, and only 1 is there",
        "  may     2 (slice)",
        ENDS,
        NO_LOOPS,
    ];
    assert_printed(&with(z(), 3, 2), &lines);
    let none = explained(&[1, 2, 0, 2, 0, 3, 0, 0]).faults.remove(0);
    assert_eq!(none.stands, "3 (end): n says 2 slices, and none is there");
    let file = with(Column::zeros(2, 0), 3, 64);
    let two = explained(&file).faults.remove(0);
    assert_eq!(
        two.stands,
        "3 (end): n says 64 slices, and only 2 are there"
    );
}

/// A slice whose tag became that of the end, in a file that is cut: nothing speaks for an end.
#[test]
fn a_tag_alone() {
    let file = with(Column::zeros(2, 0), 132, 3);
    let fault = explained(&file[..200]).faults.remove(0);
    assert_eq!((fault.number, &fault.stands[..]), (4, "3 (end)"));
}

#[test]
fn too_many_slices() {
    let lines = [
        "4: a record or slice that is not the one due",
        "  at      the tag of the end record: byte 132",
        "  stands  2 (slice): n says 1 slice, and one more follows",
        "  may     3 (end)",
        "What follows byte 132 can't be told apart: the file doesn't end at byte 135.",
    ];
    assert_printed(&with(Column::zeros(2, 0), 3, 1), &lines);
}

#[test]
fn no_size_record() {
    let lines = [
        "4: a record or slice that is not the one due",
        "  at      the tag of the size record: byte 0",
        "  stands  2 (slice): was the size record left out?",
        "  may     1 (size)",
        "What follows byte 0 can't be told apart.",
        NO_LOOPS,
    ];
    assert_printed(&z().bytes()[5..], &lines);
}

/// A text, which is no slice file at all: its first byte is an s.
#[test]
fn something_else() {
    let lines = [
        "2: a tag that doesn't exist",
        "  at      the tag of the size record: byte 0",
        "  stands  115, which is no tag",
        "  may     1 (size)",
        "What follows byte 0 can't be told apart.",
        NO_LOOPS,
    ];
    assert_printed(b"slices 1\ninputs 0\n", &lines);
}

/// One wrong tag hides nothing: its own slice, a later one and a loop are looked at.
#[test]
fn what_a_wrong_tag_does_not_hide() {
    let column = Column::zeros(3, 0).pin(0, "A1", 4096);
    let column = column.set(1, KIND, 2).pin(2, "WE", 3);
    for tag in [0, 1, 3, 9] {
        let number = if tag == 1 || tag == 3 { 4 } else { 2 };
        let file = with(column.clone(), 132, tag);
        let due = [(number, 132), (5, 132), (7, 259), (9, 0)];
        assert_eq!(places(&file), due);
        let note = explained(&file).note;
        assert_eq!(note, Some(format!("{TAKEN}\n{SOME_LOOPS}")));
    }
    let mut file = with(column.clone(), 132, 9);
    file[133] = 7;
    let due = [(2, 132), (3, 132), (5, 132), (7, 259), (9, 0)];
    assert_eq!(places(&file), due);
    // An end record's header; but slice 2 stands at its place, so it was a slice.
    file[132..135].copy_from_slice(&[3, 0, 0]);
    let fault = explained(&file).faults.remove(0);
    assert_eq!((fault.number, &fault.stands[..]), (4, "3 (end)"));
}

/// Nor does one of the size record or of the end.
#[test]
fn a_wrong_tag_first_or_last() {
    let column = Column::zeros(2, 0).set(0, KIND, 2);
    assert_eq!(places(&with(column.clone(), 0, 2)), [(4, 0), (5, 5)]);
    assert_eq!(places(&with(column.clone(), 259, 7)), [(5, 5), (2, 259)]);
    assert_eq!(places(&with(column, 1, 3)), [(3, 0), (5, 5)]);
}

#[test]
fn two_wrong_tags() {
    let mut file = with(Column::zeros(4, 0).pin(0, "A1", 4096), 132, 9);
    file[259] = 9;
    assert_eq!(places(&file), [(2, 132)]);
    let lost = "What follows byte 132 can't be told apart: \
                slice 2 (of 0 to 3) doesn't begin at byte 259.";
    assert_eq!(explained(&file).note, Some(format!("{lost}\n{NO_LOOPS}")));
}

#[test]
fn bytes_after_the_end() {
    let lines = |more: &str| {
        [
            "8: bytes after the end".to_string(),
            "  at      byte 135, after the end record".to_string(),
            format!("  stands  {more} more"),
            "  may     nothing: a file of 1 slice ends at byte 135".to_string(),
        ]
        .join("\n")
    };
    let file = |more: usize| [z().bytes(), vec![0; more]].concat();
    assert_eq!(printed(&file(1)), lines("1 byte"));
    assert_eq!(printed(&file(1000)), lines("1000 bytes"));
    let looped = [z().pin(0, "A1", 4096).bytes(), vec![0]].concat();
    assert_eq!(places(&looped), [(8, 135), (9, 0)]);
    assert_eq!(explained(&looped).note, None);
}
