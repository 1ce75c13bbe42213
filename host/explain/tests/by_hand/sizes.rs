//! n and m outside their lists: 5.

use super::*;

#[test]
fn n_outside_its_list() {
    let lines = [
        "5: n, m or a choice outside its list",
        "  at      n, the number of slices: byte 3, in the size record",
        "  stands  65",
        "  may     1 to 64",
        "The rest was read with n = 65 and m = 0, as they stand.",
        NO_LOOPS,
    ];
    let column = Column::zeros(65, 0).pin(0, "A1", 4096);
    assert_printed(&column.bytes(), &lines);
    // The rest is read: slice 64, at byte 8133, has a driver that would be of slice 65.
    let file = column.pin(64, "A1", 4096 + 16 * 65).bytes();
    assert_eq!(places(&file), [(5, 0), (7, 8133)]);
}

#[test]
fn n_and_m_outside_their_lists() {
    let lines = [
        "5: n, m or a choice outside its list",
        "  at      n, the number of slices: byte 3, in the size record",
        "  stands  0",
        "  may     1 to 64",
        "5: n, m or a choice outside its list",
        "  at      m, the number of outside inputs: byte 4, in the size record",
        "  stands  65",
        "  may     0 to 64",
        "The rest was read with n = 0 and m = 65, as they stand.",
        NO_LOOPS,
    ];
    assert_printed(&[1, 2, 0, 0, 65, 3, 0, 0], &lines);
}

/// With m as it stands there is an input 64, and no input 65.
#[test]
fn m_as_it_stands() {
    let column = Column::zeros(1, 65).pin(0, "A1", 320).pin(0, "A2", 321);
    assert_eq!(places(&column.bytes()), [(5, 0), (7, 5)]);
    let may = &explained(&column.bytes()).faults[1].may;
    assert!(
        may.starts_with("0 or 1; 2 (open); 256 to 320 (in 0 to in 64); "),
        "{may}"
    );
}
