//! Several faults of one file.

use super::*;

/// Faults of four slices and the end: none hides another.
#[test]
fn in_several_slices() {
    let column = Column::zeros(4, 0)
        .set(0, KIND, 9)
        .pin(0, "WE", 3)
        .set(1, NUMBER, 3)
        .set(2, MODE + A, 1)
        .set(2, MODE + D, 1)
        .pin(3, "D5", 65535)
        .pin(3, "AX", 300);
    let file = [column.bytes(), vec![0]].concat();
    let due = [
        (5, 5),
        (7, 5),
        (4, 132),
        (6, 259),
        (6, 259),
        (7, 386),
        (7, 386),
        (8, 516),
    ];
    assert_eq!(places(&file), due);
    assert_eq!(
        explained(&file).note,
        Some(format!("{TAKEN}\n{SOME_LOOPS}"))
    );
}

/// All tests that a slice can fail at once.
#[test]
fn in_one_slice() {
    let column = z().set(0, NUMBER, 7).set(0, SET_RESET_PIN, 2);
    let column = column.set(0, CARRY_START, 3).pin(0, "A1", 3);
    assert_eq!(places(&column.bytes()), [(4, 5), (5, 5), (6, 5), (7, 5)]);
}

#[test]
fn a_driver_and_a_loop() {
    let column = Column::zeros(2, 0).pin(0, "WE", 3).pin(1, "A1", 4112);
    assert_eq!(places(&column.bytes()), [(7, 5), (9, 32)]);
    assert_eq!(
        explained(&column.bytes()).note,
        Some(SOME_LOOPS.to_string())
    );
}

/// Whether there is a loop depends on what the fault becomes: none is listed.
#[test]
fn loops_that_may_not_be() {
    // AMUX, on pin A1, takes nothing that exists.
    let mux = z().set(0, MUX + A, 5).pin(0, "A1", 4100);
    assert_eq!(places(&mux.bytes()), [(5, 5)]);
    // In a mode that doesn't exist only pins 2 to 6 are read for sure.
    let mode = z().set(0, KIND, 1).set(0, MODE + A, 3);
    assert_eq!(places(&mode.clone().pin(0, "A1", 4096).bytes()), [(5, 5)]);
    assert_eq!(places(&mode.pin(0, "A2", 4096).bytes()), [(5, 5), (9, 0)]);
    // Memory mode without D's: A may be made to shift, which leaves pin 1 unread.
    let memory = z().set(0, KIND, 1).set(0, MODE + A, 1);
    assert_eq!(places(&memory.clone().pin(0, "A1", 4096).bytes()), [(6, 5)]);
    assert_eq!(places(&memory.pin(0, "A2", 4096).bytes()), [(6, 5), (9, 0)]);
    // A carry that starts below slice 0, or data that don't exist: on AX, driven by AMUX,
    // which takes the carry of A.
    let carry = z().set(0, MUX + A, 2).pin(0, "AX", 4100);
    let start = carry.clone().set(0, CARRY_START, 3);
    assert_eq!(places(&start.bytes()), [(6, 5)]);
    assert_eq!(places(&carry.set(0, CARRY_DATA, 2).bytes()), [(5, 5)]);
}
