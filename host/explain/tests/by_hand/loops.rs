//! Loops: 9.

use super::*;

/// The loop of a file that has no other fault, and how many others are on loops with it.
fn assert_loop(column: Column, at: &str, stands: &str, others: &str) {
    let lines = [
        "9: a combinational loop",
        &format!("  at      {at}"),
        &format!("  stands  {stands}"),
        &format!(
            "  may     no signal may depend on itself: a flip-flop on the way breaks the loop; {others} with it"
        ),
    ];
    assert_printed(&column.bytes(), &lines);
}

/// A of slices 1 and 2 and B of slice 63. Output A of slice 2 is 4096 + 32, B of slice 63 is
/// 4096 + 1008 + 1, A of slice 1 is 4096 + 16.
#[test]
fn through_three_slices() {
    let column = Column::zeros(64, 0).pin(1, "A1", 4128);
    let column = column.pin(2, "A1", 5105).pin(63, "B1", 4112);
    assert_eq!(places(&column.bytes()), [(9, 32)]);
    assert_loop(
        column,
        "s1.A.O6 (signal 32)",
        "s1.A.O6 <- A1 <- s2.A.O6 <- A1 <- s63.B.O6 <- B1 <- s1.A.O6",
        "2 other signals are on loops",
    );
}

#[test]
fn of_one_signal() {
    assert_loop(
        z().pin(0, "A6", 4096),
        "s0.A.O6 (signal 0)",
        "s0.A.O6 <- A6 <- s0.A.O6",
        "no other signal is on a loop",
    );
}

/// AMUX takes O5, which reads A1.
#[test]
fn of_two_signals() {
    assert_loop(
        z().pin(0, "A1", 4100),
        "s0.A.O5 (signal 4)",
        "s0.A.O5 <- A1 <- s0.AMUX <- s0.A.O5",
        "1 other signal is on loops",
    );
}

/// BMUX takes the carry of B. It reads O6 of B, which reads nothing; its carry data, BX, which
/// reads nothing; and the carry of A, which reads O6 and O5 of A. These read A1, which is
/// BMUX. So O6 of A is the smallest, and O5, both carries and BMUX are on loops with it.
#[test]
fn through_carries() {
    let column = z().set(0, MUX + B, 2).set(0, CARRY_DATA + B, 1);
    assert_loop(
        column.pin(0, "A1", 4101),
        "s0.A.O6 (signal 0)",
        "s0.A.O6 <- A1 <- s0.BMUX <- s0.B.carry <- s0.A.carry <- s0.A.O6",
        "4 other signals are on loops",
    );
}

/// The select of F8 is BX, and BMUX takes F8. Signals 18 and 21.
#[test]
fn through_a_bypass_pin() {
    let column = z().set(0, MUX + B, 3).pin(0, "BX", 4101);
    assert_loop(
        column,
        "s0.F8 (signal 18)",
        "s0.F8 <- BX <- s0.BMUX <- s0.F8",
        "1 other signal is on loops",
    );
}

/// From slice 1 down to slice 0: its carry starts with that of D below. AMUX of slice 1 takes
/// the sum of A. In slice 0 pin D1 is AMUX of slice 1.
#[test]
fn through_the_slice_below() {
    let column = Column::zeros(2, 0).set(1, CARRY_START, 3);
    let column = column.set(1, MUX + A, 1).pin(0, "D1", 4116);
    let column = column.set(0, CARRY_DATA + D, 1);
    assert_loop(
        column,
        "s0.D.O6 (signal 3)",
        "s0.D.O6 <- D1 <- s1.AMUX <- s1.A.sum <- s0.D.carry <- s0.D.O6",
        "3 other signals are on loops",
    );
}

#[test]
fn two_loops() {
    let column = Column::zeros(2, 0).pin(0, "A1", 4096).pin(1, "B2", 4113);
    let faults = explained(&column.bytes()).faults;
    assert_eq!(places(&column.bytes()), [(9, 0), (9, 33)]);
    assert_eq!(faults[0].stands, "s0.A.O6 <- A1 <- s0.A.O6");
    assert_eq!(faults[1].stands, "s1.B.O6 <- B2 <- s1.B.O6");
    assert_eq!(explained(&column.bytes()).note, None);
}

/// A ring of twelve tables, one a slice: its path has more than the 110 characters of a line.
#[test]
fn a_long_loop_goes_on_below() {
    let column = (0..12).fold(Column::zeros(12, 0), |column, slice| {
        column.pin(slice, "A1", 4096 + 16 * ((slice as u16 + 1) % 12))
    });
    let file = column.bytes();
    let step = |slice: usize| format!("s{slice}.A.O6 <- A1 <- ");
    let path: String = (0..12).map(step).collect();
    assert_eq!(explained(&file).faults[0].stands, path + "s0.A.O6");
    let lines = [
        "9: a combinational loop",
        "  at      s0.A.O6 (signal 0)",
        "  stands  s0.A.O6 <- A1 <- s1.A.O6 <- A1 <- s2.A.O6 <- A1 <- s3.A.O6 <- A1 <- s4.A.O6 <- A1 <- s5.A.O6 <- A1 <- s6.A.O6",
        "          <- A1 <- s7.A.O6 <- A1 <- s8.A.O6 <- A1 <- s9.A.O6 <- A1 <- s10.A.O6 <- A1 <- s11.A.O6 <- A1 <- s0.A.O6",
        "  may     no signal may depend on itself: a flip-flop on the way breaks the loop; 11 other signals are on loops with it",
    ];
    assert_printed(&file, &lines);
}
