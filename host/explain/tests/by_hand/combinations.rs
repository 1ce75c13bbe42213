//! Each part of rule 6.

use super::*;

/// A SLICEM as slice 1 of two, with these modes.
fn slicem(modes: [u8; 4]) -> Column {
    let column = Column::zeros(2, 0).set(1, KIND, 1);
    let set = |column: Column, letter: usize| column.set(1, MODE + letter, modes[letter]);
    LETTERS.into_iter().fold(column, set)
}

/// The faults of slice 1, each as where it is, what stands and what may.
fn assert_faults(column: Column, due: &[[&str; 3]]) {
    let mut lines = vec![];
    for [at, stands, may] in due {
        lines.push("6: choices that don't go together".to_string());
        lines.push(format!(
            "  at      slice 1, {at}, in the record at byte 132"
        ));
        lines.push(format!("  stands  {stands}"));
        lines.push(format!("  may     {may}"));
    }
    lines.push(SOME_LOOPS.to_string());
    assert_eq!(printed(&column.bytes()), lines.join("\n"));
}

#[test]
fn a_slicel_with_modes() {
    let may = "0 logic in a SLICEL; the others in a SLICEM";
    let column = slicem([0, 1, 0, 1]).set(1, KIND, 0);
    let due = [
        ["mode of letter B: byte 138", "1 memory in a SLICEL", may],
        ["mode of letter D: byte 140", "1 memory in a SLICEL", may],
    ];
    assert_faults(column, &due);
}

#[test]
fn memory_and_shift() {
    let at = "modes of letters A to D: bytes 137 to 140";
    let may = "memory mode or shift mode in one slice, not both";
    let stands = "memory mode at B and D, shift mode at A";
    assert_faults(slicem([2, 1, 0, 1]), &[[at, stands, may]]);
    let stands = "memory mode at D, shift mode at A, B and C";
    assert_faults(slicem([2, 2, 2, 1]), &[[at, stands, may]]);
}

#[test]
fn memory_without_d() {
    let may = "memory mode where D is in it too: D's pins are the write address";
    let due = [
        [
            "mode of letter A: byte 137",
            "letter A is in memory mode and D is not",
            may,
        ],
        [
            "mode of letter C: byte 139",
            "letter C is in memory mode and D is not",
            may,
        ],
    ];
    assert_faults(slicem([1, 0, 1, 0]), &due);
}

#[test]
fn cascade_at_d() {
    let due = [
        "shift data of D: byte 144",
        "1 cascade",
        "0 DX: no letter follows D whose bit 31 it could take",
    ];
    assert_faults(slicem([2; 4]).set(1, SHIFT_DATA + D, 1), &[due]);
}

#[test]
fn cascade_into_logic() {
    let due = [
        "shift data of A: byte 141",
        "1 cascade, and the mode of A is 0 logic",
        "0 AX; 1 cascade where A is in shift mode",
    ];
    assert_faults(slicem([0, 2, 0, 0]).set(1, SHIFT_DATA + A, 1), &[due]);
}

#[test]
fn cascade_from_logic() {
    let due = [
        "shift data of B: byte 142",
        "1 cascade, and the mode of C is 0 logic",
        "0 BX; 1 cascade where C, whose bit 31 it takes, is in shift mode",
    ];
    assert_faults(slicem([2, 2, 0, 0]).set(1, SHIFT_DATA + B, 1), &[due]);
}

/// Contents of A, B and D, each with other bits.
#[test]
fn shift_with_high_bits() {
    let may = "bits 32 to 63 all 0 in shift mode";
    let column = slicem([2; 4])
        .contents(1, A, 0x0000_0100_0000_0000)
        .contents(1, B, 0x8000_0005_0000_000F)
        .contents(1, C, 0x0000_0000_FFFF_FFFF)
        .contents(1, D, 0xFFFF_FFFF_FFFF_FFFF);
    let due = [
        [
            "contents of A: bytes 145 to 152",
            "0x10000000000 in shift mode: bit 40 is set",
            may,
        ],
        [
            "contents of B: bytes 153 to 160",
            "0x800000050000000f in shift mode: bits 32, 34 and 63 are set",
            may,
        ],
        [
            "contents of D: bytes 169 to 176",
            "0xffffffffffffffff in shift mode: bits 32 to 63 are set",
            may,
        ],
    ];
    assert_faults(column, &due);
}

#[test]
fn start_below_slice_zero() {
    let lines = [
        "6: choices that don't go together",
        "  at      slice 0, carry start: byte 54, in the record at byte 5",
        "  stands  3 below",
        "  may     0 constant 0, 1 constant 1, 2 AX; no slice is below slice 0",
        SOME_LOOPS,
    ];
    let column = Column::zeros(2, 0).set(0, CARRY_START, 3);
    assert_printed(&column.set(1, CARRY_START, 3).bytes(), &lines);
}
