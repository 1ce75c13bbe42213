//! Choices outside their lists: 5.

use super::*;

/// A choice byte, what stands there, where that is in slice 1, and what may stand there.
type Wrong = (usize, u8, &'static str, &'static str);

/// One of each list, in the order of the file.
const WRONG: [Wrong; 9] = [
    (KIND, 2, "kind: byte 136", "0 SLICEL, 1 SLICEM"),
    (
        MODE + B,
        7,
        "mode of letter B: byte 138",
        "0 logic, 1 memory, 2 shift",
    ),
    (
        SHIFT_DATA + C,
        2,
        "shift data of C: byte 143",
        "0 CX, 1 cascade",
    ),
    (
        CARRY_DATA + D,
        255,
        "carry data of D: byte 180",
        "0 O5, 1 DX",
    ),
    (
        CARRY_START,
        4,
        "carry start: byte 181",
        "0 constant 0, 1 constant 1, 2 AX, 3 below",
    ),
    (
        MUX + C,
        5,
        "MUX output of C: byte 184",
        "0 O5, 1 sum, 2 carry, 3 F7B, 4 C5Q",
    ),
    (
        MAIN + D,
        6,
        "what the main flip-flop of D takes: byte 189",
        "0 O6, 1 O5, 2 sum, 3 carry, 4 MC31, 5 DX",
    ),
    (
        SECOND + A,
        2,
        "what the second flip-flop of A takes: byte 190",
        "0 O5, 1 AX",
    ),
    (
        SET_RESET_PIN,
        2,
        "set/reset pin: byte 196",
        "0 ignored, 1 used",
    ),
];

#[test]
fn each_list() {
    let set = |column: Column, &(at, value, _, _): &Wrong| column.set(1, at, value);
    let file = WRONG.iter().fold(Column::zeros(2, 0), set).bytes();
    let mut lines = vec![];
    for (_, value, at, may) in WRONG {
        lines.push("5: n, m or a choice outside its list".to_string());
        lines.push(format!(
            "  at      slice 1, {at}, in the record at byte 132"
        ));
        lines.push(format!("  stands  {value}"));
        lines.push(format!("  may     {may}"));
    }
    lines.push(SOME_LOOPS.to_string());
    assert_eq!(printed(&file), lines.join("\n"));
}
