//! Pins driven by something that doesn't exist: 7.

use super::*;

/// C3 is the fifteenth pin: its code is at bytes 90 and 91 of the body, which begins at 5088.
#[test]
fn output_12() {
    let lines = [
        "7: a pin driven by something that doesn't exist",
        "  at      slice 40, pin C3: bytes 5178 and 5179, in the record at byte 5085",
        "  stands  4108, which would be output 12 of slice 0",
        "  may     0 or 1; 2 (open); 256 to 258 (in 0 to in 2); 4096 + 16s + k for output k (0 to 11: A.O6 to D.O6, AMUX to DMUX,",
        "          AQ to DQ) of slice s (0 to 63)",
        SOME_LOOPS,
    ];
    let file = Column::zeros(64, 3).pin(40, "C3", 4108).bytes();
    assert_printed(&file, &lines);
    assert_eq!(places(&file), [(7, 5085)]);
}

#[test]
fn other_codes() {
    let stands = |code| {
        let file = Column::zeros(2, 3).pin(1, "A1", code).bytes();
        assert_eq!(places(&file), [(7, 132)]);
        explained(&file).faults.remove(0).stands
    };
    assert_eq!(stands(3), "3, which stands for nothing");
    assert_eq!(stands(255), "255, which stands for nothing");
    assert_eq!(stands(259), "259, which would be in 3");
    // 4096 + 16 * 2 + 9: the main flip-flop B of slice 2.
    assert_eq!(stands(4137), "4137, which would be s2.BQ");
    // 4096 + 16 * 3839 + 15.
    let last = "65535, which would be output 15 of slice 3839";
    assert_eq!(stands(65535), last);
}

#[test]
fn other_sizes() {
    let may = |m| {
        let file = Column::zeros(1, m).pin(0, "WE", 3).bytes();
        explained(&file).faults.remove(0).may
    };
    let outputs =
        "4096 + k for output k (0 to 11: A.O6 to D.O6, AMUX to DMUX, AQ to DQ) of slice 0";
    assert_eq!(may(0), format!("0 or 1; 2 (open); {outputs}"));
    assert_eq!(may(1), format!("0 or 1; 2 (open); 256 (in 0); {outputs}"));
    let inputs = "256 to 319 (in 0 to in 63)";
    assert_eq!(may(64), format!("0 or 1; 2 (open); {inputs}; {outputs}"));
}

#[test]
fn open_pins() {
    assert_eq!(places(&z().opened().bytes()), []);
}
