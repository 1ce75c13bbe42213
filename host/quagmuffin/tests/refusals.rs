//! A refused call writes nothing: every buffer and the guards around it are as before.

use model::layout::*;
use quagmuffin::{Answer, Change, Refused};
use testkit::column::{z, z_slicem, Column};
use workbench::lent::Lent;
use workbench::Workbench;

type Call = fn(&mut Workbench) -> Answer;

const POWER_UP_CALL: (&str, Call) = ("power up", Workbench::power_up);
const SETTLE: (&str, Call) = ("settle", Workbench::settle);
const CLOCK: (&str, Call) = ("clock", Workbench::clock);
const EDIT_NOTHING: (&str, Call) = ("edit nothing", |bench| bench.edit(&[]));
const EDIT_INPUT: (&str, Call) = ("edit input", |bench| bench.edit(&[Change::input(0, 1)]));
const EDIT_TABLE: (&str, Call) = ("edit table", |bench| bench.edit(&[Change::table(0, 1)]));
const EDIT_TOO_OFTEN: (&str, Call) = ("257 edits", |bench| bench.edit(&[Change::input(0, 1); 257]));
const EDITS: [(&str, Call); 4] = [EDIT_NOTHING, EDIT_INPUT, EDIT_TABLE, EDIT_TOO_OFTEN];
const ALL: [(&str, Call); 7] = [
    POWER_UP_CALL,
    SETTLE,
    CLOCK,
    EDIT_NOTHING,
    EDIT_INPUT,
    EDIT_TABLE,
    EDIT_TOO_OFTEN,
];

/// The calls refuse with the number and the place, and write nothing.
fn refuse(calls: &[(&str, Call)], bench: &Workbench, number: u8, place: u64, why: &str) {
    for (name, call) in calls {
        let mut lent = bench.clone();
        assert_eq!(
            call(&mut lent),
            Err(Refused { number, place }),
            "{name}: {why}"
        );
        assert_eq!(&lent, bench, "{name}: {why}");
    }
}

/// A SLICEM with D in shift mode and one outside input, settled.
fn shifting() -> Workbench {
    let column = Column::zeros(1, 1).set(0, KIND, 1).set(0, MODE + D, 2);
    Workbench::settled(column.bytes(), &[0])
}

#[test]
fn a_refused_file() {
    let mut bench = Workbench::of(z().bytes());
    bench.file = Lent::bytes(&[z().bytes(), vec![0]].concat());
    refuse(&ALL, &bench, 8, 135, "a byte more");
    bench.file = Lent::bytes(&[]);
    refuse(&ALL, &bench, 1, 0, "no byte");
    let looped = Workbench::of(z().pin(0, "A1", 4100).bytes());
    refuse(&ALL, &looped, 9, 4, "a loop");
    let missing = Workbench::of(z_slicem().pin(0, "WE", 3).bytes());
    refuse(&ALL, &missing, 7, 5, "no such driver");
    let last = Workbench::of(Column::zeros(64, 0).set(63, KIND, 2).bytes());
    refuse(&ALL, &last, 5, 8006, "a choice of the last slice");
}

#[test]
fn a_refused_file_before_the_buffers() {
    let mut looped = Workbench::of(z().pin(0, "A1", 4096).bytes());
    looped.values = Lent::bytes(&[]);
    looped.inputs = Lent::bytes(&[2]);
    refuse(&ALL, &looped, 9, 0, "a loop and bad buffers");
}

fn changed(bench: &Workbench, change: impl FnOnce(&mut Workbench)) -> Workbench {
    let mut changed = bench.clone();
    change(&mut changed);
    changed
}

#[test]
fn a_length_off_by_one() {
    let good = shifting();
    for length in [3, 5] {
        let contents = Lent::words(&vec![0; length]);
        let bench = changed(&good, |bench| bench.contents = contents);
        refuse(&ALL, &bench, 10, 0, "contents");
    }
    for length in [0, 2] {
        let other = Lent::bytes(&vec![0; length]);
        let bench = changed(&good, |bench| bench.flops = other.clone());
        refuse(&ALL, &bench, 10, 0, "flip-flops");
        let bench = changed(&good, |bench| bench.inputs = other);
        refuse(&ALL[1..], &bench, 10, 0, "inputs");
    }
    for length in [31, 33] {
        let values = Lent::bytes(&vec![0; length]);
        let bench = changed(&good, |bench| bench.values = values);
        refuse(&ALL[1..], &bench, 10, 0, "values");
    }
}

#[test]
fn a_byte_or_word_out_of_range() {
    let good = shifting();
    let bench = changed(&good, |bench| bench.inputs.lend()[0] = 2);
    refuse(&ALL[1..], &bench, 11, 0, "an input byte 2");
    let bench = changed(&good, |bench| bench.contents.lend()[D] = 1 << 32);
    refuse(&ALL[1..], &bench, 11, 0, "bit 32 in shift mode");
    let stale = changed(&good, |bench| bench.values.lend()[31] = 2);
    refuse(&EDITS, &stale, 11, 0, "a value byte 2");
    let mut filled = stale.clone();
    assert_eq!(
        filled.settle(),
        Ok(()),
        "value bytes that are only filled are not judged"
    );
    assert_eq!(filled, good);
}
