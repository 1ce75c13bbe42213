//! The paper's worked cases through the exported library, with what they have to give, written by hand.

use model::layout::*;
use quagmuffin::{judge, Accepted, Change, Refused};
use testkit::cases::{long_files, sizes, truncations, worked, worked_file};
use testkit::column::{z, z_slicem, Column};
use testkit::traps;
use workbench::Workbench;

/// The signals that are 1, of values that are all 0 or 1.
fn ones(bench: &Workbench) -> Vec<usize> {
    let values = bench.values.get();
    assert!(
        values.iter().all(|&byte| byte < 2),
        "a value byte not 0 or 1"
    );
    (0..values.len()).filter(|&x| values[x] == 1).collect()
}

/// The same, its values filled with junk and settled again.
fn settled_afresh(bench: &Workbench) -> Workbench {
    let mut afresh = bench.clone();
    afresh.values.lend().fill(7);
    assert_eq!(afresh.settle(), Ok(()));
    afresh
}

/// Z with outside input 0 on A1, and contents A that pass it on.
fn passes_input() -> Vec<u8> {
    let column = Column::zeros(1, 1).pin(0, "A1", 256);
    column.contents(0, A, 2).bytes()
}

#[test]
fn judges_each_case() {
    let cases = [worked(), truncations(), sizes(), long_files(), traps::all()];
    for case in cases.into_iter().flatten() {
        let line = match judge(&case.file) {
            Ok(Accepted { n, m }) => format!("accepted {n} {m}"),
            Err(Refused { number, place }) => format!("refused {number} {place}"),
        };
        assert_eq!(line, case.line, "{}", case.name);
    }
}

#[test]
fn cases_1_to_4_settle() {
    let most: Vec<usize> = (0..=11).chain(16..=18).chain(20..=23).collect();
    let expected = [vec![], vec![0, 4, 12, 20], vec![12], most];
    for (i, expected) in expected.into_iter().enumerate() {
        let bench = Workbench::settled(worked_file(i + 1), &[]);
        assert_eq!(ones(&bench), expected, "case {}", i + 1);
    }
}

#[test]
fn case_9_d_shifts() {
    let mut bench = Workbench::up(worked_file(9));
    assert_eq!(bench.contents.get(), [0; 4]);
    assert_eq!(bench.clock(), Ok(()));
    assert_eq!(bench.contents.get(), [0, 0, 0, 1]);
    assert_eq!(ones(&bench), [], "the values are those before the edge");
    for _ in 1..32 {
        assert_eq!(bench.clock(), Ok(()));
    }
    assert_eq!(bench.contents.get(), [0, 0, 0, 4_294_967_295]);
    // Before the last edge D holds a 1 at bit 0: D's O6 and sum are 1, F7B takes it since CX is 0, and F8 takes F7B since BX is 0.
    assert_eq!(ones(&bench), [3, 15, 17, 18]);
}

#[test]
fn case_10_d_is_memory() {
    let mut bench = Workbench::up(worked_file(10));
    assert_eq!(bench.clock(), Ok(()));
    assert_eq!(bench.contents.get(), [0, 0, 0, 9_223_372_036_854_775_808]);
}

#[test]
fn case_11_set_reset_over_enable() {
    let mut bench = Workbench::up(worked_file(11));
    assert_eq!(bench.flops.get(), [0]);
    assert_eq!(bench.clock(), Ok(()));
    assert_eq!(bench.flops.get(), [1]);
    assert_eq!(bench.settle(), Ok(()));
    assert_eq!(ones(&bench), [24]);
}

/// Contents A give pin A1 on: an open one is 1.
#[test]
fn an_open_table_pin_is_1() {
    let column = z().pin(0, "A1", 2).contents(0, A, 2);
    let bench = Workbench::settled(column.bytes(), &[]);
    assert_eq!(ones(&bench), [0, 4, 12, 20]);
}

/// The carry data are the bypass pins, AX is the carry coming in, and of all contents only bit 63 of A is 1.
#[test]
fn open_table_and_bypass_pins_are_1() {
    let column = z().set_letters(0, CARRY_DATA, 1).set(0, CARRY_START, 2);
    let column = column.contents(0, A, 1 << 63).opened();
    let bench = Workbench::settled(column.bytes(), &[]);
    // A's O6 is 1: its carry is the one coming in, and its sum 0. The others' O6 are 0: their carries are their data, their sums the carries
    // before them. By AX F7A is A's O6, by BX F8 is F7A.
    assert_eq!(ones(&bench), [0, 8, 9, 10, 11, 13, 14, 15, 16, 18]);
}

/// CE is open, and AX, which main A takes. A used SR that is open sets and resets at every clock, over CE.
#[test]
fn open_ce_and_sr_are_1() {
    let taking = z().set(0, MAIN + A, 5).pin(0, "CE", 2).pin(0, "AX", 2);
    for (column, left) in [
        (taking.clone(), 1),
        (taking.clone().pin(0, "SR", 2), 1),
        (taking.clone().pin(0, "SR", 2).set(0, SET_RESET_PIN, 1), 0),
        (
            taking
                .opened()
                .set(0, SET_RESET_PIN, 1)
                .set(0, SET_RESET_VALUES, 0xA0),
            0xA0,
        ),
    ] {
        let mut bench = Workbench::up(column.bytes());
        assert_eq!(bench.clock(), Ok(()));
        assert_eq!(bench.flops.get(), [left]);
    }
}

/// Cases 9 and 10 with the pins open that are 1 there.
#[test]
fn open_we_data_and_address_are_1() {
    for (mode, word) in [(2, 1), (1, 1 << 63)] {
        let column = z_slicem().set(0, MODE + D, mode).opened();
        let mut bench = Workbench::up(column.bytes());
        assert_eq!(bench.clock(), Ok(()));
        assert_eq!(bench.contents.get(), [0, 0, 0, word]);
    }
}

/// Nothing depends on an input through an open pin: a stale table stays as it is, and only the input's byte is replaced.
#[test]
fn an_input_touches_no_open_pin() {
    let file = Column::zeros(2, 1).opened().bytes();
    let mut bench = Workbench::settled(file, &[0]);
    bench.values.lend().fill(1);
    let mut expected = bench.clone();
    expected.inputs.lend()[0] = 1;
    assert_eq!(bench.edit(&[Change::input(0, 1)]), Ok(()));
    assert_eq!(bench, expected);
}

#[test]
fn power_up_takes_contents_and_bits() {
    let column = Column::zeros(2, 0).contents(1, C, 0x0123_4567_89AB_CDEF);
    let column = column.set(0, POWER_UP, 0xC3).set(1, POWER_UP, 0x18);
    let bench = Workbench::up(column.bytes());
    assert_eq!(
        bench.contents.get(),
        [0, 0, 0, 0, 0, 0, 0x0123_4567_89AB_CDEF, 0]
    );
    assert_eq!(bench.flops.get(), [0xC3, 0x18]);
}

#[test]
fn edited_input_is_as_settled_afresh() {
    let mut bench = Workbench::settled(passes_input(), &[0]);
    assert_eq!(ones(&bench), []);
    assert_eq!(bench.edit(&[Change::input(0, 1)]), Ok(()));
    assert_eq!(ones(&bench), [0, 4, 12, 20]);
    assert_eq!(bench, settled_afresh(&bench));
}

#[test]
fn edited_table_is_as_settled_afresh() {
    let mut bench = Workbench::settled(worked_file(1), &[]);
    assert_eq!(bench.edit(&[Change::table(A, 1)]), Ok(()));
    assert_eq!(bench.contents.get(), [1, 0, 0, 0]);
    assert_eq!(ones(&bench), [0, 4, 12, 20]);
    assert_eq!(bench, settled_afresh(&bench));
}

/// From a stale table, an edit recomputes what depends on the change and leaves the rest, also where a byte comes out equal.
#[test]
fn edit_of_a_stale_table() {
    let mut bench = Workbench::settled(passes_input(), &[1]);
    bench.values.lend().fill(1);
    bench.values.lend()[0] = 0;
    bench.values.lend()[20] = 0;
    assert_eq!(bench.edit(&[Change::input(0, 0)]), Ok(()));
    // What depends on the input: O6, O5 and AMUX of A, all carries and sums, F7A and F8. A's O6, O5, carry and sum come out 0. B, C and D have
    // a stale 1 as O6: each passes the carry below on, a 0, and its sum is 1. AX and BX are 0, so F7A is B's O6 and F8 is F7B, stale ones.
    let zeros = [0, 4, 8, 9, 10, 11, 12, 20];
    let expected: Vec<usize> = (0..32).filter(|x| !zeros.contains(x)).collect();
    assert_eq!(ones(&bench), expected);
}
