//! Lists of edits through the exported library, with what they have to leave, written by hand.

use model::layout::*;
use quagmuffin::{Change, Refused};
use testkit::column::Column;
use workbench::lent::Lent;
use workbench::Workbench;

/// Z with outside input 0 on A1 and contents A that pass it on, settled with the input at 0.
fn passes_input() -> Workbench {
    let column = Column::zeros(1, 1).pin(0, "A1", 256);
    Workbench::settled(column.contents(0, A, 2).bytes(), &[0])
}

/// The same, all its values 1.
fn stale() -> Workbench {
    let mut bench = passes_input();
    bench.values.lend().fill(1);
    bench
}

/// Two slices and two outside inputs: C1 of slice 0 is input 0, C1 of slice 1 is C of slice 0, D1 of slice 1 is input 1; D of slice 0 is in
/// shift mode. All contents are 0, and all values are 1.
fn two_slices() -> Workbench {
    let column = Column::zeros(2, 2).set(0, KIND, 1).set(0, MODE + D, 2);
    let column = column.pin(0, "C1", 256).pin(1, "C1", 4096 + 2);
    let mut bench = Workbench::settled(column.pin(1, "D1", 257).bytes(), &[0, 0]);
    bench.values.lend().fill(1);
    bench
}

/// The signals of a byte.
fn signals(bench: &Workbench, byte: u8) -> Vec<usize> {
    let values = bench.values.get();
    (0..values.len()).filter(|&x| values[x] == byte).collect()
}

/// The list is refused by a number, and nothing is written.
fn refuses(bench: &Workbench, edits: &[Change], number: u8, why: &str) {
    let mut lent = bench.clone();
    let place = 0;
    assert_eq!(lent.edit(edits), Err(Refused { number, place }), "{why}");
    assert_eq!(&lent, bench, "{why}");
}

/// An edit of a kind that there may be none of.
fn of_kind(kind: u8, number: u64, value: u64) -> Change {
    Change {
        kind,
        number,
        value,
    }
}

#[test]
fn one_edit_of_a_settled_table() {
    let mut bench = passes_input();
    assert_eq!(signals(&bench, 1), []);
    assert_eq!(bench.edit(&[Change::input(0, 1)]), Ok(()));
    assert_eq!(signals(&bench, 1), [0, 4, 12, 20]);
    assert_eq!(bench.inputs.get(), [1]);
}

/// What depends on the input is O6, O5 and AMUX of A, all carries and sums, F7A and F8. It is recomputed with the input at 0: A's O6, O5,
/// carry and sum come out 0. B, C and D have a stale 1 as O6: each gives the carry below on, a 0, and its sum is 1. AX and BX are 0, so F7A is
/// B's O6 and F8 is F7B, stale ones.
#[test]
fn an_input_twice() {
    let mut bench = stale();
    assert_eq!(
        bench.edit(&[Change::input(0, 1), Change::input(0, 0)]),
        Ok(())
    );
    assert_eq!(bench.inputs.get(), [0]);
    assert_eq!(signals(&bench, 0), [0, 4, 8, 9, 10, 11, 12, 20]);
    // With the input at 1 A's O6 and O5 are 1, and the carry coming in, a 0, goes all the way up.
    let mut bench = stale();
    assert_eq!(
        bench.edit(&[Change::input(0, 0), Change::input(0, 1)]),
        Ok(())
    );
    assert_eq!(bench.inputs.get(), [1]);
    assert_eq!(signals(&bench, 0), [8, 9, 10, 11]);
}

/// The input is 0. MC31 belongs to A as well, and is 0 but in shift mode.
#[test]
fn a_table_twice() {
    let mut bench = stale();
    assert_eq!(
        bench.edit(&[Change::table(A, 0), Change::table(A, 1)]),
        Ok(())
    );
    assert_eq!(bench.contents.get(), [1, 0, 0, 0]);
    assert_eq!(signals(&bench, 0), [8, 9, 10, 11, 19]);
    let mut bench = stale();
    assert_eq!(
        bench.edit(&[Change::table(A, 1), Change::table(A, 0)]),
        Ok(())
    );
    assert_eq!(bench.contents.get(), [0; 4]);
    assert_eq!(signals(&bench, 0), [0, 4, 8, 9, 10, 11, 12, 19, 20]);
}

#[test]
fn no_edit_changes_no_byte() {
    for mut bench in [passes_input(), stale(), two_slices()] {
        let before = bench.clone();
        assert_eq!(bench.edit(&[]), Ok(()));
        assert_eq!(bench, before);
    }
}

/// Each list recomputes what depends on any of its edits, whatever their order, and nothing else.
#[test]
fn what_depends_on_any_edit() {
    // Input 0: O6, O5, carry, sum and MUX of C in slice 0, carry and sum of D, F7B and F8; and the same in slice 1, which reads C's O6. C's
    // O6 and O5 are 0, and so its carry, which is its data. Its sum is the stale carry of B, a 1. D's O6 is a stale 1, so that its carry is C's,
    // a 0, and its sum 1. CX and BX are 0: F7B is D's O6 and F8 is F7B, both 1.
    let of_input = |slice: usize| [2, 6, 10, 11, 22].map(|k| 32 * slice + k);
    let input = [of_input(0), of_input(1)].concat();
    // Table A of slice 1: O6, O5 and MUX are 0, MC31 too, and A's carry and sum; the carries of B, C and D give on the one below, while their
    // O6 are stale ones, and their sums are 1. F7A is B's O6, F8 is F7B.
    let table = [0, 4, 8, 9, 10, 11, 12, 19, 20].map(|k| 32 + k).to_vec();
    // Of both, the sum of C in slice 1 is 0 as well: its O6 is 0, and so is the carry of B.
    let both = [&input[..], &table, &[32 + 14]].concat();
    let (set, cleared) = (Change::input(0, 1), Change::table(4 + A, 0));
    for (edits, zeros) in [
        (&[set][..], &input),
        (&[cleared], &table),
        (&[set, cleared], &both),
        (&[cleared, set], &both),
        (&[cleared, set, cleared, set], &both),
    ] {
        let mut bench = two_slices();
        assert_eq!(bench.edit(edits), Ok(()));
        let mut zeros = zeros.clone();
        zeros.sort();
        zeros.dedup();
        assert_eq!(signals(&bench, 0), zeros, "{edits:?}");
        let input = u8::from(edits.contains(&set));
        assert_eq!(bench.inputs.get(), [input, 0]);
    }
}

/// Edits that the buffers of `two_slices` have to be refused for.
fn bad_edits() -> Vec<(&'static str, Change)> {
    vec![
        ("kind 2 of a table's number", of_kind(2, 0, 0)),
        ("kind 255", of_kind(255, 0, 0)),
        ("input m", of_kind(0, 2, 1)),
        ("input 256", of_kind(0, 256, 1)),
        ("input 2^32", of_kind(0, 1 << 32, 1)),
        ("the largest input", of_kind(0, u64::MAX, 1)),
        ("an input at 2", of_kind(0, 0, 2)),
        ("an input at 256", of_kind(0, 0, 256)),
        ("an input at 2^32 + 1", of_kind(0, 0, (1 << 32) + 1)),
        ("an input at 2^63", of_kind(0, 0, 1 << 63)),
        ("table 4n", of_kind(1, 8, 0)),
        ("table 256", of_kind(1, 256, 0)),
        ("table 2^32", of_kind(1, 1 << 32, 0)),
        ("the largest table", of_kind(1, u64::MAX, 0)),
        ("bit 32 in shift mode", of_kind(1, 3, 1 << 32)),
        ("bit 63 in shift mode", of_kind(1, 3, 1 << 63)),
    ]
}

/// A bad edit at each place of lists of one, two, twelve and 256 refuses them all.
#[test]
fn a_bad_edit_at_each_place() {
    let bench = two_slices();
    let good = [
        Change::input(0, 1),
        Change::table(7, 1 << 63),
        Change::table(3, 0xFFFF_FFFF),
        Change::input(1, 1),
        Change::input(0, 0),
    ];
    for length in [1, 2, 12, 256] {
        let list: Vec<Change> = good.into_iter().cycle().take(length).collect();
        assert_eq!(bench.clone().edit(&list), Ok(()));
        for at in 0..length {
            for (why, bad) in bad_edits() {
                let mut list = list.clone();
                list[at] = bad;
                refuses(&bench, &list, 11, &format!("{why}, {at} of {length}"));
            }
        }
    }
}

/// What a later edit replaces is tested as well, and so is what stood there.
#[test]
fn a_bad_value_that_is_replaced() {
    let bench = two_slices();
    let word = [Change::table(3, 1 << 32), Change::table(3, 0)];
    refuses(&bench, &word, 11, "a word");
    let byte = [of_kind(0, 0, 256), Change::input(0, 0)];
    refuses(&bench, &byte, 11, "a byte");
    let mut old = bench.clone();
    old.contents.lend()[3] = 1 << 32;
    refuses(&old, &word[1..], 11, "an old word");
    let mut old = bench.clone();
    old.inputs.lend()[0] = 2;
    refuses(&old, &byte[1..], 11, "an old byte");
}

#[test]
fn two_inputs_where_there_is_one() {
    let edits = [Change::input(0, 1), Change::input(1, 0)];
    refuses(&passes_input(), &edits, 11, "input m");
}

#[test]
fn at_most_256_edits() {
    let mut list = vec![Change::input(0, 0); 255];
    list.push(Change::input(0, 1));
    let mut bench = passes_input();
    assert_eq!(bench.edit(&list), Ok(()));
    assert_eq!(signals(&bench, 1), [0, 4, 12, 20]);
    list.push(Change::input(0, 1));
    let bench = passes_input();
    refuses(&bench, &list, 11, "257 edits");
    refuses(
        &bench,
        &vec![Change::input(0, 1); 100_000],
        11,
        "many edits",
    );
    let mut short = bench.clone();
    short.contents = Lent::words(&[2, 0, 0]);
    refuses(&short, &list, 10, "257 edits and short contents");
    refuses(
        &short,
        &[of_kind(2, 0, 0)],
        10,
        "a bad edit and short contents",
    );
    let mut looped = bench;
    looped.file = Lent::bytes(&Column::zeros(1, 1).pin(0, "A1", 4096).bytes());
    let before = looped.clone();
    let refused = Refused {
        number: 9,
        place: 0,
    };
    assert_eq!(looped.edit(&list), Err(refused));
    assert_eq!(looped, before);
}
