//! `Column`: the worked cases, edits and refusals through buffers of its own, with what they have to give, written by hand.

use model::layout::*;
use quagmuffin::{Accepted, Answer, Change, Column, Refused, MOST_EDITS};
use testkit::cases::worked_file;
use testkit::column::{self, z_slicem};

/// The signals that are 1, of values that are all 0 or 1.
fn ones(column: &Column) -> Vec<usize> {
    let values = column.values();
    assert!(
        values.iter().all(|&byte| byte < 2),
        "a value byte not 0 or 1"
    );
    (0..values.len()).filter(|&x| values[x] == 1).collect()
}

fn accepted(file: Vec<u8>) -> Column {
    Column::new(file).expect("an accepted file")
}

/// Z with outside input 0 on A1, and contents A that pass it on.
fn passes_input() -> Column {
    let column = column::Column::zeros(1, 1).pin(0, "A1", 256);
    accepted(column.contents(0, A, 2).bytes())
}

type Call = fn(&mut Column) -> Answer;

/// The call refuses 11 at place 0, and changes nothing.
fn refuses_11(column: &Column, call: Call, why: &str) {
    let mut called = column.clone();
    let refused = Refused {
        number: 11,
        place: 0,
    };
    assert_eq!(call(&mut called), Err(refused), "{why}");
    assert_eq!(&called, column, "{why}");
}

/// Two slices: A of the first is 1 while input 0 is 0, and the second has a word and flip-flops at power-up.
#[test]
fn new_is_powered_up_and_settled() {
    let file = column::Column::zeros(2, 1)
        .pin(0, "A1", 256)
        .contents(0, A, 1)
        .contents(1, C, 0x0123_4567_89AB_CDEE)
        .set(1, POWER_UP, 0xC3)
        .bytes();
    let column = accepted(file.clone());
    assert_eq!(column.size(), Accepted { n: 2, m: 1 });
    assert_eq!(column.file(), file);
    assert_eq!(
        column.contents(),
        [1, 0, 0, 0, 0, 0, 0x0123_4567_89AB_CDEE, 0]
    );
    assert_eq!(column.flops(), [0, 0xC3]);
    assert_eq!(column.inputs(), [0]);
    // Main A and B of slice 1 are signals 56 and 57, second C and D 62 and 63.
    assert_eq!(ones(&column), [0, 4, 12, 20, 56, 57, 62, 63]);
}

#[test]
fn case_2_is_settled() {
    assert_eq!(ones(&accepted(worked_file(2))), [0, 4, 12, 20]);
}

#[test]
fn a_refused_file() {
    let refused = |number, place| Err(Refused { number, place });
    assert_eq!(Column::new(worked_file(5)), refused(9, 0));
    let longer = [worked_file(1), vec![0]].concat();
    assert_eq!(Column::new(longer), refused(8, 135));
    assert_eq!(Column::new(vec![]), refused(1, 0));
}

#[test]
fn case_9_d_shifts() {
    let mut column = accepted(worked_file(9));
    assert_eq!(column.clock(), Ok(()));
    assert_eq!(column.contents(), [0, 0, 0, 1]);
    assert_eq!(ones(&column), [], "the values are those before the edge");
    assert_eq!(column.settle(), Ok(()));
    // D's O6 and sum are 1, F7B takes O6 since CX is 0, and F8 takes F7B since BX is 0.
    assert_eq!(ones(&column), [3, 15, 17, 18]);
    for _ in 1..32 {
        assert_eq!(column.clock(), Ok(()));
    }
    assert_eq!(column.contents(), [0, 0, 0, 4_294_967_295]);
}

#[test]
fn case_11_set_reset_over_enable() {
    let mut column = accepted(worked_file(11));
    assert_eq!(column.clock(), Ok(()));
    assert_eq!(column.flops(), [1]);
    assert_eq!(ones(&column), [], "the values are those before the edge");
    assert_eq!(column.settle(), Ok(()));
    assert_eq!(ones(&column), [24]);
}

/// Inputs that are set change no value; the next clock takes them.
#[test]
fn a_clock_takes_the_inputs() {
    let mut column = passes_input();
    column.inputs_mut()[0] = 1;
    assert_eq!(ones(&column), []);
    assert_eq!(column.clock(), Ok(()));
    assert_eq!(ones(&column), [0, 4, 12, 20]);
    column.inputs_mut()[0] = 0;
    assert_eq!(ones(&column), [0, 4, 12, 20]);
    assert_eq!(column.clock(), Ok(()));
    assert_eq!(ones(&column), []);
}

/// D shifts input 0 in.
#[test]
fn power_up_leaves_inputs_and_values() {
    let file = column::Column::zeros(1, 1)
        .set(0, KIND, 1)
        .set(0, MODE + D, 2)
        .pin(0, "DX", 256)
        .pin(0, "WE", 1)
        .bytes();
    let mut column = accepted(file);
    column.inputs_mut()[0] = 1;
    assert_eq!(column.clock(), Ok(()));
    assert_eq!(column.settle(), Ok(()));
    assert_eq!(column.contents(), [0, 0, 0, 1]);
    assert_eq!(column.power_up(), Ok(()));
    assert_eq!(column.contents(), [0; 4]);
    assert_eq!(column.inputs(), [1]);
    assert_eq!(ones(&column), [3, 15, 17, 18]);
}

#[test]
fn edited_input_is_as_settled_afresh() {
    let mut column = passes_input();
    assert_eq!(ones(&column), []);
    assert_eq!(column.edit(&[Change::input(0, 1)]), Ok(()));
    assert_eq!(column.inputs(), [1]);
    assert_eq!(ones(&column), [0, 4, 12, 20]);
    let mut afresh = passes_input();
    afresh.inputs_mut()[0] = 1;
    assert_eq!(afresh.settle(), Ok(()));
    assert_eq!(column, afresh);
}

/// Case 2 is case 1 with contents A = 1.
#[test]
fn edited_table_is_as_settled_afresh() {
    let mut column = accepted(worked_file(1));
    assert_eq!(ones(&column), []);
    assert_eq!(column.edit(&[Change::table(A, 1)]), Ok(()));
    let afresh = accepted(worked_file(2));
    assert_eq!(column.contents(), afresh.contents());
    assert_eq!(column.values(), afresh.values());
    assert_eq!(ones(&column), [0, 4, 12, 20]);
}

/// The buffers have the lengths that the calls want, from the smallest size to the largest.
#[test]
fn every_call_at_other_sizes() {
    for (n, m) in [(1, 0), (3, 5), (64, 64)] {
        let mut column = accepted(column::Column::zeros(n, m).bytes());
        let m = usize::from(m);
        assert_eq!(column.size(), Accepted { n, m });
        assert_eq!(column.clock(), Ok(()));
        if m > 0 {
            assert_eq!(column.edit(&[Change::input(m - 1, 1)]), Ok(()));
            assert_eq!(column.inputs()[m - 1], 1);
        }
        assert_eq!(column.edit(&[Change::table(4 * n - 1, 1)]), Ok(()));
        // O6, O5 and sum of D in the last slice, F7B, F8 and DMUX.
        let last = [3, 7, 15, 17, 18, 23].map(|k| 32 * (n - 1) + k);
        assert_eq!(ones(&column), last, "{n} slices");
    }
}

/// Input 0 is set, A turned round, and the input set again: A is 1 where it is 0.
#[test]
fn edits_in_their_order() {
    let mut column = passes_input();
    let edits = [
        Change::input(0, 1),
        Change::table(A, 1),
        Change::input(0, 0),
    ];
    assert_eq!(column.edit(&edits[..1]), Ok(()));
    assert_eq!(ones(&column), [0, 4, 12, 20]);
    assert_eq!(column.edit(&edits[..2]), Ok(()));
    assert_eq!(ones(&column), []);
    assert_eq!(column.edit(&edits), Ok(()));
    assert_eq!(ones(&column), [0, 4, 12, 20]);
    assert_eq!((column.inputs(), column.contents()[A]), (&[0][..], 1));
    let before = column.clone();
    assert_eq!(column.edit(&[]), Ok(()));
    assert_eq!(column, before);
}

#[test]
fn no_more_than_256_edits() {
    let mut column = passes_input();
    let edits = [Change::input(0, 1); 257];
    assert_eq!(MOST_EDITS, 256);
    refuses_11(
        &column,
        |column| column.edit(&[Change::input(0, 1); 257]),
        "257 edits",
    );
    assert_eq!(column.edit(&edits[..256]), Ok(()));
    assert_eq!(ones(&column), [0, 4, 12, 20]);
}

#[test]
fn an_edit_out_of_range() {
    let column = passes_input();
    let edits: [(&str, Call); 4] = [
        ("input m", |column| column.edit(&[Change::input(1, 1)])),
        ("input byte 2", |column| column.edit(&[Change::input(0, 2)])),
        ("table 4n", |column| column.edit(&[Change::table(4, 1)])),
        ("after one in range", |column| {
            column.edit(&[Change::input(0, 1), Change::input(1, 1)])
        }),
    ];
    for (why, edit) in edits {
        refuses_11(&column, edit, why);
    }
    let shifts = accepted(z_slicem().set(0, MODE + D, 2).bytes());
    let edit: Call = |column| column.edit(&[Change::table(D, 1 << 32)]);
    refuses_11(&shifts, edit, "bit 32 in shift mode");
}

#[test]
fn an_input_byte_2() {
    let mut column = passes_input();
    column.inputs_mut()[0] = 2;
    refuses_11(&column, Column::settle, "settle");
    refuses_11(&column, Column::clock, "clock");
    refuses_11(
        &column,
        |column| column.edit(&[Change::input(0, 1)]),
        "edit",
    );
    refuses_11(&column, |column| column.edit(&[]), "no edit");
    assert_eq!(column.power_up(), Ok(()), "no input is read");
    column.inputs_mut()[0] = 1;
    assert_eq!(column.settle(), Ok(()));
    assert_eq!(ones(&column), [0, 4, 12, 20]);
}
