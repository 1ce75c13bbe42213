//! The numbers at carry chains, as the model reads them: what they are is written by hand.

use model::adders::{Numbers, Row};
use model::design::SIGNALS;
use model::layout::*;
use model::values::number;
use model::{Simulator, Workings};
use testkit::column::{z, Column};

const SLICE_0: Row = Row { base: 0, height: 1 };

/// The numbers at a row of a column without inputs: a, b, c, the sums and the top carry.
fn numbers(column: Column, row: Row) -> [usize; 5] {
    let n = column.slices.len();
    let simulator = Simulator::new(Workings::paper(), &column.bytes());
    let design = simulator.design().expect("accepted");
    let (mut contents, mut flops) = (vec![7; 4 * n], vec![7; n]);
    let mut values = vec![7; SIGNALS * n];
    assert_eq!(simulator.power_up(&mut contents, &mut flops), Ok(()));
    let settled = simulator.settle(&contents, &flops, &[], &mut values);
    assert_eq!(settled, Ok(()));
    assert!(row.is_chain(design));
    let read = Numbers::read(design, row, &[], &values);
    assert!(read.adds());
    let Numbers { addends, sums, top } = read;
    let [a, b, sums] = [addends.a, addends.b, sums].map(|bits| number(&bits));
    [a, b, usize::from(addends.c), sums, usize::from(top)]
}

/// Slices of zeros, each above the first starting with the one below.
fn chain(n: usize) -> Column {
    let start = |column: Column, slice| column.set(slice, CARRY_START, 3);
    (1..n).fold(Column::zeros(n, 0), start)
}

/// Contents of ones make both O5 and O6 of a table 1: a has that bit, b hasn't.
#[test]
fn each_letter_has_its_weight() {
    for table in 0..12 {
        let column = chain(3).contents(table / 4, table % 4, u64::MAX);
        let all = Row { base: 0, height: 3 };
        let bit = 1 << table;
        assert_eq!(numbers(column.clone(), all), [bit, 0, 0, bit, 0]);
        let upper = Row { base: 1, height: 2 };
        let bit = bit >> 4;
        assert_eq!(numbers(column, upper), [bit, 0, 0, bit, 0]);
    }
}

/// With the bypass pin at 0 as carry data, ones in the tables are b's.
#[test]
fn b_is_what_a_leaves_of_o6() {
    for table in 0..8 {
        let (slice, letter) = (table / 4, table % 4);
        let column = chain(2).contents(slice, letter, u64::MAX);
        let column = column.set(slice, CARRY_DATA + letter, 1);
        let bit = 1 << table;
        let row = Row { base: 0, height: 2 };
        assert_eq!(numbers(column.clone(), row), [0, bit, 0, bit, 0]);
        // With the pin at 1 and contents of zeros both have it, which makes a carry.
        let column = column.contents(slice, letter, 0);
        let column = column.pin(slice, ["AX", "BX", "CX", "DX"][letter], 1);
        let (sums, top) = ((bit << 1) % 256, usize::from(bit == 128));
        assert_eq!(numbers(column, row), [bit, bit, 0, sums, top]);
    }
}

/// Zeros and all ones with each carry start.
#[test]
fn carries_coming_in() {
    let ones = |column: Column, slice| {
        let fill = |column: Column, letter| column.contents(slice, letter, u64::MAX);
        LETTERS.into_iter().fold(column, fill)
    };
    let started = |start| z().set(0, CARRY_START, start);
    assert_eq!(numbers(started(0), SLICE_0), [0, 0, 0, 0, 0]);
    assert_eq!(numbers(started(1), SLICE_0), [0, 0, 1, 1, 0]);
    assert_eq!(numbers(started(2), SLICE_0), [0, 0, 0, 0, 0]);
    assert_eq!(
        numbers(started(2).pin(0, "AX", 1), SLICE_0),
        [0, 0, 1, 1, 0]
    );
    assert_eq!(numbers(ones(started(0), 0), SLICE_0), [15, 0, 0, 15, 0]);
    assert_eq!(numbers(ones(started(1), 0), SLICE_0), [15, 0, 1, 0, 1]);
    // Slice 1 takes the carry of slice 0.
    let above = Row { base: 1, height: 1 };
    let column = ones(chain(2).set(0, CARRY_START, 1), 0);
    assert_eq!(numbers(column.clone(), above), [0, 0, 1, 1, 0]);
    assert_eq!(numbers(ones(column, 1), above), [15, 0, 1, 0, 1]);
}

#[test]
fn chains_start_with_the_slice_below() {
    let column = chain(4).set(2, CARRY_START, 1);
    let simulator = Simulator::new(Workings::paper(), &column.bytes());
    let design = simulator.design().expect("accepted");
    let chains = [(0, 1), (0, 2), (1, 1), (2, 1), (2, 2), (3, 1)];
    for base in 0..4 {
        for height in 1..=4 - base {
            let is_chain = chains.contains(&(base, height));
            assert_eq!(Row { base, height }.is_chain(design), is_chain);
        }
    }
}
