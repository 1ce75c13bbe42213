//! Adder columns in iverilog, over models of the vendor's primitives: what they give has to be the sum of the numbers chosen for them.

use std::collections::BTreeSet;
use std::path::Path;

use export::{iverilog, verilog, Netlist, Stimulus};
use model::adders::Numbers;
use model::layout::file_length;
use model::{Simulator, Workings};
use testkit::adders::{columns, AdderColumn};
use testkit::random::seed;

/// Of the small columns one in so many is run; each height has more with each carry start.
const ONE_IN: usize = 11;

/// Every height is among them, and every carry start.
#[test]
fn iverilog_adds() {
    let Some(cells) = iverilog::cells() else {
        return;
    };
    let all = columns(seed(), 1);
    let small = all
        .iter()
        .filter(|column| column.file.len() <= file_length(8));
    let tall = |height, start| {
        let is_it = |column: &&AdderColumn| (column.row.height, column.start) == (height, start);
        all.iter().find(is_it).expect("such a column")
    };
    let tall = [tall(63, 3), tall(64, 2)];
    let mut tried = BTreeSet::new();
    let mut clocks = 0;
    for column in small.step_by(ONE_IN).chain(tall) {
        clocks += assert_adds(&cells, column);
        tried.insert((column.row.height, column.start));
    }
    println!("seed {}: {clocks} clocks, {tried:?}", seed());
    let of_height = |height| (0..4).map(move |start| (height, start));
    let small = (1..=3).flat_map(of_height);
    assert!(tried.into_iter().eq(small.chain([(63, 3), (64, 2)])));
}

/// Runs a column for some clocks, and says how many. The first has the chosen numbers, the others what the flip-flops then hold.
fn assert_adds(cells: &Path, column: &AdderColumn) -> usize {
    let simulator = Simulator::new(Workings::paper(), &column.file);
    let design = simulator.design().expect("an adder column is accepted");
    let stimulus = Stimulus {
        clocks: 4,
        inputs: vec![column.inputs.iter().map(u8::to_string).collect()],
    };
    let path = Path::new(env!("CARGO_TARGET_TMPDIR")).join("adder");
    let source = verilog(&Netlist::of(design), &stimulus);
    let rows = iverilog::run(cells, &path, &source).expect("rows of signals");
    let read = |values: &Vec<u8>| Numbers::read(design, column.row, &column.inputs, values);
    let numbers: Vec<Numbers> = rows.iter().map(read).collect();
    assert_eq!(numbers[0].addends, column.addends, "{:?}", column.row);
    for (clock, numbers) in numbers.iter().enumerate() {
        assert!(
            numbers.adds(),
            "{:?}, clock {clock}: {numbers:?}",
            column.row
        );
    }
    numbers.len()
}
