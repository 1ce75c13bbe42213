//! The paper's worked cases in iverilog, with what they have to give, written by hand.

use std::path::Path;

use export::{iverilog, verilog, Netlist, Stimulus};
use model::layout::*;
use model::{Simulator, Workings};
use testkit::cases::worked_file;
use testkit::column::{z, z_slicem, Column};

/// The signals of each clock of a file in iverilog; nothing where it isn't installed.
fn run(name: &str, file: &[u8], clocks: usize, inputs: Vec<String>) -> Option<Vec<Vec<u8>>> {
    let cells = iverilog::cells()?;
    let simulator = Simulator::new(Workings::paper(), file);
    let netlist = Netlist::of(simulator.design().expect("an accepted file"));
    let source = verilog(&netlist, &Stimulus { clocks, inputs });
    let path = Path::new(env!("CARGO_TARGET_TMPDIR")).join(name);
    Some(iverilog::run(&cells, &path, &source).expect("a run"))
}

/// In each clock of a file the signals that are 1.
fn ones_of(name: &str, file: &[u8], clocks: usize) -> Option<Vec<Vec<usize>>> {
    let rows = run(name, file, clocks, vec![])?;
    let ones = |row: &Vec<u8>| (0..row.len()).filter(|&x| row[x] == 1).collect();
    Some(rows.iter().map(ones).collect())
}

/// The same of a worked case.
fn ones(case: usize, clocks: usize) -> Option<Vec<Vec<usize>>> {
    ones_of(&format!("case-{case}"), &worked_file(case), clocks)
}

#[test]
fn cases_2_to_4_settle() {
    let most: Vec<usize> = (0..=11).chain(16..=18).chain(20..=23).collect();
    for (case, expected) in [(2, vec![0, 4, 12, 20]), (3, vec![12]), (4, most)] {
        if let Some(ones) = ones(case, 1) {
            assert_eq!(ones, [expected], "case {case}");
        }
    }
}

/// From the second clock on D holds a 1 at the bit that it reads: its O6 and sum are 1, F7B takes it since CX is 0, and F8 takes F7B since BX is 0.
#[test]
fn cases_9_and_10_show_what_d_took() {
    for case in [9, 10] {
        if let Some(ones) = ones(case, 3) {
            let d = vec![3, 15, 17, 18];
            assert_eq!(ones, [vec![], d.clone(), d], "case {case}");
        }
    }
}

/// Z as a SLICEM with D in a mode, DX at 1, D1 to D6 by inputs 0 to 5 and WE by input 6.
fn readable(mode: u8) -> Vec<u8> {
    let column = Column {
        m: 7,
        ..z_slicem().set(0, MODE + D, mode).pin(0, "DX", 1)
    };
    let pins = ["D1", "D2", "D3", "D4", "D5", "D6", "WE"];
    let drive = |column: Column, (j, pin): (u16, &str)| column.pin(0, pin, 256 + j);
    (0..).zip(pins).fold(column, drive).bytes()
}

/// What D holds after so many clocks with WE and all address pins at 1: its O6 read with WE at 0, at each address.
fn held(mode: u8, clocks: usize, addresses: &[usize]) -> Option<u64> {
    let bit = |word: usize, bit: usize| if word >> bit & 1 == 1 { '1' } else { '0' };
    let read = |&address: &usize| (0..7).map(|pin| bit(address, pin)).collect();
    let mut inputs = vec!["1111111".to_string(); clocks];
    inputs.extend(addresses.iter().map(read));
    let name = format!("held-{mode}-{clocks}");
    let rows = run(&name, &readable(mode), inputs.len(), inputs)?;
    let bits = rows[clocks..].iter().map(|row| u64::from(row[D]));
    Some(bits.rev().fold(0, |word, bit| word << 1 | bit))
}

/// D shifts, and is read at pins 6 to 2.
#[test]
fn case_9_contents() {
    let addresses: Vec<usize> = (0..32).map(|bit| bit << 1).collect();
    for (clocks, expected) in [(1, 1), (32, 4_294_967_295)] {
        if let Some(word) = held(2, clocks, &addresses) {
            assert_eq!(word, expected);
        }
    }
}

#[test]
fn case_10_contents() {
    let addresses: Vec<usize> = (0..64).collect();
    if let Some(word) = held(1, 1, &addresses) {
        assert_eq!(word, 9_223_372_036_854_775_808);
    }
}

#[test]
fn case_11_set_reset_over_enable() {
    if let Some(ones) = ones(11, 2) {
        assert_eq!(ones, [vec![], vec![24]]);
    }
}

/// A1 is open, and contents A give it on. AX is open: F7A takes A's O6. CE is open: main A takes AX, second A its O5.
#[test]
fn open_pins_are_1() {
    let column = z().contents(0, A, 2).set(0, MAIN + A, 5);
    let open = |column: Column, pin| column.pin(0, pin, 2);
    let file = ["A1", "AX", "CE"].into_iter().fold(column, open).bytes();
    if let Some(ones) = ones_of("open", &file, 2) {
        let settled = vec![0, 4, 12, 16, 20];
        let clocked = [&settled[..], &[24, 28]].concat();
        assert_eq!(ones, [settled, clocked]);
    }
}
