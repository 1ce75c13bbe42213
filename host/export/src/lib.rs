//! Writes a design as Verilog over the vendor's primitives, with a test bench, for any simulator that has models of them.
//!
//! Only the decoded file is taken from the model, not what a signal reads or how a column runs: the tests compare those with what a simulator makes of
//! the primitives.

pub mod bench;
pub mod cells;
pub mod iverilog;
pub mod names;
pub mod slice;
pub mod text;

pub use bench::Stimulus;
pub use cells::Netlist;

/// The whole source: the column and its test bench.
pub fn verilog(netlist: &Netlist, stimulus: &Stimulus) -> String {
    let column = text::column(netlist);
    let bench = bench::test_bench(netlist, stimulus);
    // In picoseconds, as models with delays have them.
    format!("`timescale 1ps / 1ps\n\n{column}\n{bench}")
}
