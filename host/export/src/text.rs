//! The column as a module.

use model::design::{Kind, Signal, SIGNALS};

use crate::cells::{Cell, Netlist, SliceCells, Wire};
use crate::names;

const PORTS_A_LINE: usize = 6;

/// Module `column`: the clock, the outside inputs where there are any, and all signals, each vector with its number 0 on the left.
pub fn column(netlist: &Netlist) -> String {
    let n = netlist.slices.len();
    let mut text = format!("// Slices: {n}; outside inputs: {}\n", netlist.m);
    text += "module column (\n  input clk,\n";
    if netlist.m > 0 {
        text += &format!("  input {} inputs,\n", range(netlist.m));
    }
    text += &format!("  output {} signals\n);\n", range(SIGNALS * n));
    for slice in 0..n {
        text += &declarations(slice);
    }
    for (number, slice) in netlist.slices.iter().enumerate() {
        text += &slice_text(number, slice);
    }
    text + "endmodule\n"
}

/// The range of a vector.
pub fn range(length: usize) -> String {
    format!("[0:{}]", length - 1)
}

/// The signals of a slice, and their places among all.
fn declarations(slice: usize) -> String {
    let name = |k| names::signal(slice, Signal::numbered(k));
    let four = |first: usize| (first..first + 4).map(name).collect::<Vec<_>>().join(", ");
    let lines: Vec<String> = (0..SIGNALS).step_by(4).map(four).collect();
    let lines = lines.join(",\n    ");
    let first = SIGNALS * slice;
    let last = first + SIGNALS - 1;
    format!("\n  // Signals {first} to {last}\n  wire\n    {lines};\n  assign signals[{first}:{last}] = {{\n    {lines}\n  }};\n")
}

fn slice_text(number: usize, slice: &SliceCells) -> String {
    let kind = match slice.kind {
        Kind::SliceL => "SLICEL",
        Kind::SliceM => "SLICEM",
    };
    let mut text = format!("\n  // Slice {number}, {kind}: its pins\n");
    for Wire { name, driver } in &slice.pins {
        text += &format!("  wire {name} = {driver};\n");
    }
    for name in &slice.bits_31 {
        text += &format!("  wire {name};\n");
    }
    for cell in &slice.cells {
        text += &cell_text(number, cell);
    }
    text += &format!("  // Slice {number}: what is fixed or chosen\n");
    for Wire { name, driver } in &slice.assigned {
        text += &format!("  assign {name} = {driver};\n");
    }
    text
}

fn cell_text(slice: usize, cell: &Cell) -> String {
    let port = |(port, wire): &(String, String)| format!(".{port}({wire})");
    let line = |ports: &[(String, String)]| ports.iter().map(port).collect::<Vec<_>>().join(", ");
    let lines: Vec<String> = cell.ports.chunks(PORTS_A_LINE).map(line).collect();
    let init = match &cell.init {
        Some(init) => format!("#(.INIT({init})) "),
        None => String::new(),
    };
    format!(
        "  // Slice {slice}, {}\n  {} {init}{} (\n    {}\n  );\n",
        cell.note,
        cell.primitive,
        cell.name,
        lines.join(",\n    ")
    )
}
