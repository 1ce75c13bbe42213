//! A column as primitives and wires, before it is written as text.

use model::design::Kind;
use model::Design;

use crate::slice;

/// One primitive of the vendor's.
#[derive(Clone, Debug, PartialEq)]
pub struct Cell {
    pub primitive: &'static str,
    pub name: String,
    /// What it is in the slice, for the reader.
    pub note: String,
    /// The parameter INIT, of primitives that have it.
    pub init: Option<String>,
    /// Each port with what it is connected to; an output left open with nothing.
    pub ports: Vec<(String, String)>,
}

/// A wire with what drives it.
#[derive(Clone, Debug, PartialEq)]
pub struct Wire {
    pub name: String,
    pub driver: String,
}

/// One slice.
#[derive(Clone, Debug, PartialEq)]
pub struct SliceCells {
    pub kind: Kind,
    pub pins: Vec<Wire>,
    /// Bit 31 of each table in shift mode.
    pub bits_31: Vec<String>,
    pub cells: Vec<Cell>,
    /// The signals that no primitive drives.
    pub assigned: Vec<Wire>,
}

/// A column.
#[derive(Clone, Debug, PartialEq)]
pub struct Netlist {
    pub m: usize,
    pub slices: Vec<SliceCells>,
}

impl Netlist {
    pub fn of(design: &Design) -> Netlist {
        let slices = design.slices.iter().enumerate();
        Netlist {
            m: design.m,
            slices: slices
                .map(|(number, of)| slice::cells(number, of))
                .collect(),
        }
    }
}
