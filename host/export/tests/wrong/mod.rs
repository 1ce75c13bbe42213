//! Exports with one mistake each.

use export::cells::{Cell, SliceCells, Wire};

pub enum Mistake {
    /// In the cells of these primitives.
    Cells(&'static [&'static str], fn(&mut Cell)),
    /// In the signals whose names end so, of those that no primitive drives: what drives them then.
    Assigned(&'static str, fn(&Wire) -> String),
    /// In the pins: what drives them then.
    Pins(fn(&Wire) -> String),
}

use Mistake::{Assigned, Cells, Pins};

const LOGIC: &[&str] = &["LUT6_2"];
const MEMORY: &[&str] = &["RAM64X1D"];
const SHIFT: &[&str] = &["SRLC32E"];
const WRITTEN: &[&str] = &["RAM64X1D", "SRLC32E"];
const CARRY: &[&str] = &["CARRY4"];
const F7: &[&str] = &["MUXF7"];
const F8: &[&str] = &["MUXF8"];
const FLIP_FLOPS: &[&str] = &["FDRE", "FDSE"];
const SET: &[&str] = &["FDSE"];

/// Every mistake by its name.
pub const ALL: [(&str, Mistake); 29] = [
    (
        "open pins are 0",
        Pins(|wire| wire.driver.replace("1'b1 /* open */", "1'b0")),
    ),
    (
        "pins 1 and 6 exchanged",
        Cells(LOGIC, |cell| exchange(cell, "I0", "I5")),
    ),
    (
        "contents zero at power-up",
        Cells(WRITTEN, |cell| cell.init = Some("0".to_string())),
    ),
    ("A to C read at D's pins", Cells(MEMORY, read_at_d)),
    ("O5 of a memory reads pin 6", Cells(MEMORY, read_pin_6)),
    ("shift reads at pins 5..1", Cells(SHIFT, read_one_lower)),
    (
        "O5 in shift mode is O6",
        Assigned("_O5", |wire| wire.name.replace("O5", "O6")),
    ),
    ("MC31 is zero", Assigned("_MC31", |_| "1'b0".to_string())),
    (
        "each letter writes at its own address",
        Cells(MEMORY, write_at_own),
    ),
    (
        "all letters write DX",
        Cells(MEMORY, |cell| {
            set(cell, "D", get(cell, "WE").replace("WE", "DX"))
        }),
    ),
    (
        "memory writes without WE",
        Cells(MEMORY, |cell| set(cell, "WE", "1'b1")),
    ),
    (
        "shift without WE",
        Cells(SHIFT, |cell| set(cell, "CE", "1'b1")),
    ),
    (
        "cascade from the own letter",
        Cells(SHIFT, cascade_from_own),
    ),
    (
        "cascade from the next letter's O6",
        Cells(SHIFT, |cell| replace(cell, "D", "_Q31", "_O6")),
    ),
    (
        "carry starts at zero",
        Cells(CARRY, |cell| set(cell, "CYINIT", "1'b0")),
    ),
    (
        "no carry from the slice below",
        Cells(CARRY, |cell| set(cell, "CI", "1'b0")),
    ),
    (
        "carry data is the bypass pin",
        Cells(CARRY, |cell| replace(cell, "DI", "_O5", "X")),
    ),
    (
        "carry and sum exchanged",
        Cells(CARRY, |cell| exchange(cell, "CO", "O")),
    ),
    (
        "F7 sides exchanged",
        Cells(F7, |cell| exchange(cell, "I0", "I1")),
    ),
    (
        "F8 sides exchanged",
        Cells(F8, |cell| exchange(cell, "I0", "I1")),
    ),
    ("F8 by AX", Cells(F8, |cell| replace(cell, "S", "BX", "AX"))),
    (
        "wide at B is F7B",
        Assigned("BMUX", |wire| wire.driver.replace("F8", "F7B")),
    ),
    (
        "a MUX output has the main flip-flop",
        Assigned("MUX", |wire| wire.driver.replace("5Q", "Q")),
    ),
    (
        "set/reset under clock enable",
        Cells(FLIP_FLOPS, under_enable),
    ),
    (
        "set/reset ignored",
        Cells(FLIP_FLOPS, |cell| set(cell, set_reset(cell), "1'b0")),
    ),
    ("always reset to 0", Cells(SET, always_reset)),
    (
        "clock enable ignored",
        Cells(FLIP_FLOPS, |cell| set(cell, "CE", "1'b1")),
    ),
    (
        "power-up bits are zero",
        Cells(FLIP_FLOPS, |cell| cell.init = Some("1'b0".to_string())),
    ),
    (
        "flip-flops take the bypass pin for O5",
        Cells(FLIP_FLOPS, |cell| replace(cell, "D", "_O5", "X")),
    ),
];

impl Mistake {
    pub fn make(&self, slice: &mut SliceCells) {
        match self {
            Cells(primitives, change) => {
                let cells = slice.cells.iter_mut();
                let named = cells.filter(|cell| primitives.contains(&cell.primitive));
                named.for_each(change);
            }
            Assigned(end, driver) => {
                let wires = slice.assigned.iter_mut();
                let named = wires.filter(|wire| wire.name.ends_with(end));
                named.for_each(|wire| wire.driver = driver(wire));
            }
            Pins(driver) => {
                let wires = slice.pins.iter_mut();
                wires.for_each(|wire| wire.driver = driver(wire));
            }
        }
    }
}

fn read_at_d(cell: &mut Cell) {
    let own = letter(cell);
    for pin in 0..6 {
        replace(cell, &format!("DPRA{pin}"), &own, "_D");
    }
}

fn write_at_own(cell: &mut Cell) {
    let own = letter(cell);
    for pin in 0..6 {
        replace(cell, &format!("A{pin}"), "_D", &own);
    }
}

fn read_pin_6(cell: &mut Cell) {
    let own = letter(cell);
    let pin_5 = format!("{own}5");
    let pin_6 = get(cell, "DPRA4").replace(&pin_5, &format!("{own}6"));
    set(cell, "DPRA5", pin_6);
}

fn read_one_lower(cell: &mut Cell) {
    let own = letter(cell);
    for pin in 2..=6 {
        let lower = pin - 1;
        replace(cell, "A", &format!("{own}{pin}"), &format!("{own}{lower}"));
    }
}

fn cascade_from_own(cell: &mut Cell) {
    if get(cell, "D").ends_with("_Q31") {
        set(cell, "D", get(cell, "Q31"));
    }
}

fn under_enable(cell: &mut Cell) {
    let under = format!("{} & {}", get(cell, set_reset(cell)), get(cell, "CE"));
    set(cell, set_reset(cell), under);
}

fn always_reset(cell: &mut Cell) {
    cell.primitive = "FDRE";
    let port = cell.ports.iter_mut().find(|(port, _)| port == "S");
    port.expect("its set").0 = "R".to_string();
}

fn set_reset(cell: &Cell) -> &'static str {
    match cell.primitive {
        "FDRE" => "R",
        _ => "S",
    }
}

/// The letter of a table as it stands in the names of its pins.
fn letter(cell: &Cell) -> String {
    let letter = cell.name.split('_').nth(1);
    format!("_{}", letter.expect("a letter"))
}

fn get(cell: &Cell, port: &str) -> String {
    let found = cell.ports.iter().find(|(name, _)| name == port);
    found.expect("a port").1.clone()
}

fn set(cell: &mut Cell, port: &str, wire: impl Into<String>) {
    let found = cell.ports.iter_mut().find(|(name, _)| name == port);
    found.expect("a port").1 = wire.into();
}

fn replace(cell: &mut Cell, port: &str, from: &str, to: &str) {
    let wire = get(cell, port).replace(from, to);
    set(cell, port, wire);
}

fn exchange(cell: &mut Cell, one: &str, other: &str) {
    let wires = (get(cell, one), get(cell, other));
    set(cell, one, wires.1);
    set(cell, other, wires.0);
}
