//! The primitives of one slice.

use model::design::{
    CarryData, CarryStart, MainInput, Mode, MuxOutput, SecondInput, ShiftData, Signal, Slice,
};
use model::layout::*;

use crate::cells::{Cell, SliceCells, Wire};
use crate::names;

const ZERO: &str = "1'b0";

/// A slice as primitives and wires.
pub fn cells(number: usize, slice: &Slice) -> SliceCells {
    let writer = Writer { number, slice };
    let mut cells: Vec<Cell> = LETTERS.into_iter().flat_map(|x| writer.table(x)).collect();
    cells.push(writer.carry());
    cells.extend(writer.wide());
    cells.extend(LETTERS.map(|letter| writer.main(letter)));
    cells.extend(LETTERS.map(|letter| writer.second(letter)));
    let shifting = LETTERS.into_iter().filter(|&x| writer.shifts(x));
    SliceCells {
        kind: slice.kind,
        pins: (0..PIN_COUNT).map(|pin| writer.pin_wire(pin)).collect(),
        bits_31: shifting.map(|x| names::bit_31(number, x)).collect(),
        cells,
        assigned: writer.assigned(),
    }
}

struct Writer<'a> {
    number: usize,
    slice: &'a Slice,
}

impl Writer<'_> {
    fn signal(&self, signal: Signal) -> String {
        names::signal(self.number, signal)
    }

    fn pin(&self, pin: usize) -> String {
        names::pin(self.number, pin)
    }

    fn bypass(&self, letter: usize) -> String {
        self.pin(bypass_pin(letter))
    }

    /// Pins 1 to 6 of a letter.
    fn address(&self, letter: usize) -> [String; 6] {
        std::array::from_fn(|i| self.pin(table_pin(letter, i + 1)))
    }

    fn shifts(&self, letter: usize) -> bool {
        self.slice.mode[letter] == Mode::Shift
    }

    fn pin_wire(&self, pin: usize) -> Wire {
        Wire {
            name: self.pin(pin),
            driver: names::driver(self.slice.pins[pin]),
        }
    }

    fn cell(&self, primitive: &'static str, name: &str, note: String) -> Cell {
        Cell {
            primitive,
            name: format!("s{}_{name}", self.number),
            note,
            init: None,
            ports: vec![],
        }
    }

    /// The primitives of a table.
    fn table(&self, letter: usize) -> Vec<Cell> {
        match self.slice.mode[letter] {
            Mode::Logic => vec![self.logic(letter)],
            Mode::Memory if letter == D => vec![self.memory_d()],
            Mode::Memory => self.memory(letter).into(),
            Mode::Shift => vec![self.shift(letter)],
        }
    }

    fn logic(&self, letter: usize) -> Cell {
        let l = LETTER_NAMES[letter];
        let note = format!("{l}: logic; O6 at {l}6..{l}1, O5 at {l}5..{l}1");
        self.cell("LUT6_2", &format!("{l}_table"), note)
            .init(64, self.slice.contents[letter])
            .port("O6", self.signal(Signal::O6(letter)))
            .port("O5", self.signal(Signal::O5(letter)))
            .numbered_ports("I", &self.address(letter))
    }

    /// D reads where it writes. The second read, at pin 6 taken as 0, is O5.
    fn memory_d(&self) -> Cell {
        let note = "D: memory, written and read (O6) at D6..D1; O5 at D5..D1".to_string();
        self.memory_cell(D, "D_table", note)
            .port("SPO", self.signal(Signal::O6(D)))
            .port("DPO", self.signal(Signal::O5(D)))
            .numbered_ports("DPRA", &self.low_address(D))
    }

    /// A to C read at their own pins. The primitive has one such read, so a second one, written alike, has O5.
    fn memory(&self, letter: usize) -> [Cell; 2] {
        let l = LETTER_NAMES[letter];
        let note = |read| format!("{l}: memory, written at D6..D1, read at {read}");
        let o6 = self.memory_cell(letter, &format!("{l}_table"), note(format!("{l}6..{l}1")));
        let o5 = self.memory_cell(
            letter,
            &format!("{l}_table_O5"),
            note(format!("{l}5..{l}1")),
        );
        [
            o6.port("SPO", String::new())
                .port("DPO", self.signal(Signal::O6(letter)))
                .numbered_ports("DPRA", &self.address(letter)),
            o5.port("SPO", String::new())
                .port("DPO", self.signal(Signal::O5(letter)))
                .numbered_ports("DPRA", &self.low_address(letter)),
        ]
    }

    /// A memory without what it reads. All four letters are written at the address on D's pins.
    fn memory_cell(&self, letter: usize, name: &str, note: String) -> Cell {
        self.cell("RAM64X1D", name, note)
            .init(64, self.slice.contents[letter])
            .port("WCLK", "clk".to_string())
            .port("WE", self.pin(WE))
            .port("D", self.bypass(letter))
            .numbered_ports("A", &self.address(D))
    }

    /// Pins 1 to 5 of a letter, and a 0 for pin 6.
    fn low_address(&self, letter: usize) -> [String; 6] {
        let mut address = self.address(letter);
        address[5] = ZERO.to_string();
        address
    }

    fn shift(&self, letter: usize) -> Cell {
        let l = LETTER_NAMES[letter];
        let note = format!("{l}: shift; O6 at {l}6..{l}2");
        let [_, address @ ..] = self.address(letter);
        let data = match self.slice.shift_data[letter] {
            ShiftData::Bypass => self.bypass(letter),
            ShiftData::Cascade => names::bit_31(self.number, letter + 1),
        };
        self.cell("SRLC32E", &format!("{l}_table"), note)
            .init(32, self.slice.contents[letter])
            .port("Q", self.signal(Signal::O6(letter)))
            .port("Q31", names::bit_31(self.number, letter))
            .port("A", high_first(address))
            .port("CE", self.pin(WE))
            .port("CLK", "clk".to_string())
            .port("D", data)
    }

    fn carry(&self) -> Cell {
        let each = |signal: fn(usize) -> Signal| LETTERS.map(|x| self.signal(signal(x)));
        let data = LETTERS.map(|letter| match self.slice.carry_data[letter] {
            CarryData::O5 => self.signal(Signal::O5(letter)),
            CarryData::Bypass => self.bypass(letter),
        });
        let zero = || ZERO.to_string();
        let (below, start) = match self.slice.carry_start {
            CarryStart::Zero => (zero(), zero()),
            CarryStart::One => (zero(), names::constant(true)),
            CarryStart::Ax => (zero(), self.bypass(A)),
            CarryStart::SliceBelow => {
                let carry = names::signal(self.number - 1, Signal::Carry(D));
                (carry, zero())
            }
        };
        self.cell("CARRY4", "carry", "carry and sum, D first".to_string())
            .port("CO", high_first(each(Signal::Carry)))
            .port("O", high_first(each(Signal::Sum)))
            .port("CI", below)
            .port("CYINIT", start)
            .port("DI", high_first(data))
            .port("S", high_first(each(Signal::O6)))
    }

    fn wide(&self) -> [Cell; 3] {
        let (a, b, c, d) = (Signal::O6(A), Signal::O6(B), Signal::O6(C), Signal::O6(D));
        [
            self.select("MUXF7", "F7A", Signal::F7A, A, a, b),
            self.select("MUXF7", "F7B", Signal::F7B, C, c, d),
            self.select("MUXF8", "F8", Signal::F8, B, Signal::F7A, Signal::F7B),
        ]
    }

    /// A multiplexer by a letter's bypass pin: the primitives take I1 where S is 1.
    fn select(
        &self,
        primitive: &'static str,
        name: &str,
        out: Signal,
        letter: usize,
        one: Signal,
        zero: Signal,
    ) -> Cell {
        self.cell(primitive, &format!("{name}_mux"), name.to_string())
            .port("O", self.signal(out))
            .port("I0", self.signal(zero))
            .port("I1", self.signal(one))
            .port("S", self.bypass(letter))
    }

    fn main(&self, letter: usize) -> Cell {
        let takes = match self.slice.main[letter] {
            MainInput::O6 => self.signal(Signal::O6(letter)),
            MainInput::O5 => self.signal(Signal::O5(letter)),
            MainInput::Sum => self.signal(Signal::Sum(letter)),
            MainInput::Carry => self.signal(Signal::Carry(letter)),
            MainInput::Wide => self.signal(wide(letter)),
            MainInput::Bypass => self.bypass(letter),
        };
        let l = LETTER_NAMES[letter];
        let note = format!("main flip-flop {l}");
        self.flip_flop(letter, &format!("{l}_main"), note)
            .port("Q", self.signal(Signal::Main(letter)))
            .port("D", takes)
    }

    fn second(&self, letter: usize) -> Cell {
        let takes = match self.slice.second[letter] {
            SecondInput::O5 => self.signal(Signal::O5(letter)),
            SecondInput::Bypass => self.bypass(letter),
        };
        let l = LETTER_NAMES[letter];
        let note = format!("second flip-flop {l}");
        self.flip_flop(4 + letter, &format!("{l}_second"), note)
            .port("Q", self.signal(Signal::Second(letter)))
            .port("D", takes)
    }

    /// A flip-flop without its input and output; `bit` is its place in the file's bytes. Both primitives put R or S over CE.
    fn flip_flop(&self, bit: usize, name: &str, note: String) -> Cell {
        let (primitive, port) = match self.slice.set_reset_values >> bit & 1 {
            0 => ("FDRE", "R"),
            _ => ("FDSE", "S"),
        };
        let set_reset = match self.slice.set_reset_used {
            true => self.pin(SR),
            false => ZERO.to_string(),
        };
        self.cell(primitive, name, note)
            .init(1, u64::from(self.slice.power_up >> bit & 1))
            .port("C", "clk".to_string())
            .port("CE", self.pin(CE))
            .port(port, set_reset)
    }

    fn assigned(&self) -> Vec<Wire> {
        let wire = |signal, driver| Wire {
            name: self.signal(signal),
            driver,
        };
        let shifting = LETTERS.into_iter().filter(|&x| self.shifts(x));
        let mut wires: Vec<Wire> = shifting
            .map(|letter| wire(Signal::O5(letter), ZERO.to_string()))
            .collect();
        let mc31 = match self.shifts(A) {
            true => names::bit_31(self.number, A),
            false => ZERO.to_string(),
        };
        wires.push(wire(Signal::Mc31, mc31));
        wires.extend(LETTERS.map(|letter| wire(Signal::Mux(letter), self.output(letter))));
        wires
    }

    /// What a MUX output has.
    fn output(&self, letter: usize) -> String {
        self.signal(match self.slice.mux[letter] {
            MuxOutput::O5 => Signal::O5(letter),
            MuxOutput::Sum => Signal::Sum(letter),
            MuxOutput::Carry => Signal::Carry(letter),
            MuxOutput::Wide => wide(letter),
            MuxOutput::Second => Signal::Second(letter),
        })
    }
}

/// What "wide" means at each letter.
fn wide(letter: usize) -> Signal {
    match letter {
        A => Signal::F7A,
        B => Signal::F8,
        C => Signal::F7B,
        _ => Signal::Mc31,
    }
}

/// A vector of wires, given lowest first.
fn high_first<const COUNT: usize>(wires: [String; COUNT]) -> String {
    let mut wires = wires;
    wires.reverse();
    format!("{{{}}}", wires.join(", "))
}

impl Cell {
    fn init(mut self, bits: usize, word: u64) -> Cell {
        let digits = bits.div_ceil(4);
        self.init = Some(format!("{bits}'h{word:0digits$x}"));
        self
    }

    fn port(mut self, port: &str, wire: String) -> Cell {
        self.ports.push((port.to_string(), wire));
        self
    }

    /// Ports that are numbered from 0.
    fn numbered_ports(self, port: &str, wires: &[String]) -> Cell {
        let each = wires.iter().enumerate();
        each.fold(self, |cell, (number, wire)| {
            cell.port(&format!("{port}{number}"), wire.clone())
        })
    }
}
