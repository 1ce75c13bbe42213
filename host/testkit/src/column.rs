//! Slice files put together field by field.

use model::layout::*;

/// A column whose file is to be written; nothing about it needs to be sound.
#[derive(Clone)]
pub struct Column {
    pub m: u8,
    pub slices: Vec<[u8; SLICE_BODY]>,
}

impl Column {
    /// n slices of zeros, apart from their numbers.
    pub fn zeros(n: usize, m: u8) -> Column {
        let slice = |number| {
            let mut body = [0; SLICE_BODY];
            body[NUMBER] = number as u8;
            body
        };
        Column {
            m,
            slices: (0..n).map(slice).collect(),
        }
    }

    /// With one byte of a slice's body replaced.
    pub fn set(mut self, slice: usize, at: usize, byte: u8) -> Column {
        self.slices[slice][at] = byte;
        self
    }

    /// With the same byte for all four letters.
    pub fn set_letters(self, slice: usize, at: usize, byte: u8) -> Column {
        let set = |column: Column, letter| column.set(slice, at + letter, byte);
        LETTERS.into_iter().fold(self, set)
    }

    /// With a pin, by its name, driven by a code.
    pub fn pin(mut self, slice: usize, name: &str, code: u16) -> Column {
        self.drive(slice, pin_named(name), code);
        self
    }

    /// With every pin left open.
    pub fn opened(mut self) -> Column {
        for slice in 0..self.slices.len() {
            (0..PIN_COUNT).for_each(|pin| self.drive(slice, pin, 2));
        }
        self
    }

    /// With a table's contents replaced.
    pub fn contents(mut self, slice: usize, letter: usize, word: u64) -> Column {
        self.fill(slice, letter, word);
        self
    }

    pub fn drive(&mut self, slice: usize, pin: usize, code: u16) {
        self.slices[slice][pin_bytes(pin)].copy_from_slice(&code.to_le_bytes());
    }

    pub fn fill(&mut self, slice: usize, letter: usize, word: u64) {
        self.slices[slice][contents_bytes(letter)].copy_from_slice(&word.to_le_bytes());
    }

    /// The file.
    pub fn bytes(&self) -> Vec<u8> {
        let mut file = vec![1, 2, 0, self.slices.len() as u8, self.m];
        for body in &self.slices {
            file.extend([2, 124, 0]);
            file.extend(body);
        }
        file.extend([3, 0, 0]);
        file
    }
}

/// Drives the open pins of a slice's body by the constant 1.
pub fn pull_up(body: &mut [u8]) {
    for pin in 0..PIN_COUNT {
        if pin_code(body, pin) == OPEN_CODE {
            body[pin_bytes(pin)].copy_from_slice(&1u16.to_le_bytes());
        }
    }
}

/// A pin's place in the file's order.
pub fn pin_named(name: &str) -> usize {
    let place = PIN_NAMES.iter().position(|&pin| pin == name);
    place.unwrap_or_else(|| panic!("no pin {name}"))
}

/// The paper's base file Z as a column.
pub fn z() -> Column {
    Column::zeros(1, 0)
}

/// Z with kind SLICEM.
pub fn z_slicem() -> Column {
    z().set(0, KIND, 1)
}
