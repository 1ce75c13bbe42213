//! One clock edge.

use crate::design::{Design, Mode, ShiftData, Source};
use crate::layout::*;
use crate::values::{number, value, State};
use crate::workings::Workings;

/// What stands before an edge.
pub struct Edge<'a> {
    pub workings: &'a Workings,
    pub design: &'a Design,
    pub state: State<'a>,
    /// The settled values.
    pub values: &'a [u8],
}

impl Edge<'_> {
    fn value(&self, source: Source) -> bool {
        value(source, self.state.inputs, self.values)
    }

    fn pin(&self, slice: usize, pin: usize) -> bool {
        self.value(self.design.pin(slice, pin))
    }

    /// A slice's flip-flops after the edge.
    pub fn flops(&self, slice: usize) -> u8 {
        let after = |bit: usize| u8::from(self.flop(slice, bit)) << bit;
        (0..8).map(after).sum()
    }

    fn flop(&self, slice: usize, bit: usize) -> bool {
        let settings = &self.design.slices[slice];
        let enabled = self.pin(slice, CE);
        let acts = enabled || self.workings.set_reset_over_enable;
        if settings.set_reset_used && self.pin(slice, SR) && acts {
            settings.set_reset_values >> bit & 1 == 1
        } else if enabled {
            self.value(match bit {
                0..=3 => (self.workings.main_input)(self.design, slice, bit),
                _ => (self.workings.second_input)(self.design, slice, bit - 4),
            })
        } else {
            self.state.flops[slice] >> bit & 1 == 1
        }
    }

    /// A slice's contents after the edge.
    pub fn contents(&self, slice: usize) -> [u64; 4] {
        LETTERS.map(|letter| {
            let before = self.state.contents[4 * slice + letter];
            match self.design.slices[slice].mode[letter] {
                _ if !self.pin(slice, WE) => before,
                Mode::Logic => before,
                Mode::Memory => self.written(slice, letter, before),
                Mode::Shift => {
                    let data = u64::from(self.shift_data(slice, letter));
                    (before << 1 | data) & self.workings.shift_bits
                }
            }
        })
    }

    fn written(&self, slice: usize, letter: usize, before: u64) -> u64 {
        let pins = (self.workings.write_address)(letter).into_iter();
        let address: Vec<bool> = pins.map(|pin| self.pin(slice, pin)).collect();
        let bit = 1 << number(&address);
        if self.pin(slice, bypass_pin(letter)) {
            before | bit
        } else {
            before & !bit
        }
    }

    fn shift_data(&self, slice: usize, letter: usize) -> bool {
        match self.design.slices[slice].shift_data[letter] {
            ShiftData::Bypass => self.pin(slice, bypass_pin(letter)),
            ShiftData::Cascade => {
                let from = (self.workings.cascade_from)(letter);
                self.state.contents[4 * slice + from] >> 31 & 1 == 1
            }
        }
    }
}
