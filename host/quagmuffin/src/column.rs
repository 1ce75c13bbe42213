//! An accepted file and its buffers, so that a call takes only what it is about.

use calls::{Accepted, Answer, Change, Refused};

/// A file that was accepted, with the buffers of its calls.
///
/// The buffers always have the lengths that the file names, and all that can go wrong in them is an input byte: no call gives refusal 10, and
/// 11 is given only where the call says so. A refused call changes nothing.
#[derive(Clone, Debug, PartialEq, Eq)]
pub struct Column {
    file: Vec<u8>,
    size: Accepted,
    contents: Vec<u64>,
    flops: Vec<u8>,
    inputs: Vec<u8>,
    values: Vec<u8>,
}

impl Column {
    /// Judges a file, and powers an accepted one up: all inputs are 0, the values settled for them. A refusal is the judge's, 1 to 9.
    pub fn new(file: Vec<u8>) -> Result<Column, Refused> {
        let size = calls::judge(&file)?;
        let mut column = Column {
            file,
            size,
            contents: vec![0; size.tables()],
            flops: vec![0; size.n],
            inputs: vec![0; size.m],
            values: vec![0; size.signals()],
        };
        column.power_up()?;
        column.settle()?;
        Ok(column)
    }

    /// The slices n and the outside inputs m.
    pub fn size(&self) -> Accepted {
        self.size
    }

    /// The bytes that were judged.
    pub fn file(&self) -> &[u8] {
        &self.file
    }

    /// 4n words, the contents of table 4s + letter (letters A to D count 0 to 3).
    pub fn contents(&self) -> &[u64] {
        &self.contents
    }

    /// n bytes, one a slice: bits 0-3 main flip-flops A to D, bits 4-7 second ones.
    pub fn flops(&self) -> &[u8] {
        &self.flops
    }

    /// m bytes, the outside inputs.
    pub fn inputs(&self) -> &[u8] {
        &self.inputs
    }

    /// 32n bytes, 0 or 1, by signal number: as the last call that fills or edits them left them.
    pub fn values(&self) -> &[u8] {
        &self.values
    }

    /// The outside inputs, to be set: bytes 0 and 1, which the next call that reads them judges. The values stay as they are until then.
    pub fn inputs_mut(&mut self) -> &mut [u8] {
        &mut self.inputs
    }

    /// Sets the contents and the flip-flops to the state at power-up, and leaves the inputs and the values. Never refuses.
    pub fn power_up(&mut self) -> Answer {
        calls::power_up(&self.file, &mut self.contents, &mut self.flops)
    }

    /// Settles the values for the state and the inputs. Refuses 11 where an input byte is not 0 or 1.
    pub fn settle(&mut self) -> Answer {
        calls::settle(
            &self.file,
            &self.contents,
            &self.flops,
            &self.inputs,
            &mut self.values,
        )
    }

    /// One clock: the contents and the flip-flops are those after the edge, the values those settled before it. Refuses 11 where an input byte
    /// is not 0 or 1.
    pub fn clock(&mut self) -> Answer {
        calls::clock(
            &self.file,
            &mut self.contents,
            &mut self.flops,
            &self.inputs,
            &mut self.values,
        )
    }

    /// Makes edits of inputs and of tables' contents, one after another, and recomputes the values that depend on any of them. Values that
    /// were settled are settled again; after a clock, or inputs set otherwise, those that depend on none stay as they were. Refuses 11 where
    /// there are more than `MOST_EDITS`, one is out of range (an input not below m or a byte not 0 or 1; a table not below 4n, or in shift mode
    /// and the word has one of bits 32-63 set), or an input byte is not 0 or 1.
    pub fn edit(&mut self, edits: &[Change]) -> Answer {
        calls::edit(
            &self.file,
            &mut self.contents,
            &self.flops,
            &mut self.inputs,
            &mut self.values,
            edits,
        )
    }
}
