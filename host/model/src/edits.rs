//! A list of edits: all are tested, then they are made one after another.

use crate::design::{Design, Source, SIGNALS};
use crate::simulate::{fits, in_range, lengths_are_right, require, Answer, Refusal};
use crate::values::State;
use crate::workings::Workings;

/// An edit as it is lent: kind 0 is of an outside input, 1 of a table.
#[derive(Clone, Copy, Debug, PartialEq, Eq)]
pub struct Edit {
    pub kind: u8,
    pub number: u64,
    pub value: u64,
}

impl Edit {
    pub fn new(kind: u8, number: u64, value: u64) -> Edit {
        Edit {
            kind,
            number,
            value,
        }
    }
}

/// What an edit that passed its tests sets, and to what.
#[derive(Clone, Copy, Debug, PartialEq, Eq)]
pub enum Change {
    Input { input: usize, byte: u8 },
    Table { table: usize, word: u64 },
}

/// The other buffers that are lent with a list.
pub struct Editable<'a> {
    pub contents: &'a mut [u64],
    pub flops: &'a [u8],
    pub inputs: &'a mut [u8],
    pub values: &'a mut [u8],
}

impl Editable<'_> {
    pub fn state(&self) -> State<'_> {
        State::of(self.contents, self.flops, self.inputs)
    }

    /// Sets an input or a table, and leaves the values.
    pub fn set(&mut self, change: Change) {
        match change {
            Change::Input { input, byte } => self.inputs[input] = byte,
            Change::Table { table, word } => self.contents[table] = word,
        }
    }
}

/// A list of edits on an accepted file.
pub fn edit(w: &Workings, design: &Design, lent: &mut Editable, edits: &[Edit]) -> Answer {
    for change in passed(w, design, lent, edits)? {
        make(w, design, lent, change);
    }
    Ok(())
}

/// What the edits change, if all that was lent passes the tests. The values are
/// read as well, so they are judged.
pub fn passed(
    w: &Workings,
    design: &Design,
    lent: &Editable,
    edits: &[Edit],
) -> Result<Vec<Change>, Refusal> {
    require(lengths_are_right(design, lent.state(), lent.values), 10)?;
    require(in_range(&w.tests, design, lent.state()), 11)?;
    let bits = lent.values.iter().all(|&byte| byte <= 1);
    require(bits || !w.tests.value_bytes, 11)?;
    require(edits.len() <= w.most_edits, 11)?;
    edits.iter().map(|edit| changed(w, design, edit)).collect()
}

/// What one edit changes, if it is of something that the column has.
pub fn changed(w: &Workings, design: &Design, edit: &Edit) -> Result<Change, Refusal> {
    let count = match edit.kind {
        0 => design.m,
        1 => 4 * design.n,
        _ => 0,
    };
    require(edit.number < count as u64, 11)?;
    let (number, value) = (edit.number as usize, edit.value);
    if edit.kind == 0 {
        require(value <= 1 || !w.tests.new_byte, 11)?;
        let (input, byte) = (number, value as u8);
        Ok(Change::Input { input, byte })
    } else {
        let (table, word) = (number, value);
        require(fits(design, table, word) || !w.tests.new_word, 11)?;
        Ok(Change::Table { table, word })
    }
}

/// Makes one change, and recomputes what depends on it.
pub fn make(w: &Workings, design: &Design, lent: &mut Editable, change: Change) {
    lent.set(change);
    recompute(w, design, lent, &first_reached(w, design, change));
}

/// Recomputes some signals and all that depend on them.
pub fn recompute(w: &Workings, design: &Design, lent: &mut Editable, first: &[bool]) {
    let new = (w.edited)(w, design, lent.state(), lent.values, first);
    lent.values.copy_from_slice(&new);
}

/// The signals that read a changed input themselves, or belong to a changed table.
pub fn first_reached(w: &Workings, design: &Design, change: Change) -> Vec<bool> {
    let signals = 0..SIGNALS * design.n;
    match change {
        Change::Input { input, .. } => {
            let reads = |x| (w.sources)(design, x).contains(&Source::Input(input));
            signals.map(reads).collect()
        }
        Change::Table { table, .. } => {
            let own = (w.of_table)(table % 4).into_iter();
            let own: Vec<usize> = own.map(|x| x.of_slice(table / 4)).collect();
            signals.map(|x| own.contains(&x)).collect()
        }
    }
}
