//! The calls that run a column, with their refusals.

use crate::design::{Mode, SIGNALS};
use crate::edge::Edge;
use crate::edits::{Edit, Editable};
use crate::rules::Rules;
use crate::values::{settled, State};
use crate::workings::{Tests, Workings};
use crate::{judge, Design, Verdict};

#[derive(Clone, Copy, Debug, PartialEq, Eq)]
pub struct Refusal {
    pub number: u8,
    pub place: usize,
}

/// What a call answers.
pub type Answer = Result<(), Refusal>;

/// Runs one file, which is judged once.
#[derive(Clone)]
pub struct Simulator {
    workings: Workings,
    judged: Result<Design, Refusal>,
}

impl Simulator {
    pub fn new(workings: Workings, file: &[u8]) -> Simulator {
        let judged = match judge(file) {
            Verdict::Accepted { n, m } => Ok(Design::decode(&Rules::paper(), file, n, m)),
            Verdict::Refused { number, place } => Err(Refusal { number, place }),
        };
        Simulator { workings, judged }
    }

    /// The same file, run in another way.
    pub fn with(&self, workings: Workings) -> Simulator {
        let judged = self.judged.clone();
        Simulator { workings, judged }
    }

    /// The same file, where it is accepted with its design changed.
    pub fn redesigned(&self, change: fn(&mut Design)) -> Simulator {
        let mut simulator = self.clone();
        simulator.judged.iter_mut().for_each(change);
        simulator
    }

    /// The judge's answer.
    pub fn design(&self) -> Result<&Design, Refusal> {
        self.judged.as_ref().map_err(|&refusal| refusal)
    }

    /// Fills contents and flip-flops.
    pub fn power_up(&self, contents: &mut [u64], flops: &mut [u8]) -> Answer {
        let design = self.design()?;
        let lengths = contents.len() == 4 * design.n && flops.len() == design.n;
        require(lengths, 10)?;
        for (number, slice) in design.slices.iter().enumerate() {
            contents[4 * number..][..4].copy_from_slice(&slice.contents);
            flops[number] = slice.power_up;
        }
        Ok(())
    }

    /// Fills the values.
    pub fn settle(
        &self,
        contents: &[u64],
        flops: &[u8],
        inputs: &[u8],
        values: &mut [u8],
    ) -> Answer {
        let state = State::of(contents, flops, inputs);
        let design = self.design()?;
        require(lengths_are_right(design, state, values), 10)?;
        require(in_range(&self.workings.tests, design, state), 11)?;
        values.copy_from_slice(&settled(&self.workings, design, state));
        Ok(())
    }

    /// Fills the values as settled before the edge, and moves the state.
    pub fn clock(
        &self,
        contents: &mut [u64],
        flops: &mut [u8],
        inputs: &[u8],
        values: &mut [u8],
    ) -> Answer {
        self.settle(contents, flops, inputs, values)?;
        let design = self.design()?;
        let mut before = (contents.to_vec(), flops.to_vec(), values.to_vec());
        for slice in 0..design.n {
            if !self.workings.together {
                before = (contents.to_vec(), flops.to_vec(), before.2);
                self.settle(&before.0, &before.1, inputs, &mut before.2)?;
            }
            let edge = Edge {
                workings: &self.workings,
                design,
                state: State::of(&before.0, &before.1, inputs),
                values: &before.2,
            };
            contents[4 * slice..][..4].copy_from_slice(&edge.contents(slice));
            flops[slice] = edge.flops(slice);
        }
        Ok(())
    }

    /// Makes a list of edits in their order, and recomputes what depends on them.
    pub fn edit(
        &self,
        contents: &mut [u64],
        flops: &[u8],
        inputs: &mut [u8],
        values: &mut [u8],
        edits: &[Edit],
    ) -> Answer {
        let design = self.design()?;
        let mut lent = Editable {
            contents,
            flops,
            inputs,
            values,
        };
        (self.workings.edit)(&self.workings, design, &mut lent, edits)
    }
}

/// Refusals 10 and 11 have place 0.
pub fn require(passed: bool, number: u8) -> Answer {
    match passed {
        true => Ok(()),
        false => Err(Refusal { number, place: 0 }),
    }
}

pub(crate) fn lengths_are_right(design: &Design, state: State, values: &[u8]) -> bool {
    state.contents.len() == 4 * design.n
        && state.flops.len() == design.n
        && state.inputs.len() == design.m
        && values.len() == SIGNALS * design.n
}

/// Whether inputs and contents are such as a column can have.
pub(crate) fn in_range(tests: &Tests, design: &Design, state: State) -> bool {
    let mut words = (0..4 * design.n).map(|table| fits(design, table, state.contents[table]));
    (!tests.input_bytes || state.inputs.iter().all(|&byte| byte <= 1))
        && (!tests.words || words.all(|fits| fits))
}

/// Whether a table can hold a word: in shift mode bits 32 to 63 are zero.
pub(crate) fn fits(design: &Design, table: usize, word: u64) -> bool {
    design.slices[table / 4].mode[table % 4] != Mode::Shift || word >> 32 == 0
}
