//! The library and the model side by side: random calls on files, records and
//! readers, and a difference as a case that can be saved and replayed.

pub mod adders;
pub mod calls;
pub mod columns;
pub mod comparison;
pub mod feeds;
pub mod lists;
pub mod mutants;
pub mod records;
pub mod saved;

use std::ops::AddAssign;

use crate::calls::Answer;

/// What was compared.
#[derive(Clone, Copy, Debug, Default)]
pub struct Counts {
    pub files: usize,
    pub records: usize,
    pub sessions: usize,
    /// The calls by their answer: those not refused, then refusals 1 to 11.
    pub answers: [usize; 12],
}

impl Counts {
    pub fn calls(&self) -> usize {
        self.answers.iter().sum()
    }

    pub fn count(&mut self, answer: Answer) {
        let number = match answer {
            Answer::Accepted { .. } | Answer::Done | Answer::More => 0,
            Answer::Refused { number, .. } => number,
        };
        self.answers[usize::from(number)] += 1;
    }
}

impl AddAssign for Counts {
    fn add_assign(&mut self, other: Counts) {
        self.files += other.files;
        self.records += other.records;
        self.sessions += other.sessions;
        for (sum, count) in self.answers.iter_mut().zip(other.answers) {
            *sum += count;
        }
    }
}
