//! An independent second judge and simulator of slice files, written from the
//! paper alone and plain rather than fast. The proved
//! program and library are compared with it.

pub mod adders;
pub mod check;
pub mod design;
pub mod edge;
pub mod edits;
pub mod graph;
pub mod input;
pub mod layout;
pub mod reader;
pub mod records;
pub mod rules;
pub mod simulate;
pub mod values;
pub mod workings;

use std::fmt;

pub use check::check;
pub use design::Design;
pub use rules::Rules;
pub use simulate::Simulator;
pub use workings::Workings;

/// The answer to a file.
#[derive(Clone, Copy, Debug, PartialEq, Eq)]
pub enum Verdict {
    Accepted { n: usize, m: usize },
    Refused { number: u8, place: usize },
}

/// The line that the program writes, without its newline.
impl fmt::Display for Verdict {
    fn fmt(&self, out: &mut fmt::Formatter) -> fmt::Result {
        match self {
            Verdict::Accepted { n, m } => write!(out, "accepted {n} {m}"),
            Verdict::Refused { number, place } => write!(out, "refused {number} {place}"),
        }
    }
}

/// Judges a file by the paper.
pub fn judge(file: &[u8]) -> Verdict {
    judge_by(&Rules::paper(), file)
}

/// Judges a file by other rules than the paper's, for tests that have to fail.
pub fn judge_by(rules: &Rules, file: &[u8]) -> Verdict {
    match check(rules, file) {
        Err(refused) => refused,
        Ok((n, m)) => judge_loops(n, m, &Design::decode(rules, file, n, m).graph()),
    }
}

/// The verdict on a file that passed refusals 1 to 8, by its graph of reads.
pub fn judge_loops(n: usize, m: usize, graph: &[Vec<usize>]) -> Verdict {
    match graph::smallest_on_loop(graph) {
        Some(signal) => Verdict::Refused {
            number: 9,
            place: signal,
        },
        None => Verdict::Accepted { n, m },
    }
}
