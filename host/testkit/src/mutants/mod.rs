//! Wrong models: each makes one mistake that looks reasonable. The test files
//! have to tell every one of them from the right model.

mod loops;
mod reads;
mod records;
pub mod slice;

use model::design::{Design, Signal, Source, SIGNALS};
use model::layout::*;
use model::{check, judge, judge_by, judge_loops, Rules, Verdict};

/// What answers files.
type Judge = dyn Fn(&[u8]) -> Verdict;

/// A wrong model.
pub struct Mutant {
    pub name: String,
    judge: Box<Judge>,
}

impl Mutant {
    pub fn judge(&self, file: &[u8]) -> Verdict {
        (self.judge)(file)
    }
}

/// A wrong way to test slice records: by other rules, or of other bodies than
/// they have.
pub struct WrongRules {
    pub name: String,
    pub rules: Rules,
    change: Box<ChangeBody>,
}

/// Changes the body of a slice in a column of n slices and m inputs.
type ChangeBody = dyn Fn(&mut [u8], usize, usize);

impl WrongRules {
    /// A record as it is seen.
    pub fn change(&self, record: &mut [u8], n: usize, m: usize) {
        (self.change)(&mut record[HEADER..], n, m);
    }
}

/// All mutants.
pub fn all() -> Vec<Mutant> {
    let of_slices = slice::of_headers().into_iter().chain(slice::of_bodies());
    let of_slices = of_slices.map(judging).collect();
    let families = [records::all(), of_slices, reads::all(), loops::all()];
    families.into_iter().flatten().collect()
}

fn mutant(name: impl Into<String>, judge: impl Fn(&[u8]) -> Verdict + 'static) -> Mutant {
    Mutant {
        name: name.into(),
        judge: Box::new(judge),
    }
}

/// A model that tests slice records in a wrong way.
fn judging(wrong: WrongRules) -> Mutant {
    mutant(wrong.name.clone(), move |file| {
        let mut file = file.to_vec();
        let (n, m) = sizes(&file);
        for record in slice_records(&mut file) {
            wrong.change(record, n, m);
        }
        judge_by(&wrong.rules, &file)
    })
}

/// A model that sees another file than it is given.
fn with_file(name: impl Into<String>, change: impl Fn(&mut Vec<u8>) + 'static) -> Mutant {
    mutant(name, move |file| {
        let mut file = file.to_vec();
        change(&mut file);
        judge(&file)
    })
}

/// A model that sees other bodies of slices.
fn with_bodies(name: impl Into<String>, change: impl Fn(&mut [u8]) + 'static) -> Mutant {
    with_file(name, move |file| {
        for record in slice_records(file) {
            change(&mut record[HEADER..]);
        }
    })
}

/// The n and m of a file, 0 where they are cut.
fn sizes(file: &[u8]) -> (usize, usize) {
    let size = |at: usize| file.get(at).copied().map_or(0, usize::from);
    (size(HEADER), size(HEADER + 1))
}

/// The slice records of a file that are whole.
fn slice_records(file: &mut [u8]) -> impl Iterator<Item = &mut [u8]> {
    let n = file.get(HEADER).copied().map_or(0, usize::from);
    let slices = file.get_mut(SIZE_RECORD..).unwrap_or_default();
    slices.chunks_exact_mut(SLICE_RECORD).take(n)
}

/// A model whose signals read something else: `change` gets the signal's
/// slice, the signal and what it rightly reads.
fn with_reads(
    name: impl Into<String>,
    change: impl Fn(&Design, usize, Signal, &mut Vec<Source>) + 'static,
) -> Mutant {
    with_graph(name, move |design| {
        let reads = |signal: usize| {
            let mut sources = design.sources(signal);
            let kind = Signal::numbered(signal % SIGNALS);
            change(design, signal / SIGNALS, kind, &mut sources);
            sources.into_iter().filter_map(Source::signal).collect()
        };
        (0..SIGNALS * design.n).map(reads).collect()
    })
}

/// A model with another graph of reads.
fn with_graph(
    name: impl Into<String>,
    graph: impl Fn(&Design) -> Vec<Vec<usize>> + 'static,
) -> Mutant {
    after_check(name, move |design| {
        judge_loops(design.n, design.m, &graph(design))
    })
}

/// A model with another answer to loops.
fn with_loop_place(
    name: impl Into<String>,
    place: impl Fn(&[Vec<usize>]) -> Option<usize> + 'static,
) -> Mutant {
    after_check(name, move |design| match place(&design.graph()) {
        Some(place) => refused(9, place),
        None => accepted(design),
    })
}

fn after_check(name: impl Into<String>, verdict: impl Fn(&Design) -> Verdict + 'static) -> Mutant {
    let rules = Rules::paper();
    mutant(name, move |file| match check(&rules, file) {
        Err(refused) => refused,
        Ok((n, m)) => verdict(&Design::decode(&rules, file, n, m)),
    })
}

fn refused(number: u8, place: usize) -> Verdict {
    Verdict::Refused { number, place }
}

fn accepted(design: &Design) -> Verdict {
    Verdict::Accepted {
        n: design.n,
        m: design.m,
    }
}
