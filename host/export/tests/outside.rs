//! Random designs: every signal of every clock in iverilog, over models of the vendor's primitives, against the library's and the model's.

mod compared;

use std::path::Path;
use std::sync::atomic::{AtomicUsize, Ordering};

use compared::{subjects, Subject, CLOCKS};
use export::{iverilog, Netlist};
use model::design::{CarryStart, Mode, ShiftData, SIGNALS};
use model::Design;
use testkit::random::{seed, times};
use testkit::run::differences_folder;

#[test]
fn iverilog_agrees() {
    let Some(cells) = iverilog::cells() else {
        return;
    };
    let seed = seed();
    let subjects = subjects(seed, times());
    assert_every_kind(&subjects);
    let differences = differences(&cells, &subjects, seed);
    let signals: usize = subjects.iter().map(|x| SIGNALS * x.design.n).sum();
    println!(
        "seed {seed}: {} designs, {signals} signals, {CLOCKS} clocks, {} values compared with iverilog's",
        subjects.len(),
        CLOCKS * signals
    );
    assert!(
        differences.is_empty(),
        "seed {seed}: {} designs differ\n{}",
        differences.len(),
        differences.join("\n")
    );
}

/// The designs that differ, saved. Two at a time are run.
fn differences(cells: &Path, subjects: &[Subject], seed: u64) -> Vec<String> {
    let next = AtomicUsize::new(0);
    let difference = |subject: &Subject| {
        let source = subject.source(&Netlist::of(&subject.design));
        let compared = subject.compare(cells, "design", &source);
        let difference = compared.unwrap_or_else(Some)?;
        let paths = subject.save(&differences_folder(), seed, &source);
        Some(format!("{paths}: {difference}"))
    };
    let take = || subjects.get(next.fetch_add(1, Ordering::Relaxed));
    let work = || -> Vec<String> {
        let subjects = std::iter::from_fn(take);
        subjects.filter_map(difference).collect()
    };
    std::thread::scope(|scope| {
        let threads = [scope.spawn(work), scope.spawn(work)];
        let found = threads.map(|thread| thread.join().expect("a thread"));
        found.concat()
    })
}

/// Small and large columns, all modes, cascades, carry chains over slices, and long chains of reads are among the designs.
fn assert_every_kind(subjects: &[Subject]) {
    let any = |is: &dyn Fn(&Design) -> bool| subjects.iter().any(|x| is(&x.design));
    assert!(any(&|x| x.n == 1) && any(&|x| x.n >= 63));
    assert!(any(&|x| x.m == 0) && any(&|x| x.m == 64));
    for mode in [Mode::Logic, Mode::Memory, Mode::Shift] {
        assert!(any(&|x| x.slices.iter().any(|y| y.mode.contains(&mode))));
    }
    let cascade = ShiftData::Cascade;
    assert!(any(&|x| x
        .slices
        .iter()
        .any(|y| y.shift_data.contains(&cascade))));
    let below =
        |x: &[model::design::Slice]| x.iter().all(|y| y.carry_start == CarryStart::SliceBelow);
    assert!(any(&|x| x.slices.windows(3).any(below)));
    assert!(any(&|x| longest_chain(x) >= 200));
}

/// The most signals on a chain of direct reads.
fn longest_chain(design: &Design) -> usize {
    let graph = design.graph();
    let mut known = vec![None; graph.len()];
    let chains = (0..graph.len()).map(|signal| chain(&graph, &mut known, signal));
    chains.max().expect("a signal")
}

fn chain(graph: &[Vec<usize>], known: &mut [Option<usize>], signal: usize) -> usize {
    if known[signal].is_none() {
        let reads = graph[signal].iter();
        let below = reads.map(|&read| chain(graph, known, read)).max();
        known[signal] = Some(1 + below.unwrap_or(0));
    }
    known[signal].expect("known by now")
}
