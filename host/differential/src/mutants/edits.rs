//! Mistakes about what an edit recomputes.

use model::design::{Design, Signal, SIGNALS};
use model::values::{edited, graph, recomputed, settled, State};
use model::workings::of_table;
use model::Workings;

use super::Mutant;

pub fn all() -> Vec<Mutant> {
    vec![
        ("edit recomputes nothing", |w| {
            w.edited = |_, _, _, values, _| values.to_vec()
        }),
        ("edit settles anew", |w| {
            w.edited = |w, design, state, _, _| settled(w, design, state)
        }),
        ("edit stops at the first signals", |w| w.edited = recomputed),
        ("edit stops at the second signals", |w| w.edited = two_steps),
        ("edit stops where a byte came out equal", |w| {
            w.edited = stops_at_equal
        }),
        ("edit sees flip-flops behind stale bytes", |w| {
            w.edited = fresh_flops
        }),
        ("O6 not of its table", |w| {
            w.of_table = |letter| of_table_without(letter, Signal::O6(letter))
        }),
        ("O5 not of its table", |w| {
            w.of_table = |letter| of_table_without(letter, Signal::O5(letter))
        }),
        ("MC31 not of table A", |w| {
            w.of_table = |letter| of_table_without(letter, Signal::Mc31)
        }),
        ("MC31 of every table", |w| {
            w.of_table = |letter| vec![Signal::O6(letter), Signal::O5(letter), Signal::Mc31]
        }),
    ]
}

/// The signals of `found` and those that read one of them directly.
fn one_more_step(graph: &[Vec<usize>], found: &[bool]) -> Vec<bool> {
    let reached = |x: usize| found[x] || graph[x].iter().any(|&y| found[y]);
    (0..graph.len()).map(reached).collect()
}

fn two_steps(w: &Workings, design: &Design, state: State, old: &[u8], first: &[bool]) -> Vec<u8> {
    let reached = one_more_step(&graph(w, design), first);
    recomputed(w, design, state, old, &reached)
}

/// Goes on only from signals whose bytes have changed.
fn stops_at_equal(
    w: &Workings,
    design: &Design,
    state: State,
    old: &[u8],
    first: &[bool],
) -> Vec<u8> {
    let graph = graph(w, design);
    let mut reached = first.to_vec();
    loop {
        let new = recomputed(w, design, state, old, &reached);
        let changed: Vec<bool> = (0..old.len()).map(|x| new[x] != old[x]).collect();
        let step = one_more_step(&graph, &changed);
        let more: Vec<bool> = (0..old.len()).map(|x| reached[x] || step[x]).collect();
        if more == reached {
            return new;
        }
        reached = more;
    }
}

/// Takes flip-flops from their buffer where a stale byte is read.
fn fresh_flops(w: &Workings, design: &Design, state: State, old: &[u8], first: &[bool]) -> Vec<u8> {
    let kind = |x: usize| Signal::numbered(x % SIGNALS);
    let stored = |x: usize| matches!(kind(x), Signal::Main(_) | Signal::Second(_));
    let settled = settled(w, design, state);
    let fresh: Vec<u8> = (0..old.len())
        .map(|x| if stored(x) { settled[x] } else { old[x] })
        .collect();
    let mut new = edited(w, design, state, &fresh, first);
    for x in (0..old.len()).filter(|&x| stored(x)) {
        new[x] = old[x];
    }
    new
}

/// What belongs to a table, but for one signal.
fn of_table_without(letter: usize, signal: Signal) -> Vec<Signal> {
    let signals = of_table(letter).into_iter();
    signals.filter(|&belongs| belongs != signal).collect()
}
