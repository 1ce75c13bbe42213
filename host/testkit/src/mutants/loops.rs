//! Mistakes about which signal is on a loop.

use super::{with_loop_place, Mutant};
use model::design::SIGNALS;
use model::graph::depends_on;

pub fn all() -> Vec<Mutant> {
    vec![
        with_loop_place("the smallest signal that leads into a loop", |graph| {
            let looped = on_loops(graph);
            let leads_in = |&signal: &usize| {
                let reached = depends_on(graph, signal);
                looped.iter().any(|&on_loop| reached[on_loop])
            };
            (0..graph.len()).find(leads_in)
        }),
        with_loop_place("the smallest signal that a loop leads to", |graph| {
            let looped = on_loops(graph);
            let mut reached = looped.iter().map(|&on_loop| depends_on(graph, on_loop));
            let mut any = reached.next()?;
            for more in reached {
                for signal in 0..any.len() {
                    any[signal] |= more[signal];
                }
            }
            any.iter().position(|&reached| reached)
        }),
        with_loop_place("the first signal met twice", first_met_twice),
        with_loop_place("the largest signal on a loop", |graph| {
            on_loops(graph).pop()
        }),
        with_loop_place("the smallest on the loop found first", |graph| {
            let met = first_met_twice(graph)?;
            let forward = depends_on(graph, met);
            (0..graph.len()).find(|&signal| forward[signal] && depends_on(graph, signal)[met])
        }),
        with_loop_place("the smallest on the loop with the largest", |graph| {
            let last = on_loops(graph).pop()?;
            let forward = depends_on(graph, last);
            (0..graph.len()).find(|&signal| forward[signal] && depends_on(graph, signal)[last])
        }),
        with_loop_place("no loop of one read", |graph| {
            let others = |(signal, reads): (usize, &Vec<usize>)| {
                let others = reads.iter().filter(|&&read| read != signal);
                others.copied().collect()
            };
            let graph: Vec<Vec<usize>> = graph.iter().enumerate().map(others).collect();
            on_loops(&graph).first().copied()
        }),
        with_loop_place("no loop across slices", |graph| {
            let inside = |(signal, reads): (usize, &Vec<usize>)| {
                let inside = reads
                    .iter()
                    .filter(|&&read| read / SIGNALS == signal / SIGNALS);
                inside.copied().collect()
            };
            let graph: Vec<Vec<usize>> = graph.iter().enumerate().map(inside).collect();
            on_loops(&graph).first().copied()
        }),
        with_loop_place("loops looked for from signal 0 only", |graph| {
            let reached = depends_on(graph, 0);
            let looped = on_loops(graph);
            looped
                .into_iter()
                .find(|&signal| signal == 0 || reached[signal])
        }),
        with_loop_place("the search ends after 1,024 signals", |graph| {
            on_loops(graph).into_iter().find(|&signal| signal < 1024)
        }),
    ]
}

/// All signals on loops, ascending.
fn on_loops(graph: &[Vec<usize>]) -> Vec<usize> {
    let on_loop = |&signal: &usize| depends_on(graph, signal)[signal];
    (0..graph.len()).filter(on_loop).collect()
}

/// The first signal that a depth-first search from 0 on meets while it is open.
fn first_met_twice(graph: &[Vec<usize>]) -> Option<usize> {
    let mut seen = vec![false; graph.len()];
    let mut open = vec![false; graph.len()];
    for start in 0..graph.len() {
        let mut path = vec![(start, 0)];
        while let Some((signal, next)) = path.pop() {
            if next == 0 && seen[signal] {
                if open[signal] {
                    return Some(signal);
                }
                continue;
            }
            seen[signal] = true;
            open[signal] = true;
            match graph[signal].get(next) {
                Some(&read) => path.extend([(signal, next + 1), (read, 0)]),
                None => open[signal] = false,
            }
        }
    }
    None
}
