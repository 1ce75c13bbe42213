//! Combinational loops: refusal 9, one fault for all signals that are on loops with each other.

use std::collections::VecDeque;
use std::mem::replace;

use model::design::{Design, Read, SIGNALS};
use model::layout::PIN_NAMES;
use text::names;

use crate::fault::Fault;
use crate::words::counted;

/// The loops of a design, ascending by their smallest signals.
pub fn faults(design: &Design) -> Vec<Fault> {
    let groups = looped(&design.graph());
    groups.iter().map(|group| fault(design, group)).collect()
}

fn fault(design: &Design, group: &[usize]) -> Fault {
    let smallest = group[0];
    let others = match group.len() - 1 {
        0 => "no other signal is on a loop with it".to_string(),
        1 => "1 other signal is on loops with it".to_string(),
        others => format!("{} are on loops with it", counted(others, "other signal")),
    };
    Fault {
        number: 9,
        place: smallest,
        at: format!("{} (signal {smallest})", names::signal(smallest)),
        stands: shortest(design, smallest),
        may: format!(
            "no signal may depend on itself: a flip-flop on the way breaks the loop; {others}"
        ),
    }
}

/// A shortest loop through a signal that is on one: `s0.A.O6 <- A1 <- s0.A.O6`.
fn shortest(design: &Design, first: usize) -> String {
    let readers = readers(design, first);
    let mut path = vec![names::signal(first)];
    let mut signal = first;
    loop {
        let (reader, pin) = readers[signal].expect("a signal that was found");
        path.extend(pin.map(|pin| PIN_NAMES[pin].to_string()));
        path.push(names::signal(reader));
        if reader == first {
            path.reverse();
            return path.join(" <- ");
        }
        signal = reader;
    }
}

/// A signal that reads another, and the pin that it does so through, if through one.
type Reader = (usize, Option<usize>);

/// For each signal found before the way back to `first`, nearest first, the one that led there.
fn readers(design: &Design, first: usize) -> Vec<Option<Reader>> {
    let mut readers = vec![None; SIGNALS * design.n];
    let mut open = VecDeque::from([first]);
    while readers[first].is_none() {
        let reader = open.pop_front().expect("a signal on a loop");
        for Read { pin, source } in design.reads_by_pin(reader) {
            match source.signal() {
                Some(signal) if readers[signal].is_none() => {
                    readers[signal] = Some((reader, pin));
                    open.push_back(signal);
                }
                _ => {}
            }
        }
    }
    readers
}

/// The signals on loops, those that depend on each other together, each group ascending and the
/// groups by their smallest signals.
fn looped(graph: &[Vec<usize>]) -> Vec<Vec<usize>> {
    let mut readers = vec![vec![]; graph.len()];
    for (reader, reads) in graph.iter().enumerate() {
        reads.iter().for_each(|&read| readers[read].push(reader));
    }
    let mut seen = vec![false; graph.len()];
    // What is reached backwards from the signal left last depends on it; it depends on that too,
    // or it would have been left before.
    let mut group = |first: usize| {
        let mut group = reached(&readers, first, &mut seen);
        group.sort();
        let is_looped = group.len() > 1 || group == [first] && graph[first].contains(&first);
        is_looped.then_some(group)
    };
    let mut groups: Vec<Vec<usize>> = left(graph)
        .into_iter()
        .rev()
        .filter_map(&mut group)
        .collect();
    groups.sort();
    groups
}

/// The signals that are reached from one and weren't seen before, itself among them.
fn reached(graph: &[Vec<usize>], first: usize, seen: &mut [bool]) -> Vec<usize> {
    let mut reached = vec![];
    let mut open = vec![first];
    while let Some(signal) = open.pop() {
        if !replace(&mut seen[signal], true) {
            reached.push(signal);
            open.extend(&graph[signal]);
        }
    }
    reached
}

/// All signals, each after those that it reads and that were not entered before it.
fn left(graph: &[Vec<usize>]) -> Vec<usize> {
    let mut entered = vec![false; graph.len()];
    let mut left = vec![];
    for first in 0..graph.len() {
        // The signals on the way, each with how many of its reads were followed.
        let mut way = vec![];
        if !replace(&mut entered[first], true) {
            way.push((first, 0));
        }
        while let Some((signal, followed)) = way.last_mut() {
            match graph[*signal].get(*followed) {
                Some(&read) => {
                    *followed += 1;
                    if !replace(&mut entered[read], true) {
                        way.push((read, 0));
                    }
                }
                None => {
                    left.push(*signal);
                    way.pop();
                }
            }
        }
    }
    left
}

#[cfg(test)]
mod tests {
    use super::*;
    use model::graph::depends_on;
    use testkit::prng::Prng;

    /// Compares with dependence as the paper words it, on many small graphs.
    #[test]
    fn signals_that_depend_on_each_other_are_together() {
        let mut rng = Prng::new(1);
        for _ in 0..20_000 {
            let count = rng.from_to(1, 9);
            let mut graph = vec![vec![]; count];
            for _ in 0..rng.below(2 * count) {
                graph[rng.below(count)].push(rng.below(count));
            }
            let depends = |x: usize, y: usize| depends_on(&graph, x)[y];
            let with = |x: usize| (0..count).filter(move |&y| depends(x, y) && depends(y, x));
            let mut groups: Vec<Vec<usize>> = (0..count).map(|x| with(x).collect()).collect();
            groups.retain(|group| !group.is_empty());
            groups.sort();
            groups.dedup();
            assert_eq!(looped(&graph), groups);
        }
    }
}
