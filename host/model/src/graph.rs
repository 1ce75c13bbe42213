//! Dependence over a graph that has, for each signal, the signals it reads directly.

/// For each signal whether `signal` depends on it: whether a chain of one or
/// more direct reads leads there.
pub fn depends_on(graph: &[Vec<usize>], signal: usize) -> Vec<bool> {
    let mut reached = vec![false; graph.len()];
    let mut open = graph[signal].clone();
    while let Some(next) = open.pop() {
        if !reached[next] {
            reached[next] = true;
            open.extend(&graph[next]);
        }
    }
    reached
}

/// For each signal whether it is one of `first` or depends on one.
pub fn dependents(graph: &[Vec<usize>], first: &[bool]) -> Vec<bool> {
    let mut found = first.to_vec();
    let mut grows = true;
    while grows {
        grows = false;
        for signal in 0..graph.len() {
            if !found[signal] && graph[signal].iter().any(|&read| found[read]) {
                found[signal] = true;
                grows = true;
            }
        }
    }
    found
}

/// The smallest signal that depends on itself. Its loop goes through no smaller
/// signal, since each signal of it is on a loop.
pub fn smallest_on_loop(graph: &[Vec<usize>]) -> Option<usize> {
    (0..graph.len()).find(|&signal| loops_above(graph, signal))
}

/// Whether a chain of reads leads from a signal back to it through no smaller one.
fn loops_above(graph: &[Vec<usize>], signal: usize) -> bool {
    let mut reached = vec![false; graph.len()];
    let mut open = graph[signal].clone();
    while let Some(next) = open.pop() {
        if next == signal {
            return true;
        }
        if next > signal && !reached[next] {
            reached[next] = true;
            open.extend(&graph[next]);
        }
    }
    false
}

#[cfg(test)]
mod tests {
    use super::*;

    /// Compares with dependence as the paper words it, on many small graphs.
    #[test]
    fn loops_and_dependents() {
        let mut random = 1u64;
        let mut below = |count: usize| {
            random = random.wrapping_mul(6364136223846793005).wrapping_add(1);
            (random >> 33) as usize % count
        };
        for _ in 0..10_000 {
            let count = 1 + below(8);
            let mut graph = vec![vec![]; count];
            for _ in 0..below(2 * count) {
                graph[below(count)].push(below(count));
            }
            let on_loop = |&signal: &usize| depends_on(&graph, signal)[signal];
            assert_eq!(smallest_on_loop(&graph), (0..count).find(on_loop));
            let first = below(count);
            let is_first: Vec<bool> = (0..count).map(|signal| signal == first).collect();
            let reached = |signal| signal == first || depends_on(&graph, signal)[first];
            let reached: Vec<bool> = (0..count).map(reached).collect();
            assert_eq!(dependents(&graph, &is_first), reached);
        }
    }
}
