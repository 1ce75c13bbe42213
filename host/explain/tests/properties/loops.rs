//! The loops that are printed: each step is a direct read, none is shorter, and none is missing.

use explain::{explain, Fault};
use model::design::{Design, Read, Source};
use model::graph::depends_on;
use model::layout::PIN_NAMES;
use model::{check, Rules};
use testkit::column::pin_named;
use text::names::signal_named;

use crate::files;

/// A step of a printed loop: a signal, the pin it reads through, and what it reads.
struct Step {
    reader: usize,
    pin: Option<&'static str>,
    source: usize,
}

/// A printed loop, read back.
fn steps(path: &str) -> Vec<Step> {
    let mut words = path.split(" <- ");
    let signal = |word: Option<&str>| word.and_then(signal_named).expect("a signal");
    let mut reader = signal(words.next());
    let mut steps = vec![];
    while let Some(word) = words.next() {
        let pin = PIN_NAMES.into_iter().find(|&pin| pin == word);
        let source = match pin {
            Some(_) => signal(words.next()),
            None => signal(Some(word)),
        };
        steps.push(Step {
            reader,
            pin,
            source,
        });
        reader = source;
    }
    steps
}

/// Whether a signal reads a pin at all, by docs/FORMAT.md.
fn may_read(signal: usize, pin: &str) -> bool {
    let letter = ["A", "B", "C", "D"][signal % 4];
    let pin_of_letter = pin.strip_prefix(letter).unwrap_or("");
    match signal % 32 {
        0..=3 => "123456".contains(pin_of_letter) && !pin_of_letter.is_empty(),
        4..=7 => "12345".contains(pin_of_letter) && !pin_of_letter.is_empty(),
        8..=11 => pin_of_letter == "X",
        12 | 16 => pin == "AX",
        17 => pin == "CX",
        18 => pin == "BX",
        _ => false,
    }
}

/// Files without another fault, their designs and their loops.
fn looped() -> Vec<(Vec<u8>, Design, Vec<Fault>)> {
    let rules = Rules::paper();
    let sound = |file: Vec<u8>| {
        let (n, m) = check(&rules, &file).ok()?;
        let design = Design::decode(&rules, &file, n, m);
        let faults = explain(&file).faults;
        assert!(faults.iter().all(|fault| fault.number == 9), "{file:?}");
        Some((file, design, faults))
    };
    files::all().into_iter().filter_map(sound).collect()
}

/// Whether a step is a direct read, through its pin if it has one, which the source drives.
fn is_read(design: &Design, step: &Step) -> bool {
    let &Step {
        reader,
        pin,
        source,
    } = step;
    let is_driven = pin.is_none_or(|pin| {
        let drives = design.pin(reader / 32, pin_named(pin)) == Source::Signal(source);
        drives && may_read(reader, pin)
    });
    let read = Read {
        pin: pin.map(pin_named),
        source: Source::Signal(source),
    };
    let reads = design.reads_by_pin(reader);
    is_driven && reads.contains(&read) && design.reads(reader).contains(&source)
}

#[test]
fn each_step_is_a_read_and_the_loop_closes() {
    let mut loops = 0;
    for (file, design, faults) in looped() {
        for fault in faults {
            let steps = steps(&fault.stands);
            assert_eq!(steps[0].reader, fault.place, "{fault}");
            assert_eq!(steps[steps.len() - 1].source, fault.place, "{fault}");
            let is_read = |step: &Step| is_read(&design, step);
            assert!(steps.iter().all(is_read), "{fault}: {file:?}");
            loops += 1;
        }
    }
    assert!(loops > 500, "{loops}");
}

/// The length of a shortest loop through a signal: the ways from all signals to it are made
/// shorter until none can be.
fn shortest(graph: &[Vec<usize>], signal: usize) -> usize {
    let far = graph.len() + 1;
    let mut ways = vec![far; graph.len()];
    let mut shorter = true;
    while shorter {
        shorter = false;
        for reader in 0..graph.len() {
            let step = |&read: &usize| 1 + if read == signal { 0 } else { ways[read] };
            let way = graph[reader].iter().map(step).min().unwrap_or(far);
            if way < ways[reader] {
                ways[reader] = way;
                shorter = true;
            }
        }
    }
    ways[signal]
}

#[test]
fn none_is_shorter() {
    let mut longest = 0;
    for (file, design, faults) in looped() {
        let graph = design.graph();
        for fault in faults {
            let length = steps(&fault.stands).len();
            assert_eq!(length, shortest(&graph, fault.place), "{fault}: {file:?}");
            longest = longest.max(length);
        }
    }
    assert!(longest > 10, "{longest}");
}

/// How many signals are on loops with the one that a fault is about, as it says.
fn others(fault: &Fault) -> usize {
    let (_, others) = fault.may.split_once("; ").expect("two parts");
    match others.split_once(' ').expect("words") {
        ("no", "other signal is on a loop with it") => 0,
        ("1", "other signal is on loops with it") => 1,
        (count, "other signals are on loops with it") => count.parse().expect("a number"),
        _ => panic!("{fault}"),
    }
}

/// The loops of a file, each group of signals that depend on each other by its smallest.
#[test]
fn none_is_missing() {
    let mut several = 0;
    for (file, design, faults) in looped().into_iter().filter(|x| x.1.n <= 4) {
        let graph = design.graph();
        let depends: Vec<Vec<bool>> = (0..graph.len()).map(|x| depends_on(&graph, x)).collect();
        let group = |signal: usize| {
            let with = |&x: &usize| depends[signal][x] && depends[x][signal];
            let group: Vec<usize> = (0..graph.len()).filter(with).collect();
            (group.first() == Some(&signal)).then(|| (signal, group.len() - 1))
        };
        let groups: Vec<_> = (0..graph.len()).filter_map(group).collect();
        let printed: Vec<_> = faults.iter().map(|x| (x.place, others(x))).collect();
        assert_eq!(printed, groups, "{file:?}");
        several += usize::from(groups.len() > 1);
    }
    assert!(several > 50, "{several}");
}
