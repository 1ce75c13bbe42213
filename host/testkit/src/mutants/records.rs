//! Mistakes about the file and its records, one slice record apart.

use super::{mutant, refused, slice_records, with_file, Mutant};
use model::design::SIGNALS;
use model::layout::*;
use model::{check, judge, judge_by, Rules, Verdict};

pub fn all() -> Vec<Mutant> {
    let families = [orders(), places(), whole_file()];
    families.into_iter().flatten().collect()
}

/// Tests that only a cut record tells apart, exchanged; and slice numbers
/// ignored.
fn orders() -> Vec<Mutant> {
    let exchanged = |first: usize| {
        let mut rules = Rules::paper();
        let order = &mut rules.order;
        let name = format!("{:?} tested before {:?}", order[first + 1], order[first]);
        order.swap(first, first + 1);
        mutant(name, move |file| judge_by(&rules, file))
    };
    // The header's wholeness before the tag, the body's between length and number.
    let mut mutants: Vec<Mutant> = [0, 3, 4].into_iter().map(exchanged).collect();
    mutants.push(with_file("slice numbers ignored", |file| {
        for (number, record) in slice_records(file).enumerate() {
            record[HEADER + NUMBER] = number as u8;
        }
    }));
    mutants
}

/// Refusals at other places.
fn places() -> Vec<Mutant> {
    let moved = |name: &str, place: fn(u8, usize, usize) -> usize| {
        mutant(name, move |file| match judge(file) {
            Verdict::Refused { number, place: at } => {
                refused(number, place(number, at, file.len()))
            }
            accepted => accepted,
        })
    };
    vec![
        moved(
            "1 placed where the bytes run out",
            |number, at, length| match number {
                1 => length,
                _ => at,
            },
        ),
        moved("4 to 7 placed at the body", |number, at, _| match number {
            4..=7 => at + HEADER,
            _ => at,
        }),
        moved("8 placed at the end record", |number, at, _| match number {
            8 => at - END_RECORD,
            _ => at,
        }),
        moved(
            "8 placed at the last byte",
            |number, at, length| match number {
                8 => length - 1,
                _ => at,
            },
        ),
        moved(
            "9 placed at a signal of slice 0",
            |number, at, _| match number {
                9 => at % SIGNALS,
                _ => at,
            },
        ),
    ]
}

/// Mistakes about the file as a whole.
fn whole_file() -> Vec<Mutant> {
    let framing = || {
        let mut rules = Rules::paper();
        rules.order.truncate(5);
        rules
    };
    let rules_1_to_5 = || {
        let mut rules = Rules::paper();
        rules.order.truncate(7);
        rules
    };
    let in_two_passes = |name: &str, first: Rules| {
        mutant(name, move |file| match check(&first, file) {
            Err(refused) => refused,
            Ok(_) => judge(file),
        })
    };
    vec![
        in_two_passes("all records framed before any body is tested", framing()),
        in_two_passes("all choices tested before any rule 6", rules_1_to_5()),
        mutant("bytes after the end ignored", |file| match judge(file) {
            Verdict::Refused { number: 8, place } => judge(&file[..place]),
            verdict => verdict,
        }),
        mutant("9 before 8", |file| match judge(file) {
            Verdict::Refused { number: 8, place } => match judge(&file[..place]) {
                Verdict::Accepted { .. } => refused(8, place),
                looped => looped,
            },
            verdict => verdict,
        }),
        mutant("a file longer than 8,136 bytes cut there", |file| {
            judge(&file[..file.len().min(8136)])
        }),
        mutant("a missing end record forgiven", |file| match judge(file) {
            Verdict::Refused { number: 1, place } if place == file.len() && place > 0 => {
                judge(&[file, &[3, 0, 0]].concat())
            }
            verdict => verdict,
        }),
        mutant("always refuses", |_| refused(1, 0)),
        mutant("never finds a loop", |file| {
            match check(&Rules::paper(), file) {
                Err(refused) => refused,
                Ok((n, m)) => Verdict::Accepted { n, m },
            }
        }),
        mutant("n and m exchanged in the answer", |file| {
            match judge(file) {
                Verdict::Accepted { n, m } => Verdict::Accepted { n: m, m: n },
                refused => refused,
            }
        }),
    ]
}
