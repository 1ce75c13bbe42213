//! Refusals 1 to 8: the records one after the other.

use std::ops::Range;

use crate::layout::*;
use crate::rules::{Rules, Test};
use crate::Verdict;

/// The record that is due.
enum Due {
    Size,
    /// Any of these numbers, in a column of n slices and m inputs.
    Slice {
        numbers: Range<usize>,
        n: usize,
        m: usize,
    },
    End,
}

/// n and m of a file that passes refusals 1 to 8, or its first refusal.
pub fn check(rules: &Rules, file: &[u8]) -> Result<(usize, usize), Verdict> {
    check_record(rules, file, 0, &Due::Size)?;
    let n = usize::from(file[HEADER]);
    let m = usize::from(file[HEADER + 1]);
    for number in 0..n {
        let numbers = number..number + 1;
        let due = Due::Slice { numbers, n, m };
        check_record(rules, file, record_start(number), &due)?;
    }
    check_record(rules, file, record_start(n), &Due::End)?;
    let after_end = record_start(n) + END_RECORD;
    if file.len() > after_end {
        return Err(refused(8, after_end));
    }
    Ok((n, m))
}

/// The refusal's number of a slice record alone, any number below n being due.
pub fn slice_refusal(rules: &Rules, record: &[u8], n: usize, m: usize) -> Option<u8> {
    let numbers = 0..n;
    refusal(rules, record, &Due::Slice { numbers, n, m })
}

/// Tests the record that starts at `place`.
fn check_record(rules: &Rules, file: &[u8], place: usize, due: &Due) -> Result<(), Verdict> {
    let rest = file.get(place..).unwrap_or(&[]);
    match refusal(rules, rest, due) {
        Some(number) => Err(refused(number, place)),
        None => Ok(()),
    }
}

/// The refusal's number of the record at the start of `rest`; the first test it
/// fails decides.
fn refusal(rules: &Rules, rest: &[u8], due: &Due) -> Option<u8> {
    let mut tests = rules.order.iter();
    tests.find_map(|&test| failure(rules, test, rest, due))
}

fn refused(number: u8, place: usize) -> Verdict {
    Verdict::Refused { number, place }
}

/// The refusal's number if the record at the start of `rest` fails the test.
fn failure(rules: &Rules, test: Test, rest: &[u8], due: &Due) -> Option<u8> {
    let header = first_bytes::<HEADER>(rest, 0);
    let body = first_bytes::<SLICE_BODY>(rest, HEADER);
    let tag = header[0];
    let (passed, number) = match test {
        Test::HeaderWhole => (rest.len() >= HEADER, 1),
        Test::TagKnown => (body_length(tag).is_some(), 2),
        Test::TagDue => (tag == due_tag(due), 4),
        Test::Length => (
            body_length(tag) == Some(usize::from(two_bytes(&header[1..]))),
            3,
        ),
        Test::BodyWhole => (rest.len() >= HEADER + body_length(tag).unwrap_or(0), 1),
        Test::SliceNumber => (slice_number_due(&body, due), 4),
        Test::Choices => (choices_listed(rules, &body, due), 5),
        Test::Combinations => (combinations_allowed(rules, &body, due), 6),
        Test::Drivers => (drivers_exist(rules, &body, due), 7),
    };
    (!passed).then_some(number)
}

/// The bytes from `from` on, with zeros where the file has ended. The paper's
/// order of tests never looks at those zeros.
fn first_bytes<const COUNT: usize>(rest: &[u8], from: usize) -> [u8; COUNT] {
    std::array::from_fn(|i| rest.get(from + i).copied().unwrap_or(0))
}

/// The tag's length, for the tags there are.
fn body_length(tag: u8) -> Option<usize> {
    match tag {
        TAG_SIZE => Some(SIZE_BODY),
        TAG_SLICE => Some(SLICE_BODY),
        TAG_END => Some(END_BODY),
        _ => None,
    }
}

fn due_tag(due: &Due) -> u8 {
    match due {
        Due::Size => TAG_SIZE,
        Due::Slice { .. } => TAG_SLICE,
        Due::End => TAG_END,
    }
}

fn slice_number_due(body: &[u8], due: &Due) -> bool {
    match due {
        Due::Slice { numbers, .. } => numbers.contains(&usize::from(body[NUMBER])),
        Due::Size | Due::End => true,
    }
}

fn choices_listed(rules: &Rules, body: &[u8], due: &Due) -> bool {
    match due {
        Due::Size => sizes_listed(rules, usize::from(body[0]), usize::from(body[1])),
        Due::Slice { .. } => {
            let mut choices = rules.choices.iter();
            choices.all(|choice| body[choice.at] <= choice.greatest)
        }
        Due::End => true,
    }
}

/// Whether n and m are on their lists.
pub fn sizes_listed(rules: &Rules, n: usize, m: usize) -> bool {
    rules.n.contains(&n) && rules.m.contains(&m)
}

fn combinations_allowed(rules: &Rules, body: &[u8], due: &Due) -> bool {
    match due {
        Due::Slice { .. } => {
            let mut combinations = rules.combinations.iter();
            !combinations.any(|combination| combination.found_in(body))
        }
        Due::Size | Due::End => true,
    }
}

fn drivers_exist(rules: &Rules, body: &[u8], due: &Due) -> bool {
    match due {
        &Due::Slice { n, m, .. } => {
            (0..PIN_COUNT).all(|pin| (rules.driver)(pin_code(body, pin), n, m).is_some())
        }
        Due::Size | Due::End => true,
    }
}
