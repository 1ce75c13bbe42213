//! Every fault of a slice is listed, each once, at its byte.

use explain::{explain, Fault};
use model::Rules;
use testkit::prng::Prng;
use testkit::random::seed;

use crate::files;

/// A fault's number, its place, and the first of its bytes.
type Found = (u8, usize, usize);

/// The slices of a file in which all records begin where they should.
fn slices(file: &[u8]) -> Option<Vec<&[u8]>> {
    let n = usize::from(*file.get(3)?);
    let end = 5 + 127 * n;
    let slices: Vec<&[u8]> = file.get(5..end)?.chunks(127).collect();
    let begin = slices.iter().all(|slice| slice.starts_with(&[2, 124, 0]));
    let sound = begin && file.starts_with(&[1, 2, 0]) && file[end..].starts_with(&[3, 0, 0]);
    sound.then_some(slices)
}

/// What is wrong with a slice of this number, in the order of docs/FORMAT.md: the offsets in its
/// body with the refusal's number.
fn wrong(number: usize, body: &[u8], n: usize, m: usize) -> Vec<(u8, usize)> {
    let mut wrong = vec![];
    if usize::from(body[0]) != number {
        wrong.push((4, 0));
    }
    for choice in Rules::paper().choices {
        if body[choice.at] > choice.greatest {
            wrong.push((5, choice.at));
        }
    }
    wrong.extend(miscombined(number, body).into_iter().map(|at| (6, at)));
    for at in (62..124).step_by(2) {
        let code = usize::from(body[at]) + 256 * usize::from(body[at + 1]);
        let exists = code <= 2
            || (256..256 + m).contains(&code)
            || (4096..4096 + 16 * n).contains(&code) && code % 16 < 12;
        if !exists {
            wrong.push((7, at));
        }
    }
    wrong
}

/// The parts of rule 6 that a slice breaks, each by its byte.
fn miscombined(number: usize, body: &[u8]) -> Vec<usize> {
    let mode = |letter: usize| body[2 + letter];
    let cascade = |letter: usize| body[6 + letter] == 1;
    let has = |wanted: u8| (0..4).any(|letter| mode(letter) == wanted);
    let high = |letter: usize| (14..18).any(|at| body[8 * letter + at] != 0);
    let slicel = (0..4).filter(|&x| body[1] == 0 && mode(x) != 0);
    let memory = (0..3).filter(|&x| mode(x) == 1 && mode(3) != 1);
    let into = (0..4).filter(|&x| cascade(x) && mode(x) != 2);
    let from = (0..3).filter(|&x| cascade(x) && mode(x + 1) != 2);
    let bits = (0..4).filter(|&x| mode(x) == 2 && high(x));
    let mut wrong: Vec<usize> = slicel.map(|x| 2 + x).collect();
    wrong.extend((has(1) && has(2)).then_some(2));
    wrong.extend(memory.map(|x| 2 + x));
    wrong.extend(cascade(3).then_some(9));
    wrong.extend(into.chain(from).map(|x| 6 + x));
    wrong.extend(bits.map(|x| 10 + 8 * x));
    wrong.extend((number == 0 && body[46] == 3).then_some(46));
    wrong
}

/// The first number after `byte` or `bytes` in where a fault is.
fn first_byte(fault: &Fault) -> usize {
    let (_, after) = fault.at.split_once(": byte").expect("bytes");
    let digits = after.trim_start_matches('s').trim_start();
    let end = digits
        .find(|x: char| !x.is_ascii_digit())
        .unwrap_or(digits.len());
    digits[..end].parse().expect("a number")
}

/// Asserts that the faults of the slices are those that they have, and says how many.
fn compare(file: &[u8]) -> usize {
    let Some(slices) = slices(file) else { return 0 };
    let (n, m) = (slices.len(), usize::from(file[4]));
    let of_slice = |(number, slice): (usize, &&[u8])| {
        let place = 5 + 127 * number;
        let wrong = wrong(number, &slice[3..], n, m).into_iter();
        wrong
            .map(move |(refusal, at)| (refusal, place, place + 3 + at))
            .collect::<Vec<Found>>()
    };
    let due: Vec<Found> = slices.iter().enumerate().flat_map(of_slice).collect();
    let faults = explain(file).faults.into_iter();
    let of_slices = faults.filter(|x| (4..=7).contains(&x.number) && x.place > 0);
    let found: Vec<Found> = of_slices
        .map(|x| (x.number, x.place, first_byte(&x)))
        .collect();
    assert_eq!(found, due, "{file:?}");
    due.len()
}

#[test]
fn every_fault_of_every_slice() {
    let mut rng = Prng::new(seed());
    let damaged = (0..3000).map(|i| files::damaged(&mut rng, 1 + i % 3).bytes());
    let faults: usize = damaged.map(|file| compare(&file)).sum();
    assert!(faults > 10_000, "{faults}");
    let faults: usize = files::all().iter().map(|file| compare(file)).sum();
    assert!(faults > 2000, "{faults}");
}
