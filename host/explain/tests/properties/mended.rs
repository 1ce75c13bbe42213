//! Loops are listed in a file that has faults of 5, 6 and 7 as well: each is still there when
//! these are mended, in whatever way.

use explain::explain;
use model::check::{check, slice_refusal};
use model::design::Design;
use model::layout::*;
use model::records::slice_record;
use model::rules::{Choice, Combination};
use model::Rules;
use testkit::column::Column;
use testkit::prng::Prng;
use text::names::signal_named;

use crate::files::damaged;

/// A slice with its faults mended at random, in one of the ways that leave none.
fn mended(rng: &mut Prng, body: &[u8; SLICE_BODY], n: usize) -> Option<[u8; SLICE_BODY]> {
    let rules = Rules::paper();
    (0..300).find_map(|_| {
        let mut mended = *body;
        if rules.combinations.iter().any(|part| part.found_in(body)) {
            mend_combinations(rng, &mut mended);
        }
        for Choice { at, greatest } in &rules.choices {
            if body[*at] > *greatest {
                mended[*at] = rng.below(usize::from(*greatest) + 1) as u8;
            }
        }
        for pin in 0..PIN_COUNT {
            while (rules.driver)(pin_code(&mended, pin), n, 2).is_none() {
                let output = 4096 + rng.below(16 * n);
                let code = *rng.pick(&[0, 1, 2, 256, 257, output, output]) as u16;
                mended[pin_bytes(pin)].copy_from_slice(&code.to_le_bytes());
            }
        }
        let refused = slice_refusal(&rules, &slice_record(&mended), n, 2);
        refused.is_none().then_some(mended)
    })
}

/// Another kind, other modes but for letters that have no part in a fault, fewer cascades and
/// high bits, another carry start in slice 0.
fn mend_combinations(rng: &mut Prng, mended: &mut [u8; SLICE_BODY]) {
    let body = *mended;
    let parts = Rules::paper().combinations.into_iter();
    let mut of_modes = parts.filter(|&part| part != Combination::StartBelowSliceZero);
    let modes_at_fault = of_modes.any(|part| part.found_in(&body));
    mended[KIND] = rng.below(2) as u8;
    for letter in LETTERS {
        let cascade = |letter: usize| body[SHIFT_DATA + letter] == 1;
        let may_shift = cascade(letter) || letter > A && cascade(letter - 1);
        let modes: &[u8] = match body[MODE + letter] {
            0 if may_shift => &[0, 2],
            0 if letter == D => &[0, 1],
            0 => &[0],
            1 if !modes_at_fault => &[1],
            _ => &[0, 1, 2],
        };
        mended[MODE + letter] = *rng.pick(modes);
        mended[SHIFT_DATA + letter] &= rng.below(2) as u8;
        if rng.chance(50) {
            mended[CONTENTS + 8 * letter + 4..][..4].fill(0);
        }
    }
    if Combination::StartBelowSliceZero.found_in(&body) {
        mended[CARRY_START] = rng.below(3) as u8;
    }
}

/// The signals of a printed loop.
fn signals(path: &str) -> Vec<usize> {
    path.split(" <- ").filter_map(signal_named).collect()
}

#[test]
fn loops_stay() {
    let rules = Rules::paper();
    let mut rng = Prng::new(testkit::random::seed());
    let (mut listed, mut tried) = (0, 0);
    for _ in 0..3000 {
        let n = rng.from_to(1, 3);
        let column = damaged(&mut rng, n);
        let faults = explain(&column.bytes()).faults;
        let loops: Vec<_> = faults.iter().filter(|x| x.number == 9).collect();
        if loops.is_empty() || loops.len() == faults.len() {
            continue;
        }
        listed += 1;
        for _ in 0..10 {
            let slices = column.slices.iter().map(|body| mended(&mut rng, body, n));
            let Some(slices) = slices.collect() else {
                continue;
            };
            let file = Column { m: 2, slices }.bytes();
            assert_eq!(check(&rules, &file), Ok((n, 2)));
            let design = Design::decode(&rules, &file, n, 2);
            for path in loops.iter().map(|fault| signals(&fault.stands)) {
                let read = |pair: &[usize]| design.reads(pair[0]).contains(&pair[1]);
                assert!(path.windows(2).all(read), "{loops:?}: {file:?}");
            }
            tried += 1;
        }
    }
    assert!(listed > 300 && tried > 3000, "{listed}, {tried}");
}
