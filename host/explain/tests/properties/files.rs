//! The files that the tests explain.

use model::layout::*;
use model::rules::Choice;
use model::Rules;
use testkit::cases::{long_files, sizes, truncations, worked, Case};
use testkit::column::Column;
use testkit::prng::Prng;
use testkit::{random, traps};

/// Files written by hand, random ones, every byte of a small file replaced, and more slices than
/// there may be.
pub fn all() -> Vec<Vec<u8>> {
    let cases = [worked(), truncations(), sizes(), long_files(), traps::all()];
    let written = cases.into_iter().flatten().map(|case: Case| case.file);
    let random = random::files(random::seed(), random::times());
    let mut rng = Prng::new(random::seed());
    let many = [65, 128, 255].map(|n| damaged(&mut rng, n).bytes());
    let files = written.chain(random).chain(bytes_replaced());
    files.chain(many).collect()
}

/// Two slices, a SLICEL and a SLICEM whose letters shift, and three inputs.
fn small() -> Column {
    let column = Column::zeros(2, 3).pin(0, "A1", 258).pin(1, "BX", 4105);
    let column = column.set(1, KIND, 1).set_letters(1, MODE, 2);
    let column = column.set(1, SHIFT_DATA + A, 1);
    column.set(1, CARRY_START, 3).set(1, MUX + A, 2)
}

/// Each byte of the small file replaced by values at the edges of all fields.
fn bytes_replaced() -> Vec<Vec<u8>> {
    let file = small().bytes();
    let values = [0, 1, 2, 3, 4, 5, 6, 16, 17, 64, 65, 123, 124, 128, 255];
    let replaced = |place: usize| {
        values.map(|value| {
            let mut file = file.clone();
            file[place] = value;
            file
        })
    };
    (0..file.len()).flat_map(replaced).collect()
}

/// A column with a few wires, and some slices that have faults.
pub fn damaged(rng: &mut Prng, n: usize) -> Column {
    let mut column = Column::zeros(n, 2);
    for slice in 0..n {
        let body = &mut column.slices[slice];
        for Choice { at, greatest } in Rules::paper().choices {
            let of_list = usize::from(greatest) + 1;
            body[at] = match (at, rng.below(12)) {
                (_, 0) => greatest + 1,
                (KIND..CONTENTS, 1..=8) => 0,
                _ => rng.below(of_list) as u8,
            };
        }
        for _ in 0..rng.from_to(3, 14) {
            let code = match rng.below(9) {
                0 => *rng.pick(&[2, 3, 258, 4108, 4096 + 16 * n]),
                _ => 4096 + 16 * rng.below(n) + rng.below(12),
            };
            column.drive(slice, rng.below(28), code as u16);
        }
        column.fill(slice, rng.below(4), rng.number() >> rng.below(40));
    }
    column
}
