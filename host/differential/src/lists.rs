//! Lists of edits, random: of one edit or more, and some that have to be refused.

use ::calls::{Change, MOST_EDITS};
use model::design::{Design, Mode};
use testkit::prng::Prng;
use workbench::Workbench;

use crate::columns::far_number;

/// Makes a list for a column whose buffers are as lent.
pub type Maker = fn(&mut Prng, &Design, &Workbench) -> Vec<Change>;

/// The lists that a column is lent.
pub const MAKERS: [Maker; 3] = [of_input, of_table, of_any];

/// Values that an input doesn't take: the last are 0 and 1 to whoever drops their high bits.
const NO_BYTES: [u64; 10] = [
    2,
    3,
    128,
    254,
    255,
    u64::MAX,
    256,
    257,
    1 << 32,
    (1 << 63) + 1,
];

/// The model makes edits one by one: only columns of so few slices get the longest lists.
const SMALL: usize = 3;

/// Edits for a file that is refused, whatever is edited.
pub fn for_refused(rng: &mut Prng) -> Vec<Change> {
    let length = *rng.pick(&[0, 1, 2, MOST_EDITS + 1]);
    let edit = |_| Change {
        kind: rng.below(3) as u8,
        number: rng.below(300) as u64,
        value: rng.number(),
    };
    (0..length).map(edit).collect()
}

/// An edit of an outside input, most of them in range.
fn of_input(rng: &mut Prng, design: &Design, bench: &Workbench) -> Vec<Change> {
    let input = index(rng, design.m);
    let old = bench.inputs.get().get(input).copied().unwrap_or(0);
    let value = match rng.below(10) {
        0 => *rng.pick(&NO_BYTES),
        1..=3 => old.into(),
        _ => rng.below(2) as u64,
    };
    let edit = Change::input(input, 0);
    vec![Change { value, ..edit }]
}

/// An edit of a table, most of them in range.
fn of_table(rng: &mut Prng, design: &Design, bench: &Workbench) -> Vec<Change> {
    let table = index(rng, 4 * design.n);
    let old = bench.contents.get().get(table).copied().unwrap_or(0);
    let word = match rng.below(10) {
        0 => rng.number() | 1 << rng.from_to(32, 63),
        1 => old | 1 << rng.from_to(32, 63),
        2 => old,
        3 => old ^ 1 << rng.below(32),
        _ => random_word(rng, design, table),
    };
    vec![Change::table(table, word)]
}

/// Any number of edits of any kind, also none.
fn of_any(rng: &mut Prng, design: &Design, bench: &Workbench) -> Vec<Change> {
    let length = match rng.below(10) {
        0 => 0,
        1 => 1,
        2..=4 => 2,
        5 => rng.from_to(3, 11),
        8.. if design.n <= SMALL => rng.from_to(MOST_EDITS - 1, MOST_EDITS + 1),
        _ => 12,
    };
    of_length(rng, design, bench, length)
}

/// So many edits in range, many of them of what another sets, and in a third of the lists one that has to be refused, anywhere.
pub fn of_length(rng: &mut Prng, design: &Design, bench: &Workbench, length: usize) -> Vec<Change> {
    let mut list: Vec<Change> = vec![];
    while list.len() < length {
        let edit = match !list.is_empty() && rng.chance(40) {
            true => again(rng, design, &list),
            false => in_range(rng, design, bench),
        };
        list.push(edit);
    }
    if length > 0 && rng.chance(33) {
        let anywhere = rng.below(length);
        let at = *rng.pick(&[0, anywhere, length - 1]);
        let like = list[rng.from_to(at, length - 1)];
        list[at] = bad(rng, design, like);
    }
    list
}

/// An edit that is made on sound buffers; some set what is there already.
fn in_range(rng: &mut Prng, design: &Design, bench: &Workbench) -> Change {
    if design.m > 0 && rng.chance(50) {
        return Change::input(rng.below(design.m), rng.below(2) as u8);
    }
    let table = rng.below(4 * design.n);
    let word = match bench.contents.get().get(table) {
        Some(&old) if rng.chance(20) => old,
        _ => random_word(rng, design, table),
    };
    Change::table(table, word)
}

/// An edit of what one of the list sets.
fn again(rng: &mut Prng, design: &Design, list: &[Change]) -> Change {
    let edit = rng.pick(list);
    let number = edit.number as usize;
    match edit.kind {
        0 => Change::input(number, rng.below(2) as u8),
        _ => Change::table(number, random_word(rng, design, number)),
    }
}

/// An edit in range, of another kind, of nothing that the column has, or to what it can't hold.
fn bad(rng: &mut Prng, design: &Design, edit: Change) -> Change {
    let number = edit.number as usize;
    let shifts = edit.kind == 1 && shifts(design, number);
    let count = [design.m, 4 * design.n][usize::from(edit.kind)];
    let (kind, value) = match rng.below(3) {
        0 => (*rng.pick(&[2, 3, 128, 255]), edit.value),
        1 if edit.kind == 0 => (0, *rng.pick(&NO_BYTES)),
        1 if shifts => (1, edit.value | 1 << rng.from_to(32, 63)),
        _ => {
            let number = outside(rng, count, number) as u64;
            return Change { number, ..edit };
        }
    };
    Change {
        kind,
        value,
        ..edit
    }
}

/// A number below `count`, or one that has to be refused.
fn index(rng: &mut Prng, count: usize) -> usize {
    let inside = rng.below(count.max(1));
    match rng.chance(85) {
        true => inside,
        false => outside(rng, count, inside),
    }
}

/// A number that is not below `count`, near it or far.
fn outside(rng: &mut Prng, count: usize, inside: usize) -> usize {
    match rng.chance(30) {
        true => count + rng.below(2),
        false => far_number(rng, inside),
    }
}

/// A word that a table can hold; any word if there is no such table.
pub fn random_word(rng: &mut Prng, design: &Design, table: usize) -> u64 {
    match shifts(design, table) {
        true => rng.number() >> 32,
        false => rng.number(),
    }
}

/// Whether there is such a table and it is in shift mode.
fn shifts(design: &Design, table: usize) -> bool {
    let slice = design.slices.get(table / 4);
    slice.is_some_and(|slice| slice.mode[table % 4] == Mode::Shift)
}
