//! Columns that are slow to judge: with as many and as deep reads as a file can hold, or with no pattern in them.

use model::layout::*;
use testkit::column::Column;
use testkit::prng::Prng;

/// A column of a number of slices.
pub type Build = fn(usize) -> Column;

/// Every column by its name, of which the first word names the accepted column that it was made from.
pub const NAMED: [(&str, Build); 8] = [
    ("deep", deep),
    ("deep looped", deep_looped),
    ("deep each looped", deep_each_looped),
    ("deep refused", deep_refused),
    ("upward", upward),
    ("upward looped", upward_looped),
    ("irregular", irregular),
    ("irregular looped", irregular_looped),
];

/// Exclusive-or of all six pins.
const PARITY: u64 = 0x6996_9669_9669_6996;

/// Each table reads the six tables before it, each carry chain goes on in the next slice, each bypass pin reads the slice before.
pub fn deep(n: usize) -> Column {
    let mut column = Column::zeros(n, 64);
    for slice in 0..n {
        for letter in LETTERS {
            column.fill(slice, letter, PARITY);
            for pin in 1..=6 {
                let code = table_before(4 * slice + letter, pin);
                column.drive(slice, table_pin(letter, pin), code);
            }
            let code = match slice {
                0 => 256,
                _ => output(slice - 1, 4 + letter),
            };
            column.drive(slice, bypass_pin(letter), code);
        }
        column.drive(slice, CE, 1);
        column = column.set_letters(slice, MUX, 1);
        if slice > 0 {
            column = column.set(slice, CARRY_START, 3);
        }
    }
    column
}

/// The deep column with its last table driving its first: all of it is one loop.
fn deep_looped(n: usize) -> Column {
    let mut column = deep(n);
    column.drive(0, table_pin(A, 1), output(n - 1, D));
    column
}

/// The deep column with each slice's last table driving its first.
fn deep_each_looped(n: usize) -> Column {
    let mut column = deep(n);
    for slice in 0..n {
        column.drive(slice, table_pin(A, 1), output(slice, D));
    }
    column
}

/// The deep column with a driver that doesn't exist on its last pin: refused by the last test of its last record.
fn deep_refused(n: usize) -> Column {
    let mut column = deep(n);
    column.drive(n - 1, WE, 3);
    column
}

/// Each table reads the six after it, so that the search for loops has all tables open at once.
fn upward(n: usize) -> Column {
    let mut column = Column::zeros(n, 64);
    for slice in 0..n {
        for letter in LETTERS {
            for pin in 1..=6 {
                let code = table_after(n, 4 * slice + letter, pin);
                column.drive(slice, table_pin(letter, pin), code);
            }
            let code = table_after(n, 4 * slice + letter, 4);
            column.drive(slice, bypass_pin(letter), code);
        }
        column = column.set_letters(slice, CARRY_DATA, 1);
        column = column.set_letters(slice, MUX, 1);
        column = column.set(slice, CARRY_START, 2);
    }
    column
}

/// The upward column with its first table driving its last: the loop is found at the end of the longest path.
fn upward_looped(n: usize) -> Column {
    let mut column = upward(n);
    column.drive(n - 1, table_pin(D, 6), output(0, A));
    column
}

/// Random choices, and pins driven by anything that makes no loop: by signals of the next slice only.
fn irregular(n: usize) -> Column {
    random_column(n, 3, |slice, _| (slice + 1 < n).then_some(slice + 1))
}

/// Random choices, carry chains, and pins driven by anything, also by signals of the slice before and of their own: loops everywhere.
fn irregular_looped(n: usize) -> Column {
    random_column(n, 4, |slice, prng| {
        Some((slice + n - 1 + prng.below(3)) % n)
    })
}

/// A random column with carry starts below a limit. `near` gives a slice whose signals may drive a pin of a slice.
fn random_column(
    n: usize,
    starts: usize,
    near: impl Fn(usize, &mut Prng) -> Option<usize>,
) -> Column {
    let prng = &mut Prng::new(7);
    let mut column = Column::zeros(n, 64);
    for slice in 0..n {
        for pin in 0..PIN_COUNT {
            let other = near(slice, prng);
            column.drive(slice, pin, random_driver(prng, n, other));
        }
        for letter in LETTERS {
            column.fill(slice, letter, prng.number());
            column.slices[slice][MUX + letter] = prng.below(5) as u8;
            column.slices[slice][CARRY_DATA + letter] = prng.below(2) as u8;
        }
        let starts = if slice == 0 { 3 } else { starts };
        column.slices[slice][CARRY_START] = prng.below(starts) as u8;
    }
    column
}

/// A constant, an input, a flip-flop of any slice, or a signal of the slice near.
fn random_driver(prng: &mut Prng, n: usize, near: Option<usize>) -> u16 {
    match (prng.below(8), near) {
        (0 | 1, _) => prng.below(2) as u16,
        (2 | 3, _) => 256 + prng.below(64) as u16,
        (5.., Some(slice)) => output(slice, prng.below(8)),
        _ => output(prng.below(n), prng.from_to(8, 11)),
    }
}

fn output(slice: usize, output: usize) -> u16 {
    (4096 + 16 * slice + output) as u16
}

/// The table some places before a table, or an outside input where there is none.
fn table_before(table: usize, places: usize) -> u16 {
    match table.checked_sub(places) {
        Some(before) => output(before / 4, before % 4),
        None => 256 + (places - table) as u16 - 1,
    }
}

/// The table some places after a table, or an outside input where there is none.
fn table_after(n: usize, table: usize, places: usize) -> u16 {
    let after = table + places;
    match after < 4 * n {
        true => output(after / 4, after % 4),
        false => 256 + (after - 4 * n) as u16,
    }
}
