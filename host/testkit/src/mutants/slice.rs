//! Mistakes about one slice record, which show in a file and in the record calls.

use super::WrongRules;
use model::design::{driver, Driver};
use model::layout::*;
use model::rules::{Choice, Combination, Test};
use model::Rules;

pub fn of_bodies() -> Vec<WrongRules> {
    let families = [
        body_orders(),
        sizes(),
        choices(),
        combinations(),
        stricter(),
        contents_bits(),
        constants_and_inputs(),
        outputs(),
        pins(),
    ];
    families.into_iter().flatten().collect()
}

fn by_rules(name: impl Into<String>, change: impl FnOnce(&mut Rules)) -> WrongRules {
    let mut rules = Rules::paper();
    change(&mut rules);
    WrongRules {
        name: name.into(),
        rules,
        change: Box::new(|_, _, _| {}),
    }
}

fn by_bodies(
    name: impl Into<String>,
    change: impl Fn(&mut [u8], usize, usize) + 'static,
) -> WrongRules {
    WrongRules {
        name: name.into(),
        rules: Rules::paper(),
        change: Box::new(change),
    }
}

fn moved(name: &str, test: Test, to: usize) -> WrongRules {
    by_rules(name, |rules| {
        rules.order.retain(|&other| other != test);
        rules.order.insert(to, test);
    })
}

/// The tests of a header in another order.
pub fn of_headers() -> Vec<WrongRules> {
    vec![
        moved("TagDue tested before TagKnown", Test::TagDue, 1),
        moved("Length tested before TagDue", Test::Length, 2),
        moved("TagDue tested with the slice number", Test::TagDue, 4),
        moved("Length tested before the tag", Test::Length, 1),
    ]
}

/// The tests of a body in another order.
fn body_orders() -> Vec<WrongRules> {
    vec![
        moved("Choices tested before SliceNumber", Test::Choices, 5),
        moved("Combinations tested before Choices", Test::Combinations, 6),
        moved("Drivers tested before Combinations", Test::Drivers, 7),
        moved("SliceNumber tested last", Test::SliceNumber, 8),
        moved("Drivers tested before the choices", Test::Drivers, 6),
    ]
}

/// Other limits of n and m.
fn sizes() -> Vec<WrongRules> {
    vec![
        by_rules("n = 0 allowed", |rules| rules.n = 0..=64),
        by_rules("n = 65 allowed", |rules| rules.n = 1..=65),
        by_rules("n = 64 refused", |rules| rules.n = 1..=63),
        by_rules("m = 0 refused", |rules| rules.m = 1..=64),
        by_rules("m = 65 allowed", |rules| rules.m = 0..=65),
        by_rules("m = 64 refused", |rules| rules.m = 0..=63),
    ]
}

/// Each choice's list one longer, the value more taken for 0, and one shorter.
fn choices() -> Vec<WrongRules> {
    let mut mutants = vec![];
    for (i, choice) in Rules::paper().choices.into_iter().enumerate() {
        let at = choice.at;
        let more = choice.greatest + 1;
        let longer = format!("choice at byte {at} may be {more}");
        let shorter = format!("choice at byte {at} may not be {}", choice.greatest);
        mutants.extend([
            by_bodies(longer, move |body, _, _| {
                if body[at] == more {
                    body[at] = 0;
                }
            }),
            by_rules(shorter, |rules| rules.choices[i].greatest -= 1),
        ]);
    }
    mutants
}

/// Parts of rule 6 dropped.
fn combinations() -> Vec<WrongRules> {
    let dropped = |part: Combination| {
        by_rules(format!("rule 6 without {part:?}"), |rules| {
            rules.combinations.retain(|&other| other != part);
        })
    };
    let mut parts = Rules::paper().combinations;
    parts.retain(|&part| part != Combination::StartBelowSliceZero);
    let mut mutants: Vec<WrongRules> = parts.into_iter().map(dropped).collect();
    // The decoder takes start 3 for the slice below, which slice 0 doesn't have.
    mutants.push(by_bodies("carry start 3 is 0 in slice 0", |body, _, _| {
        if Combination::StartBelowSliceZero.found_in(body) {
            body[CARRY_START] = 0;
        }
    }));
    mutants
}

/// Rules stricter than rule 6.
fn stricter() -> Vec<WrongRules> {
    let forbidding = |name: &str, forbidden: fn(&[u8]) -> bool| {
        by_bodies(name, move |body, _, _| {
            let listed = |choice: &Choice| body[choice.at] <= choice.greatest;
            if Rules::paper().choices.iter().all(listed) && forbidden(body) {
                // Something that rule 6 forbids as well.
                body[SHIFT_DATA + D] = 1;
            }
        })
    };
    vec![
        forbidding("SLICEM without memory or shift refused", |body| {
            body[KIND] == 1 && modes(body) == [0; 4]
        }),
        forbidding("memory beside logic refused", |body| {
            modes(body).contains(&1) && modes(body).contains(&0)
        }),
        forbidding("shift beside logic refused", |body| {
            modes(body).contains(&2) && modes(body).contains(&0)
        }),
        forbidding("shift without D refused", |body| {
            modes(body).contains(&2) && modes(body)[D] != 2
        }),
        forbidding("cascade at C refused", |body| body[SHIFT_DATA + C] == 1),
        forbidding("bits 32 to 63 refused in logic", |body| {
            any_in_mode(body, 0, |word| word >> 32 != 0)
        }),
        forbidding("bits 32 to 63 refused in memory", |body| {
            any_in_mode(body, 1, |word| word >> 32 != 0)
        }),
        forbidding("bit 31 refused in shift", |body| {
            any_in_mode(body, 2, |word| word >> 31 & 1 == 1)
        }),
        forbidding("carry start 3 refused everywhere", |body| {
            body[CARRY_START] == 3
        }),
    ]
}

fn modes(body: &[u8]) -> &[u8] {
    &body[MODE..MODE + 4]
}

/// Whether a letter in this mode has such contents.
fn any_in_mode(body: &[u8], mode: u8, test: fn(u64) -> bool) -> bool {
    let mut letters = LETTERS.into_iter();
    letters.any(|letter| modes(body)[letter] == mode && test(contents(body, letter)))
}

/// Each of bits 32 to 63 of each letter unjudged.
fn contents_bits() -> Vec<WrongRules> {
    let mut mutants = vec![];
    for letter in LETTERS {
        for bit in 32..64 {
            let at = CONTENTS + 8 * letter + bit / 8;
            let name = format!("bit {bit} of table {letter} unjudged");
            mutants.push(by_bodies(name, move |body, _, _| {
                body[at] &= !(1 << (bit % 8));
            }));
        }
    }
    mutants
}

/// What a code that doesn't exist is taken for.
const NONE: Option<Driver> = Some(Driver::Constant(false));

fn decoder(name: &str, driver: fn(u16, usize, usize) -> Option<Driver>) -> WrongRules {
    by_rules(name, |rules| rules.driver = driver)
}

/// Codes below 4096 taken or refused.
fn constants_and_inputs() -> Vec<WrongRules> {
    vec![
        decoder("code 3 is open", |code, n, m| match code {
            3 => Some(Driver::Open),
            _ => driver(code, n, m),
        }),
        decoder("code 2 refused", |code, n, m| match code {
            2 => None,
            _ => driver(code, n, m),
        }),
        decoder("code 1 refused", |code, n, m| match code {
            1 => None,
            _ => driver(code, n, m),
        }),
        decoder("open by the low byte alone", |code, n, m| {
            match code % 256 {
                2 => Some(Driver::Open),
                _ => driver(code, n, m),
            }
        }),
        decoder("codes 3 to 255 exist", |code, n, m| match code {
            3..=255 => NONE,
            _ => driver(code, n, m),
        }),
        decoder("input m exists", |code, n, m| driver(code, n, m + 1)),
        decoder("input m - 1 refused", |code, n, m| {
            if usize::from(code) == 255 + m && m > 0 {
                None
            } else {
                driver(code, n, m)
            }
        }),
        decoder("64 inputs exist", |code, n, _| driver(code, n, 64)),
        decoder("inputs up to code 4095 exist", |code, n, _| {
            driver(code, n, 3840)
        }),
    ]
}

/// Codes from 4096 on taken or refused.
fn outputs() -> Vec<WrongRules> {
    vec![
        decoder("slice n exists", |code, n, m| {
            driver(code, n, m).or(driver(code, n + 1, m).and(NONE))
        }),
        decoder("64 slices exist", |code, n, m| {
            driver(code, n, m).or(driver(code, 64, m).and(NONE))
        }),
        decoder("slice n - 1 refused", |code, n, m| {
            match driver(code, n, m) {
                Some(Driver::Output { slice, .. }) if slice == n - 1 => None,
                driver => driver,
            }
        }),
        decoder("output 12 exists", |code, n, m| match code {
            4096.. if code % 16 == 12 && driver(code - 1, n, m).is_some() => NONE,
            _ => driver(code, n, m),
        }),
        decoder("outputs 12 to 15 exist", |code, n, m| match code {
            4096.. if code % 16 >= 12 && driver(code - code % 16, n, m).is_some() => NONE,
            _ => driver(code, n, m),
        }),
        decoder("output 11 refused", |code, n, m| match code {
            4096.. if code % 16 == 11 => None,
            _ => driver(code, n, m),
        }),
        decoder("codes taken modulo 8192", |code, n, m| {
            driver(code % 8192, n, m)
        }),
        decoder("codes taken modulo 32768", |code, n, m| {
            driver(code % 32768, n, m)
        }),
    ]
}

/// Pins that rule 7 passes over.
fn pins() -> Vec<WrongRules> {
    let mut mutants: Vec<WrongRules> = (0..PIN_COUNT)
        .map(|pin| {
            by_bodies(
                format!("pin {} unjudged", PIN_NAMES[pin]),
                move |body, n, m| {
                    repair(body, pin, n, m);
                },
            )
        })
        .collect();
    mutants.push(by_bodies("pin 1 unjudged in shift mode", |body, n, m| {
        for letter in LETTERS {
            if body[MODE + letter] == 2 {
                repair(body, table_pin(letter, 1), n, m);
            }
        }
    }));
    mutants.push(by_bodies("SR unjudged where ignored", |body, n, m| {
        if body[SET_RESET_PIN] == 0 {
            repair(body, SR, n, m);
        }
    }));
    mutants.push(by_bodies("WE unjudged in a SLICEL", |body, n, m| {
        if body[KIND] == 0 {
            repair(body, WE, n, m);
        }
    }));
    mutants
}

/// A pin whose driver doesn't exist becomes constant.
fn repair(body: &mut [u8], pin: usize, n: usize, m: usize) {
    if driver(pin_code(body, pin), n, m).is_none() {
        body[PINS + 2 * pin..][..2].fill(0);
    }
}
