//! What of a run is watched.

use model::design::{Signal, SIGNALS};
use quagmuffin::{Accepted, Column};
use text::names::{self, Wire};
use text::{Name, Records};

use crate::failure::{Failure, Outcome};
use crate::source::Design;

/// A wire, or several as a number, the lowest first, the highest being its sign or not.
#[derive(Clone, Debug, PartialEq)]
pub struct Watched {
    pub title: String,
    pub wires: Vec<Wire>,
    signed: bool,
}

/// A wire's bit, as the last call left it.
pub fn bit(column: &Column, wire: Wire) -> u8 {
    match wire {
        Wire::Input(input) => column.inputs()[input],
        Wire::Signal(signal) => column.values()[signal],
    }
}

impl Watched {
    fn of(wire: Wire) -> Watched {
        Watched {
            title: names::wire(wire),
            wires: vec![wire],
            signed: false,
        }
    }

    /// The value in decimal digits.
    pub fn value(&self, column: &Column) -> String {
        let high_first = self.wires.iter().rev();
        let number = high_first.fold(0, |number, &wire| {
            number << 1 | u64::from(bit(column, wire))
        });
        self.digits(number)
    }

    fn digits(&self, number: u64) -> String {
        let unused = 64 - self.wires.len();
        match self.signed {
            true => ((number << unused) as i64 >> unused).to_string(),
            false => number.to_string(),
        }
    }

    /// The most characters that a value takes: those of the largest number or, with a sign, of the smallest.
    pub fn width(&self) -> usize {
        let widest = match self.signed {
            true => 1 << (self.wires.len() - 1),
            false => u64::MAX >> (64 - self.wires.len()),
        };
        self.digits(widest).len()
    }
}

fn wires(size: Accepted) -> impl Iterator<Item = Wire> {
    let inputs = (0..size.m).map(Wire::Input);
    inputs.chain((0..SIGNALS * size.n).map(Wire::Signal))
}

/// The text's names.
fn named(design: &Design) -> Vec<Watched> {
    let watched = |name: &Name| Watched {
        title: name.word.clone(),
        wires: name.wires.clone(),
        signed: name.signed,
    };
    design.names.iter().map(watched).collect()
}

/// Without a choice: the text's names or, where it has none, the inputs and the main flip-flops of slices that aren't left at their defaults.
pub fn usual(design: &Design, size: Accepted) -> Outcome<Vec<Watched>> {
    let named = named(design);
    if !named.is_empty() {
        return Ok(named);
    }
    let records = design.records()?;
    let defaults = Records::zeros(records.n, records.m);
    let is_used = |slice: usize| records.slices[slice] != defaults.slices[slice];
    let is_usual = |wire: &Wire| match *wire {
        Wire::Input(_) => true,
        Wire::Signal(signal) => {
            matches!(Signal::numbered(signal % SIGNALS), Signal::Main(_))
                && is_used(signal / SIGNALS)
        }
    };
    Ok(wires(size).filter(is_usual).map(Watched::of).collect())
}

/// Everything: the text's names, the inputs and all signals.
pub fn all(design: &Design, size: Accepted) -> Vec<Watched> {
    let mut all = named(design);
    all.extend(wires(size).map(Watched::of));
    all
}

/// What is chosen, in the order of the words, nothing twice.
pub fn chosen(words: &[String], design: &Design, size: Accepted) -> Outcome<Vec<Watched>> {
    let all = all(design, size);
    let mut chosen: Vec<Watched> = vec![];
    for word in words {
        let before = chosen.clone();
        let found = matching(word.trim(), &all, size);
        if found.is_empty() {
            return Err(Failure::of(format!("--watch: no signal, input or name `{}`; they are written as s0.AQ, s0.A.O6, in3, and * stands for any letters", word.escape_debug())));
        }
        chosen.extend(found.into_iter().filter(|one| !before.contains(one)));
    }
    Ok(chosen)
}

/// The things that a word chooses: by name, by a pattern, as `in 3`, or a signal by its number.
fn matching(word: &str, all: &[Watched], size: Accepted) -> Vec<Watched> {
    if let Some(number) = names::number(word) {
        let signal = (number < SIGNALS * size.n).then_some(Wire::Signal(number));
        return signal.map(Watched::of).into_iter().collect();
    }
    let word = match word.strip_prefix("in ") {
        Some(number) => format!("in{}", number.trim()),
        None => word.to_string(),
    };
    all.iter()
        .filter(|one| matches(&word, &one.title))
        .cloned()
        .collect()
}

/// Whether a name is as a pattern says, in which `*` stands for any letters. Between the first `*` and the last each part is looked for from where
/// the one before it ended: if it is found later it is found there as well.
fn matches(pattern: &str, name: &str) -> bool {
    let Some((start, rest)) = pattern.split_once('*') else {
        return pattern == name;
    };
    let (middle, end) = rest.rsplit_once('*').unwrap_or(("", rest));
    let inner = name
        .strip_prefix(start)
        .and_then(|name| name.strip_suffix(end));
    inner.is_some_and(|inner| {
        let mut parts = middle.split('*');
        let left = parts.try_fold(inner, |inner, part| Some(inner.split_once(part)?.1));
        left.is_some()
    })
}

#[cfg(test)]
mod tests {
    use super::*;

    #[test]
    fn patterns() {
        for (pattern, name, expected) in [
            ("s0.AQ", "s0.AQ", true),
            ("s0.AQ", "s0.A5Q", false),
            ("s0.*Q", "s0.A5Q", true),
            ("s0.*Q", "s0.AMUX", false),
            ("*", "in3", true),
            ("s*.*.O6", "s12.D.O6", true),
            ("s*.*.O6", "s12.DQ", false),
            ("*.AQ", "s3.AQ", true),
            ("s0.**", "s0.F8", true),
            ("*0*0*", "s0.D.O6", false),
            ("s*s", "s", false),
            ("*.*.*", "s0.A.O6", true),
            ("*.*.*.*", "s0.A.O6", false),
            ("*a*ab*", "aab", true),
            ("****************************x", "s0.A.carry", false),
        ] {
            assert_eq!(matches(pattern, name), expected, "{pattern} {name}");
        }
    }

    /// Of so many wires the widest value, without and with a sign.
    #[test]
    fn widths() {
        for (count, plain, with_sign) in [
            (1, "1", "-1"),
            (3, "7", "-4"),
            (8, "255", "-128"),
            (64, "18446744073709551615", "-9223372036854775808"),
        ] {
            for (signed, widest) in [(false, plain), (true, with_sign)] {
                let watched = Watched {
                    title: String::new(),
                    wires: vec![Wire::Input(0); count],
                    signed,
                };
                assert_eq!(watched.width(), widest.len(), "{count} {signed}");
            }
        }
    }
}
