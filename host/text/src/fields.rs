//! The fields of a slice's body in the text form's words, in the order in which a slice is shown.
//!
//! Every default is a field of zero bytes.

use std::ops::Range;

use model::layout::*;

use crate::contents;
use crate::names;

/// A field: the words that stand before its value, and its bytes in the body.
#[derive(Clone, Debug, PartialEq)]
pub struct Field {
    pub words: String,
    pub bytes: Range<usize>,
    pub kind: Kind,
}

/// What a field holds.
#[derive(Clone, Debug, PartialEq)]
pub enum Kind {
    /// A byte, by the names of its values.
    Choice(Vec<String>),
    /// The word of a letter's table.
    Contents(usize),
    /// A pin's driver.
    Driver,
    /// A bit for each of eight flip-flops.
    Flops,
}

/// The slice's kind, which stands on its first line.
pub fn kind() -> Field {
    choice("", KIND, &["SLICEL", "SLICEM"])
}

/// All other fields but the number.
pub fn fields() -> Vec<Field> {
    let mut fields = vec![choice(
        "carry from",
        CARRY_START,
        &["0", "1", "AX", "below"],
    )];
    fields.extend(LETTERS.into_iter().flat_map(of_letter));
    fields.push(pin(CE));
    fields.push(pin(SR));
    fields.push(choice("SR", SET_RESET_PIN, &["ignored", "used"]));
    fields.push(flops("set", SET_RESET_VALUES));
    fields.push(flops("power-up", POWER_UP));
    fields.push(pin(WE));
    fields
}

fn of_letter(letter: usize) -> Vec<Field> {
    let name = LETTER_NAMES[letter];
    let (bypass, second) = (&*format!("{name}X"), &*format!("{name}5Q"));
    let wide = &*model::design::Signal::wide(letter).to_string();
    let of = |words: &str, at: usize, names: &[&str]| {
        choice(&words.replace('_', name), at + letter, names)
    };
    let mut fields = vec![
        of("_ mode", MODE, &["logic", "memory", "shift"]),
        Field {
            words: format!("{name} ="),
            bytes: contents_bytes(letter),
            kind: Kind::Contents(letter),
        },
    ];
    fields.extend((1..=TABLE_PINS).map(|i| pin(table_pin(letter, i))));
    fields.push(pin(bypass_pin(letter)));
    fields.extend([
        of("_ data", SHIFT_DATA, &[bypass, "cascade"]),
        of("_ carry", CARRY_DATA, &["O5", bypass]),
        of("_MUX =", MUX, &["O5", "sum", "carry", wide, second]),
        of("_Q =", MAIN, &["O6", "O5", "sum", "carry", wide, bypass]),
        of("_5Q =", SECOND, &["O5", bypass]),
    ]);
    fields
}

fn choice(words: &str, at: usize, names: &[&str]) -> Field {
    let names = names.iter().map(|name| name.to_string()).collect();
    Field {
        words: words.to_string(),
        bytes: at..at + 1,
        kind: Kind::Choice(names),
    }
}

fn pin(pin: usize) -> Field {
    Field {
        words: format!("{} =", PIN_NAMES[pin]),
        bytes: pin_bytes(pin),
        kind: Kind::Driver,
    }
}

fn flops(words: &str, at: usize) -> Field {
    Field {
        words: words.to_string(),
        bytes: at..at + 1,
        kind: Kind::Flops,
    }
}

/// What stands for no flip-flop at all.
pub const NONE: &str = "none";

impl Field {
    /// The field's line of a slice.
    pub fn line(&self, body: &[u8]) -> String {
        format!("{} {}", self.words, self.value(body))
    }

    /// The field's value in words. A choice that has no name is its number.
    pub fn value(&self, body: &[u8]) -> String {
        let bytes = &body[self.bytes.clone()];
        match &self.kind {
            Kind::Choice(names) => match names.get(usize::from(bytes[0])) {
                Some(name) => name.clone(),
                None => format!("choice {}", bytes[0]),
            },
            Kind::Contents(letter) => contents::text(body, *letter),
            Kind::Driver => names::driver(two_bytes(bytes)),
            Kind::Flops => flop_names(bytes[0]),
        }
    }

    pub fn is_default(&self, body: &[u8]) -> bool {
        body[self.bytes.clone()].iter().all(|&byte| byte == 0)
    }
}

fn flop_names(byte: u8) -> String {
    let ones = (0..8).filter(|bit| byte >> bit & 1 == 1);
    let names: Vec<String> = ones.map(names::flop).collect();
    match names.is_empty() {
        true => NONE.to_string(),
        false => names.join(" "),
    }
}

#[cfg(test)]
mod tests {
    use super::*;

    /// The number, the kind and the fields are all bytes of a body, each once.
    #[test]
    fn every_byte_has_its_field() {
        let mut bytes: Vec<usize> = fields().into_iter().flat_map(|field| field.bytes).collect();
        bytes.extend([NUMBER, KIND]);
        bytes.sort();
        assert_eq!(bytes, (0..SLICE_BODY).collect::<Vec<_>>());
    }
}
