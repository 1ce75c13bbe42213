//! A slice record's body: its number (refusal 4) and its choices (5). The other tests of a slice
//! are in `combinations` and `drivers`.

use std::ops::Range;

use model::layout::*;
use model::rules::Choice;
use model::Rules;
use text::fields::{self, Field, Kind};

use crate::fault::Fault;
use crate::words::{bytes, counted};
use crate::{combinations, drivers};

/// A slice's body, taken as that of the slice which is due at its place.
pub struct Slice {
    pub number: usize,
    pub n: usize,
    pub m: usize,
    pub body: [u8; SLICE_BODY],
}

/// The faults of the slice that stands where one is due.
pub fn faults(rules: &Rules, file: &[u8], number: usize, n: usize, m: usize) -> Vec<Fault> {
    let mut body = [0; SLICE_BODY];
    body.copy_from_slice(&file[record_start(number) + HEADER..][..SLICE_BODY]);
    let stands = std::mem::replace(&mut body[NUMBER], number as u8);
    let slice = Slice { number, n, m, body };
    let number_of = |slice| usize::from(file[record_start(slice) + HEADER + NUMBER]);
    let before = number.checked_sub(1).map(number_of);
    let mut faults = vec![];
    faults.extend(slice.wrong_number(usize::from(stands), before));
    let choices = rules.choices.iter();
    faults.extend(choices.filter_map(|choice| slice.wrong_choice(choice)));
    faults.extend(combinations::faults(rules, &slice));
    faults.extend(drivers::faults(rules, &slice));
    faults
}

impl Slice {
    /// A fault at some bytes of the body.
    pub fn fault(
        &self,
        number: u8,
        what: &str,
        at: Range<usize>,
        stands: String,
        may: String,
    ) -> Fault {
        let (slice, place) = (self.number, record_start(self.number));
        let body = place + HEADER;
        let at = bytes(body + at.start..body + at.end);
        Fault {
            number,
            place,
            at: format!("slice {slice}, {what}: {at}, in the record at byte {place}"),
            stands,
            may,
        }
    }

    /// Another number than the one due; `before` is that of the record before, if there is one.
    fn wrong_number(&self, stands: usize, before: Option<usize>) -> Option<Fault> {
        (stands != self.number).then(|| {
            let stands = format!("{stands}{}", self.hint(stands, before));
            let may = self.number.to_string();
            self.fault(4, "its number", NUMBER..NUMBER + 1, stands, may)
        })
    }

    /// What may have happened where another number stands.
    fn hint(&self, stands: usize, before: Option<usize>) -> String {
        let due = self.number;
        if before.is_some_and(|before| before + 1 == stands) {
            return format!(", which follows the {} before it", stands - 1);
        }
        match stands {
            _ if stands >= self.n => format!(": n says {}", counted(self.n, "slice")),
            _ if stands == due + 1 => format!(": was slice {due} left out?"),
            _ if stands > due => format!(": were slices {due} to {} left out?", stands - 1),
            _ => format!(": does slice {stands} stand twice?"),
        }
    }

    fn wrong_choice(&self, &Choice { at, greatest }: &Choice) -> Option<Fault> {
        let stands = self.body[at];
        (stands > greatest).then(|| {
            let may = values(at).join(", ");
            self.fault(5, &choice_name(at), at..at + 1, stands.to_string(), may)
        })
    }

    /// What stands in a choice byte, with its name if it has one.
    pub fn choice(&self, at: usize) -> String {
        let stands = self.body[at];
        let value = values(at).into_iter().nth(usize::from(stands));
        value.unwrap_or(stands.to_string())
    }
}

/// A choice byte of the body in words.
pub fn choice_name(at: usize) -> String {
    let (words, first) = match at {
        KIND => ("kind", KIND),
        MODE..SHIFT_DATA => ("mode of letter _", MODE),
        SHIFT_DATA..CONTENTS => ("shift data of _", SHIFT_DATA),
        CARRY_DATA..CARRY_START => ("carry data of _", CARRY_DATA),
        CARRY_START => ("carry start", CARRY_START),
        MUX..MAIN => ("MUX output of _", MUX),
        MAIN..SECOND => ("what the main flip-flop of _ takes", MAIN),
        SECOND..POWER_UP => ("what the second flip-flop of _ takes", SECOND),
        SET_RESET_PIN => ("set/reset pin", SET_RESET_PIN),
        _ => panic!("byte {at} is no choice"),
    };
    words.replace('_', LETTER_NAMES[at - first])
}

/// The values of a choice byte, each with the name that the text form has for it: `1 memory`.
pub fn values(at: usize) -> Vec<String> {
    let mut fields = fields::fields().into_iter().chain([fields::kind()]);
    let is_at = |field: &Field| field.bytes.start == at;
    let Some(Kind::Choice(names)) = fields.find(is_at).map(|field| field.kind) else {
        panic!("byte {at} is no choice");
    };
    let value = |(value, name): (usize, &String)| match &name[..] {
        // A carry can start with a bit, whose name is a number as well.
        "0" | "1" => format!("{value} constant {name}"),
        _ => format!("{value} {name}"),
    };
    names.iter().enumerate().map(value).collect()
}

#[cfg(test)]
mod tests {
    use super::*;

    #[test]
    fn every_choice_has_its_list() {
        for Choice { at, greatest } in Rules::paper().choices {
            assert_eq!(values(at).len(), usize::from(greatest) + 1, "byte {at}");
        }
    }
}
