//! A file as text.

use model::layout::SLICE_BODY;

use crate::fields::{fields, kind, Field};
use crate::records::Records;

/// The text of a whole design. A slice of defaults is left out.
pub fn show(records: &Records) -> String {
    let fields = fields();
    let mut text = sizes(records).map(|line| line + "\n").concat();
    for (number, body) in records.slices.iter().enumerate() {
        let shown = slice(&fields, number, body);
        if shown != first_line(number, &[0; SLICE_BODY]) + "\n" {
            text += &format!("\n{shown}");
        }
    }
    text
}

/// The lines of n and m.
pub(crate) fn sizes(records: &Records) -> [String; 2] {
    [
        format!("slices {}", records.n),
        format!("inputs {}", records.m),
    ]
}

/// The text of one slice, which may be one of defaults.
pub fn show_slice(records: &Records, number: usize) -> Option<String> {
    let body = records.slices.get(number)?;
    Some(slice(&fields(), number, body))
}

fn slice(fields: &[Field], number: usize, body: &[u8]) -> String {
    let shown = fields.iter().filter(|field| !field.is_default(body));
    let lines = shown.map(|field| format!("  {}\n", field.line(body)));
    first_line(number, body) + "\n" + &lines.collect::<String>()
}

/// The first line of a slice, which has its kind.
pub(crate) fn first_line(number: usize, body: &[u8]) -> String {
    format!("slice {number} {}", kind().value(body))
}
