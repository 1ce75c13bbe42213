//! What differs between two designs, field by field.

use crate::fields::{fields, Field};
use crate::records::Records;
use crate::show::{first_line, show_slice, sizes};

/// The lines that differ, those of `a` after a minus, those of `b` after a plus, under the slice that they are of. Empty where the files are the same.
pub fn changes(a: &Records, b: &Records) -> String {
    let fields = fields();
    let sizes = sizes(a).into_iter().zip(sizes(b));
    let mut text: String = sizes.map(|(a, b)| changed(a, b)).collect();
    for number in 0..a.slices.len().max(b.slices.len()) {
        text += &match (a.slices.get(number), b.slices.get(number)) {
            (Some(a), Some(b)) => slice_changes(&fields, number, a, b),
            (Some(_), None) => marked('-', &show_slice(a, number).unwrap_or_default()),
            _ => marked('+', &show_slice(b, number).unwrap_or_default()),
        };
    }
    text
}

fn slice_changes(fields: &[Field], number: usize, a: &[u8], b: &[u8]) -> String {
    let lines = fields
        .iter()
        .filter(|field| a[field.bytes.clone()] != b[field.bytes.clone()])
        .map(|field| {
            changed(
                format!("  {}", field.line(a)),
                format!("  {}", field.line(b)),
            )
        });
    let lines: String = lines.collect();
    let (first_a, first_b) = (first_line(number, a), first_line(number, b));
    match (first_a == first_b, lines.is_empty()) {
        (true, true) => String::new(),
        (true, false) => format!("  {first_a}\n{lines}"),
        (false, _) => changed(first_a, first_b) + &lines,
    }
}

/// Two lines, where they differ.
fn changed(a: String, b: String) -> String {
    match a == b {
        true => String::new(),
        false => marked('-', &a) + &marked('+', &b),
    }
}

fn marked(mark: char, text: &str) -> String {
    text.lines()
        .map(|line| format!("{mark} {line}\n"))
        .collect()
}
