//! Counts, lists and bytes in words, and text in lines.

use std::ops::Range;

/// The most characters on a line, but for a longer word.
const WIDTH: usize = 120;

/// Where a text begins on its line.
const INDENT: usize = 10;

/// A text after its label. Where it is too long for a line it goes on under its beginning.
pub fn labelled(label: &str, text: &str) -> String {
    let mut lines = format!("{:<INDENT$}", format!("  {label}"));
    let mut width = INDENT;
    for (i, word) in text.split(' ').enumerate() {
        if i > 0 && width + 1 + word.len() > WIDTH {
            lines += &format!("\n{:INDENT$}", "");
            width = INDENT;
        } else if i > 0 {
            lines += " ";
            width += 1;
        }
        lines += word;
        width += word.len();
    }
    lines
}

/// `1 byte`, `2 bytes`.
pub fn counted(count: usize, what: &str) -> String {
    match count {
        1 => format!("1 {what}"),
        _ => format!("{count} {what}s"),
    }
}

/// `byte 5`, `bytes 5 and 6`, `bytes 5 to 8`.
pub fn bytes(range: Range<usize>) -> String {
    let (first, last) = (range.start, range.end - 1);
    match range.len() {
        1 => format!("byte {first}"),
        2 => format!("bytes {first} and {last}"),
        _ => format!("bytes {first} to {last}"),
    }
}

/// `0`, `0 to 3`: the numbers below a count.
pub fn below(count: usize) -> String {
    match count {
        1 => "0".to_string(),
        _ => format!("0 to {}", count - 1),
    }
}

/// `A`, `A and B`, `A, B and D`.
pub fn list(words: &[String]) -> String {
    match words {
        [] => String::new(),
        [word] => word.clone(),
        [before @ .., last] => format!("{} and {last}", before.join(", ")),
    }
}

#[cfg(test)]
mod tests {
    use super::*;

    #[test]
    fn long_texts_go_on_below() {
        assert_eq!(labelled("at", "byte 5"), "  at      byte 5");
        assert_eq!(labelled("stands", "7"), "  stands  7");
        // 22 words of five characters fill a line: 10 + 22 * 5 - 1 = 119.
        let text = vec!["word"; 23].join(" ");
        let lines = format!("  may     {}\n          word", vec!["word"; 22].join(" "));
        assert_eq!(labelled("may", &text), lines);
    }
}
