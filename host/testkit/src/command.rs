//! What is asked of every command.

use std::process::Output;

/// A command ended with a status and wrote this, and nothing to standard error.
pub fn assert_writes(output: &Output, status: i32, text: &str) {
    assert_eq!(String::from_utf8_lossy(&output.stderr), "");
    assert_eq!(String::from_utf8_lossy(&output.stdout), text);
    assert_eq!(output.status.code(), Some(status));
}

/// A command couldn't do what it was asked: it says why in one line on standard
/// error, which starts so and has nothing but plain text, and ends with status 2.
pub fn assert_fails(output: &Output, start: &str) {
    let said = String::from_utf8_lossy(&output.stderr);
    assert!(said.starts_with(start), "not {start:?}: {said:?}");
    let line = said.strip_suffix('\n').expect("a line");
    assert!(!line.contains(char::is_control), "{line:?}");
    assert_eq!(String::from_utf8_lossy(&output.stdout), "", "{line}");
    assert_eq!(output.status.code(), Some(2), "{line}");
}

/// A command ended with a status, wrote these lines to standard error and nothing else.
pub fn assert_says(output: &Output, status: i32, lines: &str) {
    assert_eq!(String::from_utf8_lossy(&output.stderr), lines);
    assert_eq!(String::from_utf8_lossy(&output.stdout), "");
    assert_eq!(output.status.code(), Some(status));
}
