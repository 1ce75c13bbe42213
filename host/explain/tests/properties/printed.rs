//! How faults are printed.

use explain::{explain, Explained};
use testkit::run::repository;

use crate::files;

/// Lines of at most 120 characters, all to be seen.
#[test]
fn lines_can_be_printed() {
    let mut lines = 0;
    for file in files::all() {
        let Explained { faults, note } = explain(&file);
        let printed = faults.iter().map(|fault| fault.to_string());
        for line in printed.chain(note).flat_map(|x| lines_of(&x)) {
            assert!(line.chars().count() <= 120, "{line}");
            assert!(!line.chars().any(char::is_control), "{line:?}");
            assert!(!line.trim().is_empty() && !line.ends_with(' '), "{line:?}");
            lines += 1;
        }
        for fault in faults {
            let texts = [&fault.at, &fault.stands, &fault.may];
            assert!(texts
                .iter()
                .all(|text| !text.is_empty() && !text.contains('\n')));
            // Nothing is lost where a text goes on below.
            let words = format!(
                "{}: {} at {} stands {} may {}",
                fault.number,
                fault.heading(),
                fault.at,
                fault.stands,
                fault.may
            );
            let printed = fault.to_string();
            let printed: Vec<&str> = printed.split_whitespace().collect();
            assert_eq!(printed.join(" "), words);
        }
    }
    assert!(lines > 10_000);
}

fn lines_of(text: &str) -> Vec<String> {
    text.split('\n').map(str::to_string).collect()
}

/// A heading has the words of the README's table.
#[test]
fn headings_are_those_of_the_readme() {
    let readme = std::fs::read_to_string(repository().join("README.md")).expect("the README");
    let mut numbers = vec![];
    for fault in files::all().iter().flat_map(|file| explain(file).faults) {
        if !numbers.contains(&fault.number) {
            let row = format!("\n| {} | {} |", fault.number, fault.heading());
            assert!(readme.contains(&row), "{row}");
            numbers.push(fault.number);
        }
    }
    numbers.sort();
    assert_eq!(numbers, [1, 2, 3, 4, 5, 6, 7, 8, 9]);
}
