//! Showing a file and reading the text gives the same bytes, for every file whose records are whole and in order.

use std::collections::BTreeMap;

use model::Verdict;
use testkit::column::{z, Column};
use testkit::random::{files, seed, times};
use testkit::{cases, traps};
use text::{parse, show, show_slice, Records};

/// All files of the tests of the judge: worked, directed, random and damaged ones.
fn all_files() -> Vec<Vec<u8>> {
    let cases = [cases::worked(), cases::sizes(), traps::all()];
    let directed = cases.into_iter().flatten().map(|case| case.file);
    directed.chain(files(seed(), times())).collect()
}

/// The bytes of a file that is shown and read again.
fn again(records: &Records) -> Vec<u8> {
    let text = show(records);
    match parse(&text) {
        Ok(parsed) => parsed.records.bytes(),
        Err(mistake) => panic!("{}", mistake.report("shown", &text)),
    }
}

#[test]
fn same_bytes() {
    let mut counts = BTreeMap::new();
    for file in all_files() {
        let Some(records) = Records::of(&file) else {
            continue;
        };
        assert!(again(&records) == file, "{}", show(&records));
        let number = match model::judge(&file) {
            Verdict::Accepted { .. } => 0,
            Verdict::Refused { number, .. } => number,
        };
        *counts.entry(number).or_insert(0) += 1;
    }
    println!("by refusal, 0 being none: {counts:?}");
    let numbers: Vec<u8> = counts.keys().copied().collect();
    assert_eq!(numbers, [0, 5, 6, 7, 9]);
    assert!(counts.values().all(|&count| count >= 30));
}

/// A file that can't be shown is refused for a record that is not whole or not in order, or for bytes after it.
#[test]
fn other_files_are_out_of_order() {
    for file in all_files() {
        let verdict = model::judge(&file);
        let in_order = matches!(
            verdict,
            Verdict::Accepted { .. } | Verdict::Refused { number: 9, .. }
        );
        let out_of_order = matches!(
            verdict,
            Verdict::Refused {
                number: 1..=4 | 8,
                ..
            }
        );
        let is_shown = Records::of(&file).is_some();
        assert!(!in_order || is_shown, "{verdict}");
        assert!(!out_of_order || !is_shown, "{verdict}");
    }
}

/// Every byte of a body takes every value.
#[test]
fn every_byte() {
    let records = Records::of(&Column::zeros(3, 2).bytes()).expect("records in order");
    for at in 1..records.slices[0].len() {
        for byte in 0..=255 {
            let mut records = records.clone();
            records.slices[1][at] = byte;
            assert_eq!(again(&records), records.bytes(), "byte {at} is {byte}");
        }
    }
}

/// So do both bytes of a pin together.
#[test]
fn every_code() {
    let records = Records::of(&z().bytes()).expect("records in order");
    for code in 0..=u16::MAX {
        let mut records = records.clone();
        records.slices[0][62..64].copy_from_slice(&code.to_le_bytes());
        assert_eq!(again(&records), records.bytes(), "code {code}");
    }
}

/// Every n and m that a byte holds.
#[test]
fn every_size() {
    for n in 0..=255 {
        let records = Records::zeros(n, 255 - n);
        let file = records.bytes();
        assert_eq!(Records::of(&file), Some(records.clone()));
        assert_eq!(again(&records), file);
    }
}

/// The slices one by one are the whole.
#[test]
fn slices_make_the_whole() {
    for file in files(seed() + 1, 1).into_iter().step_by(7) {
        let Some(records) = Records::of(&file) else {
            continue;
        };
        let mut text = format!("slices {}\ninputs {}\n", records.n, records.m);
        for number in 0..records.slices.len() {
            text += &show_slice(&records, number).expect("a slice");
        }
        let parsed = parse(&text).expect("a text");
        assert!(parsed.records.bytes() == file, "{text}");
        assert_eq!(show_slice(&records, records.slices.len()), None);
    }
}
