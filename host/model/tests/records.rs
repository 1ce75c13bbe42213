//! The record calls of the model alone, with what they have to give, written by hand.

use model::layout::*;
use model::records::{read_record, write_record};
use model::simulate::{Answer, Refusal};
use model::Rules;

/// Slice 2 of 3: its number, and its first pin driven by input 4 of 5.
fn record() -> [u8; SLICE_RECORD] {
    let mut record = [0; SLICE_RECORD];
    record[..4].copy_from_slice(&[2, 124, 0, 2]);
    record[HEADER + PINS..][..2].copy_from_slice(&[4, 1]);
    record
}

fn refused(number: u8) -> Answer {
    Err(Refusal { number, place: 0 })
}

#[test]
fn reads_and_writes() {
    let (rules, record) = (Rules::paper(), record());
    let mut body = [7; SLICE_BODY];
    assert_eq!(read_record(&rules, &record, 3, 5, &mut body), Ok(()));
    assert_eq!(body, record[3..]);
    let mut part = [7; 130];
    assert_eq!(write_record(&rules, &body, 3, 5, &mut part), Ok(()));
    assert_eq!(part[..127], record);
    assert_eq!(part[127..], [7; 3]);
}

/// The reader and the writer refuse, and write nothing.
fn refuse(record: &[u8], n: usize, m: usize, number: u8) {
    let rules = Rules::paper();
    let mut body = [7; SLICE_BODY];
    let answer = read_record(&rules, record, n, m, &mut body);
    assert_eq!((answer, body), (refused(number), [7; SLICE_BODY]));
    let mut part = [7; SLICE_RECORD];
    let answer = write_record(&rules, &record[HEADER..], n, m, &mut part);
    assert_eq!((answer, part), (refused(number), [7; SLICE_RECORD]));
}

#[test]
fn refusals() {
    refuse(&record()[..126], 0, 65, 10);
    refuse(&[&record()[..], &[0]].concat(), 0, 65, 10);
    refuse(&record(), 0, 5, 11);
    refuse(&record(), 65, 5, 11);
    refuse(&record(), 3, 65, 11);
    refuse(&record(), 1 << 32 | 3, 5, 11);
    refuse(&record(), 2, 4, 4);
    refuse(&record(), 3, 4, 7);
}

#[test]
fn a_part_that_is_short() {
    let mut part = [7; SLICE_RECORD - 1];
    let answer = write_record(&Rules::paper(), &record()[HEADER..], 0, 65, &mut part);
    assert_eq!((answer, part), (refused(10), [7; SLICE_RECORD - 1]));
}
