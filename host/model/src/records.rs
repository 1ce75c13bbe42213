//! The two calls on one slice record.

use crate::check::{sizes_listed, slice_refusal};
use crate::layout::*;
use crate::rules::Rules;
use crate::simulate::{require, Answer, Refusal};

/// Fills the body with what stands in a record after its header.
pub fn read_record(rules: &Rules, record: &[u8], n: usize, m: usize, body: &mut [u8]) -> Answer {
    let lengths = record.len() == SLICE_RECORD && body.len() == SLICE_BODY;
    require(lengths, 10)?;
    judge_record(rules, record, n, m)?;
    body.copy_from_slice(&record[HEADER..]);
    Ok(())
}

/// Puts a slice header and the body into the first bytes of the part.
pub fn write_record(rules: &Rules, body: &[u8], n: usize, m: usize, part: &mut [u8]) -> Answer {
    let lengths = body.len() == SLICE_BODY && part.len() >= SLICE_RECORD;
    require(lengths, 10)?;
    let record = slice_record(body);
    judge_record(rules, &record, n, m)?;
    part[..SLICE_RECORD].copy_from_slice(&record);
    Ok(())
}

/// The record with this body.
pub fn slice_record(body: &[u8]) -> Vec<u8> {
    [&header(TAG_SLICE, SLICE_BODY), body].concat()
}

/// n and m, then the rules of a record. The place is 0.
fn judge_record(rules: &Rules, record: &[u8], n: usize, m: usize) -> Answer {
    require(sizes_listed(rules, n, m), 11)?;
    match slice_refusal(rules, record, n, m) {
        Some(number) => Err(Refusal { number, place: 0 }),
        None => Ok(()),
    }
}
