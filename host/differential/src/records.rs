//! The calls on one slice record, random but the same for a seed and a record.

use std::collections::HashSet;

use model::layout::*;
use model::records::slice_record;
use testkit::column::Column;
use testkit::prng::Prng;
use testkit::{random, traps};
use workbench::lent::Lent;

use crate::calls::{Buffers, Call};
use crate::columns::{far_number, junk, other_length};
use crate::comparison::{Compared, Comparison, Sides};
use crate::Counts;

/// A slice record, its place among those of the seed, and the n and m it was
/// made for.
pub struct Subject {
    pub number: usize,
    pub record: Vec<u8>,
    pub n: usize,
    pub m: usize,
}

/// The slice records in the directed files and in the random files of a seed.
pub fn subjects(seed: u64, times: usize) -> Vec<Subject> {
    let directed = traps::all().into_iter().map(|case| case.file);
    let files = directed.chain(random::files(seed, times));
    let mut seen = HashSet::new();
    let mut subjects = vec![];
    for (record, n, m) in files.flat_map(|file| slice_records(&file)) {
        if seen.insert((record.clone(), n, m)) {
            let number = subjects.len();
            subjects.push(Subject {
                number,
                record,
                n,
                m,
            });
        }
    }
    subjects
}

/// What stands in a file where slice records should, with the n and m there.
fn slice_records(file: &[u8]) -> Vec<(Vec<u8>, usize, usize)> {
    let Some((size, rest)) = file.split_at_checked(SIZE_RECORD) else {
        return vec![];
    };
    let (n, m) = (usize::from(size[HEADER]), usize::from(size[HEADER + 1]));
    let records = rest.chunks_exact(SLICE_RECORD);
    records.map(|record| (record.to_vec(), n, m)).collect()
}

/// Makes all calls on every record.
pub fn compare_all(subjects: &[Subject], sides: Sides, seed: u64) -> Compared<Counts> {
    let mut counts = Counts::default();
    for subject in subjects {
        counts += compare(subject, sides, seed)?;
    }
    Ok(counts)
}

/// Makes all calls on a record.
pub fn compare(subject: &Subject, sides: Sides, seed: u64) -> Compared<Counts> {
    let number = subject.number;
    let mut rng = Prng::new(!seed ^ (number as u64) << 32);
    let buffers = reading(&mut rng, &subject.record);
    let mut pair = Comparison::new(format!("{seed}-record-{number}"), sides, buffers);
    read_then_write(&mut pair, &mut rng, subject)?;
    write_then_read(&mut pair, &mut rng, subject)?;
    for _ in 0..2 {
        other_sizes(&mut pair, &mut rng, subject)?;
        other_lengths(&mut pair, &mut rng, subject)?;
    }
    pair.counts.records = 1;
    Ok(pair.counts)
}

/// The buffers of a reader.
fn reading(rng: &mut Prng, record: &[u8]) -> Buffers {
    Buffers::of_record(record, &junk(rng, SLICE_BODY), &[])
}

/// The buffers of a writer, with some room after the record.
fn writing(rng: &mut Prng, record: &[u8]) -> Buffers {
    let room = *rng.pick(&[0, 1, SLICE_RECORD, 140]);
    let part = junk(rng, SLICE_RECORD + room);
    Buffers::of_record(&[], &record[HEADER..], &part)
}

/// Writes what was read, or the junk that a refused reader left.
fn read_then_write(pair: &mut Comparison, rng: &mut Prng, subject: &Subject) -> Compared {
    let Subject { n, m, .. } = *subject;
    pair.call(Call::ReadRecord { n, m })?;
    pair.buffers.part = Lent::bytes(&junk(rng, SLICE_RECORD));
    pair.call(Call::WriteRecord { n, m })
}

/// Reads what was written, or the junk that a refused writer left.
fn write_then_read(pair: &mut Comparison, rng: &mut Prng, subject: &Subject) -> Compared {
    let Subject { n, m, .. } = *subject;
    pair.buffers = writing(rng, &subject.record);
    pair.call(Call::WriteRecord { n, m })?;
    let written = pair.buffers.part.get()[..SLICE_RECORD].to_vec();
    pair.buffers = reading(rng, &written);
    pair.call(Call::ReadRecord { n, m })
}

/// The record with another n or m or both.
fn other_sizes(pair: &mut Comparison, rng: &mut Prng, subject: &Subject) -> Compared {
    let (n, m) = sizes(rng, subject);
    pair.buffers = reading(rng, &subject.record);
    pair.call(Call::ReadRecord { n, m })?;
    pair.buffers = writing(rng, &subject.record);
    pair.call(Call::WriteRecord { n, m })
}

fn sizes(rng: &mut Prng, subject: &Subject) -> (usize, usize) {
    let n = size(rng, subject.n);
    let m = size(rng, subject.m);
    match rng.below(3) {
        0 => (n, subject.m),
        1 => (subject.n, m),
        _ => (n, m),
    }
}

fn size(rng: &mut Prng, size: usize) -> usize {
    match rng.chance(60) {
        true => rng.below(66),
        false => far_number(rng, size),
    }
}

/// The record in buffers of other lengths, sometimes with another n or m.
fn other_lengths(pair: &mut Comparison, rng: &mut Prng, subject: &Subject) -> Compared {
    let (n, m) = match rng.chance(30) {
        true => sizes(rng, subject),
        false => (subject.n, subject.m),
    };
    pair.buffers = reading(rng, &subject.record);
    spoil(rng, &mut pair.buffers);
    pair.call(Call::ReadRecord { n, m })?;
    pair.buffers = writing(rng, &subject.record);
    spoil(rng, &mut pair.buffers);
    pair.call(Call::WriteRecord { n, m })
}

fn spoil(rng: &mut Prng, buffers: &mut Buffers) {
    let lent = match rng.below(3) {
        0 => &mut buffers.record,
        1 => &mut buffers.body,
        _ => &mut buffers.part,
    };
    let length = other_length(rng, lent.get().len());
    *lent = lent.resized(length, 0);
}

/// Reads the record over other bytes, and writes the body.
fn read_and_write(pair: &mut Comparison, buffers: &Buffers, n: usize, m: usize) -> Compared {
    pair.buffers = buffers.clone();
    pair.buffers.body.lend().fill(7);
    pair.call(Call::ReadRecord { n, m })?;
    pair.buffers = buffers.clone();
    pair.call(Call::WriteRecord { n, m })
}

/// One record with each n and m up to 66, and in buffers of each length up to
/// twice the right one.
pub fn compare_in_turn(sides: Sides) -> Compared<Counts> {
    let body = Column::zeros(4, 6).pin(3, "A1", 256 + 5).slices[3];
    let right = Buffers::of_record(&slice_record(&body), &body, &[7; SLICE_RECORD]);
    let mut pair = Comparison::new("in-turn".to_string(), sides, right.clone());
    for n in 0..=66 {
        for m in 0..=66 {
            read_and_write(&mut pair, &right, n, m)?;
        }
    }
    let resized: [fn(&mut Buffers, usize); 3] = [
        |buffers, length| buffers.record = buffers.record.resized(length, 7),
        |buffers, length| buffers.body = buffers.body.resized(length, 7),
        |buffers, length| buffers.part = buffers.part.resized(length, 7),
    ];
    for length in 0..=2 * SLICE_RECORD {
        for resize in resized {
            let mut buffers = right.clone();
            resize(&mut buffers, length);
            read_and_write(&mut pair, &buffers, 4, 6)?;
            read_and_write(&mut pair, &buffers, 0, 65)?;
        }
    }
    Ok(pair.counts)
}
