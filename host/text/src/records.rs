//! The records of a file that are whole and in order, whatever stands in them.

use model::layout::*;
use model::records::slice_record;

/// A file's n and m and its slices' bodies; their numbers are 0 to n-1.
#[derive(Clone, Debug, PartialEq)]
pub struct Records {
    pub n: u8,
    pub m: u8,
    pub slices: Vec<[u8; SLICE_BODY]>,
}

impl Records {
    /// n slices of zeros but for their numbers.
    pub fn zeros(n: u8, m: u8) -> Records {
        let slice = |number| {
            let mut body = [0; SLICE_BODY];
            body[NUMBER] = number;
            body
        };
        Records {
            n,
            m,
            slices: (0..n).map(slice).collect(),
        }
    }

    /// The records of a file, where they are whole and in order and nothing follows.
    pub fn of(file: &[u8]) -> Option<Records> {
        let (&[n, m], slices) = file
            .strip_prefix(&header(TAG_SIZE, SIZE_BODY))?
            .strip_suffix(&header(TAG_END, END_BODY))?
            .split_first_chunk()?;
        if slices.len() != SLICE_RECORD * usize::from(n) {
            return None;
        }
        let mut records = Records::zeros(n, m);
        for (body, record) in records.slices.iter_mut().zip(slices.chunks(SLICE_RECORD)) {
            let stands = record.strip_prefix(&header(TAG_SLICE, SLICE_BODY))?;
            let is_due = stands[NUMBER] == body[NUMBER];
            body.copy_from_slice(is_due.then_some(stands)?);
        }
        Some(records)
    }

    /// The file.
    pub fn bytes(&self) -> Vec<u8> {
        let slices = self.slices.iter().flat_map(|body| slice_record(body));
        let size = header(TAG_SIZE, SIZE_BODY)
            .into_iter()
            .chain([self.n, self.m]);
        size.chain(slices)
            .chain(header(TAG_END, END_BODY))
            .collect()
    }
}
