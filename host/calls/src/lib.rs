//! The exported calls, behind functions that are safe to call: slices in, an answer out. Tests and benchmarks use them, because they lend
//! buffers of any length; a host uses the crate `quagmuffin`, which has the buffers of a file.

use std::fmt;

mod exported {
    use super::Change;

    extern "C" {
        pub fn qm_judge(file: *const u8, file_len: usize) -> u64;

        pub fn qm_power_up(
            file: *const u8,
            file_len: usize,
            contents: *mut u64,
            contents_len: usize,
            flops: *mut u8,
            flops_len: usize,
        ) -> u64;

        pub fn qm_settle(
            file: *const u8,
            file_len: usize,
            contents: *const u64,
            contents_len: usize,
            flops: *const u8,
            flops_len: usize,
            inputs: *const u8,
            inputs_len: usize,
            values: *mut u8,
            values_len: usize,
        ) -> u64;

        pub fn qm_clock(
            file: *const u8,
            file_len: usize,
            contents: *mut u64,
            contents_len: usize,
            flops: *mut u8,
            flops_len: usize,
            inputs: *const u8,
            inputs_len: usize,
            values: *mut u8,
            values_len: usize,
        ) -> u64;

        pub fn qm_edit(
            file: *const u8,
            file_len: usize,
            contents: *mut u64,
            contents_len: usize,
            flops: *const u8,
            flops_len: usize,
            inputs: *mut u8,
            inputs_len: usize,
            values: *mut u8,
            values_len: usize,
            edits: *const Change,
            edits_len: usize,
        ) -> u64;

        pub fn qm_read_record(
            record: *const u8,
            record_len: usize,
            n: usize,
            m: usize,
            body: *mut u8,
            body_len: usize,
        ) -> u64;

        pub fn qm_write_record(
            body: *const u8,
            body_len: usize,
            n: usize,
            m: usize,
            part: *mut u8,
            part_len: usize,
        ) -> u64;

        pub fn qm_feed(
            state: *mut u64,
            state_len: usize,
            store: *mut u8,
            store_len: usize,
            run: *const u8,
            run_len: usize,
            last: u8,
        ) -> u64;
    }
}

/// A refusal: its number, 1 to 11, and its place.
#[derive(Clone, Copy, Debug, PartialEq, Eq)]
pub struct Refused {
    pub number: u8,
    pub place: u64,
}

/// The size of an accepted file: its slices n and its outside inputs m.
#[derive(Clone, Copy, Debug, PartialEq, Eq)]
pub struct Accepted {
    pub n: usize,
    pub m: usize,
}

impl Accepted {
    /// The words of its contents, one a table.
    pub fn tables(self) -> usize {
        4 * self.n
    }

    /// The bytes of its values, one a signal.
    pub fn signals(self) -> usize {
        32 * self.n
    }
}

/// As the program writes it.
impl fmt::Display for Refused {
    fn fmt(&self, out: &mut fmt::Formatter) -> fmt::Result {
        write!(out, "refused {} {}", self.number, self.place)
    }
}

/// As the program writes it.
impl fmt::Display for Accepted {
    fn fmt(&self, out: &mut fmt::Formatter) -> fmt::Result {
        write!(out, "accepted {} {}", self.n, self.m)
    }
}

/// What a call that gives nothing back answers.
pub type Answer = Result<(), Refused>;

fn answer(packed: u64) -> Answer {
    match packed {
        0 => Ok(()),
        _ => Err(refused(packed)),
    }
}

fn refused(packed: u64) -> Refused {
    Refused {
        number: packed as u8,
        place: packed >> 8,
    }
}

/// What the judge says of bytes.
pub type Verdict = Result<Accepted, Refused>;

fn verdict(packed: u64) -> Verdict {
    match packed as u8 {
        0 => Ok(Accepted {
            n: (packed >> 8) as u16 as usize,
            m: (packed >> 24) as usize,
        }),
        _ => Err(refused(packed)),
    }
}

/// Judges any bytes.
pub fn judge(file: &[u8]) -> Verdict {
    verdict(unsafe { exported::qm_judge(file.as_ptr(), file.len()) })
}

/// Fills 4n words of contents and n flip-flop bytes with the state at power-up.
pub fn power_up(file: &[u8], contents: &mut [u64], flops: &mut [u8]) -> Answer {
    answer(unsafe {
        exported::qm_power_up(
            file.as_ptr(),
            file.len(),
            contents.as_mut_ptr(),
            contents.len(),
            flops.as_mut_ptr(),
            flops.len(),
        )
    })
}

/// Fills 32n value bytes with the settled signals.
pub fn settle(
    file: &[u8],
    contents: &[u64],
    flops: &[u8],
    inputs: &[u8],
    values: &mut [u8],
) -> Answer {
    answer(unsafe {
        exported::qm_settle(
            file.as_ptr(),
            file.len(),
            contents.as_ptr(),
            contents.len(),
            flops.as_ptr(),
            flops.len(),
            inputs.as_ptr(),
            inputs.len(),
            values.as_mut_ptr(),
            values.len(),
        )
    })
}

/// One clock: the values are those settled before the edge, the state has moved.
pub fn clock(
    file: &[u8],
    contents: &mut [u64],
    flops: &mut [u8],
    inputs: &[u8],
    values: &mut [u8],
) -> Answer {
    answer(unsafe {
        exported::qm_clock(
            file.as_ptr(),
            file.len(),
            contents.as_mut_ptr(),
            contents.len(),
            flops.as_mut_ptr(),
            flops.len(),
            inputs.as_ptr(),
            inputs.len(),
            values.as_mut_ptr(),
            values.len(),
        )
    })
}

/// The most edits that a list may have.
pub const MOST_EDITS: usize = 256;

/// An edit as the library takes it: what `number` is goes by the kind, and none of the three has to be in range.
#[repr(C)]
#[derive(Clone, Copy, Debug, PartialEq, Eq)]
pub struct Change {
    /// 0 for an outside input, 1 for a table's contents.
    pub kind: u8,
    pub number: u64,
    pub value: u64,
}

impl Change {
    /// Sets an outside input to a byte.
    pub fn input(input: usize, byte: u8) -> Change {
        Change {
            kind: 0,
            number: input as u64,
            value: byte.into(),
        }
    }

    /// Sets the contents of table 4s + letter to a word.
    pub fn table(table: usize, word: u64) -> Change {
        Change {
            kind: 1,
            number: table as u64,
            value: word,
        }
    }
}

/// Makes edits in their order, and recomputes the signals that depend on them.
pub fn edit(
    file: &[u8],
    contents: &mut [u64],
    flops: &[u8],
    inputs: &mut [u8],
    values: &mut [u8],
    edits: &[Change],
) -> Answer {
    answer(unsafe {
        exported::qm_edit(
            file.as_ptr(),
            file.len(),
            contents.as_mut_ptr(),
            contents.len(),
            flops.as_ptr(),
            flops.len(),
            inputs.as_mut_ptr(),
            inputs.len(),
            values.as_mut_ptr(),
            values.len(),
            edits.as_ptr(),
            edits.len(),
        )
    })
}

/// Reads a slice record of 127 bytes into a body of 124.
pub fn read_record(record: &[u8], n: usize, m: usize, body: &mut [u8]) -> Answer {
    answer(unsafe {
        exported::qm_read_record(
            record.as_ptr(),
            record.len(),
            n,
            m,
            body.as_mut_ptr(),
            body.len(),
        )
    })
}

/// Writes the slice record with a body of 124 bytes into the first 127 bytes of a part.
pub fn write_record(body: &[u8], n: usize, m: usize, part: &mut [u8]) -> Answer {
    answer(unsafe {
        exported::qm_write_record(
            body.as_ptr(),
            body.len(),
            n,
            m,
            part.as_mut_ptr(),
            part.len(),
        )
    })
}

/// The words of a reader's state, and the bytes of its store.
pub const STATE: usize = 3;
pub const STORE: usize = 8136;

/// Gives a reader the next run of a file's bytes, and whether (`last` not 0) no more will come. `None` says that more is needed.
pub fn feed(state: &mut [u64], store: &mut [u8], run: &[u8], last: u8) -> Option<Verdict> {
    let packed = unsafe {
        exported::qm_feed(
            state.as_mut_ptr(),
            state.len(),
            store.as_mut_ptr(),
            store.len(),
            run.as_ptr(),
            run.len(),
            last,
        )
    };
    match packed {
        0 => None,
        _ => Some(verdict(packed)),
    }
}
