//! A file that comes in runs: all bytes are kept, and looked at anew whenever some come.

use crate::check::check;
use crate::layout::*;
use crate::rules::Rules;
use crate::{judge_by, Verdict};

/// The words of a lent state: the bytes kept, the slices passed, the verdict.
pub const STATE: usize = 3;
const KEPT: usize = 0;
const PASSED: usize = 1;
const GIVEN: usize = 2;

/// The most slices a file has, and the bytes of the lent store: as many as such a file.
const MOST_SLICES: usize = 64;
pub const STORE: usize = file_length(MOST_SLICES);

/// The verdict on bytes that more may follow, once it is certain. `certain` is the right one; the tests have wrong ones.
pub type Certain = fn(&Rules, &[u8]) -> Option<Verdict>;

/// The refusals of 2 to 8: none of them goes away when bytes follow. 1 may, and 8 may come for an accepted file or for 9.
pub fn certain(rules: &Rules, bytes: &[u8]) -> Option<Verdict> {
    match check(rules, bytes) {
        Err(Verdict::Refused { number: 1, .. }) | Ok(_) => None,
        Err(refused) => Some(refused),
    }
}

/// The bytes that came up to the verdict, and the verdict.
pub struct Reader<'a> {
    rules: &'a Rules,
    certain: Certain,
    bytes: Vec<u8>,
    given: Option<Verdict>,
}

impl<'a> Reader<'a> {
    /// A reader to which these bytes came.
    pub fn new(rules: &'a Rules, certain: Certain, bytes: &[u8]) -> Reader<'a> {
        Reader {
            rules,
            certain,
            bytes: bytes.to_vec(),
            given: None,
        }
    }

    /// The next run, and whether it is the last one. `None` says that more is needed.
    pub fn feed(&mut self, run: &[u8], last: bool) -> Option<Verdict> {
        if self.given.is_none() {
            self.bytes.extend(run);
            self.given = match last {
                true => Some(judge_by(self.rules, &self.bytes)),
                false => (self.certain)(self.rules, &self.bytes),
            };
        }
        self.given
    }

    /// How many slice records are whole and good: those that end where the first bad record starts, or before.
    fn passed(&self) -> usize {
        let good = match check(self.rules, &self.bytes) {
            Err(Verdict::Refused { place, .. }) => place,
            _ => self.bytes.len(),
        };
        let is_good = |&number: &usize| record_start(number + 1) <= good;
        (0..MOST_SLICES).take_while(is_good).count()
    }
}

/// The call that is lent a reader's state and store.
pub fn feed(
    (rules, certain): (&Rules, Certain),
    state: &mut [u64],
    store: &mut [u8],
    run: &[u8],
    last: u8,
) -> Option<Verdict> {
    if state.len() != STATE || store.len() != STORE {
        return Some(refused(10));
    }
    if state[GIVEN] != 0 {
        return Some(unpacked(state[GIVEN]));
    }
    if state[KEPT] > STORE as u64 || state[PASSED] > MOST_SLICES as u64 {
        return Some(refused(11));
    }
    let mut reader = Reader::new(rules, certain, &store[..state[KEPT] as usize]);
    let answer = reader.feed(run, last != 0);
    let kept = reader.bytes.len().min(STORE);
    store[..kept].copy_from_slice(&reader.bytes[..kept]);
    state[KEPT] = kept as u64;
    match answer {
        Some(verdict) => state[GIVEN] = packed(verdict),
        None => state[PASSED] = reader.passed() as u64,
    }
    answer
}

fn refused(number: u8) -> Verdict {
    Verdict::Refused { number, place: 0 }
}

/// A verdict as one word: 0, n in two bytes and m; or the refusal's number and its place.
fn packed(verdict: Verdict) -> u64 {
    match verdict {
        Verdict::Accepted { n, m } => (n as u64) << 8 | (m as u64) << 24,
        Verdict::Refused { number, place } => u64::from(number) | (place as u64) << 8,
    }
}

/// The verdict that a word has, whatever it is.
fn unpacked(word: u64) -> Verdict {
    match word as u8 {
        0 => Verdict::Accepted {
            n: usize::from((word >> 8) as u16),
            m: (word >> 24) as usize,
        },
        number => Verdict::Refused {
            number,
            place: (word >> 8) as usize,
        },
    }
}
