//! Files that come in pieces, with what the reader has to say, written by hand.

use calls::{feed, STATE, STORE};
use quagmuffin::{Accepted, Reader, Refused, Verdict};
use testkit::cases::worked_file;
use testkit::column::{z, Column};
use workbench::lent::Lent;

fn refused(number: u8, place: u64) -> Verdict {
    Err(Refused { number, place })
}

fn accepted(n: usize, m: usize) -> Verdict {
    Ok(Accepted { n, m })
}

/// Z's first bytes, and others after them.
fn z_then(kept: usize, rest: &[u8]) -> Vec<u8> {
    [&z().bytes()[..kept], rest].concat()
}

/// A reader to which bytes came one by one: it has to want more after each.
fn waiting(bytes: &[u8]) -> Reader {
    let mut reader = Reader::new();
    for (at, byte) in bytes.iter().enumerate() {
        assert_eq!(reader.feed(&[*byte]), None, "byte {at} of {bytes:?}");
        assert_eq!(reader.bytes(), &bytes[..=at]);
    }
    reader
}

/// More before the last byte, and the verdict at it; in one run the verdict is the same.
fn decided_at_the_last(bytes: &[u8], verdict: Verdict) {
    let (last, before) = bytes.split_last().expect("a byte");
    let mut reader = waiting(before);
    assert_eq!(reader.feed(&[*last]), Some(verdict), "{bytes:?}");
    assert_eq!(reader.bytes(), bytes);
    assert_eq!(Reader::new().feed(bytes), Some(verdict), "{bytes:?}");
}

/// More at each byte, and the verdict at the end; with one byte more instead, another, if it is decided there.
fn decided_by_the_end(bytes: &[u8], verdict: Verdict, one_more: Option<Verdict>) {
    let reader = waiting(bytes);
    assert_eq!(reader.clone().end(), verdict, "{bytes:?}");
    assert_eq!(reader.clone().feed(&[0]), one_more, "{bytes:?}");
}

#[test]
fn whole_files() {
    decided_by_the_end(&z().bytes(), accepted(1, 0), Some(refused(8, 135)));
    decided_by_the_end(&worked_file(5), refused(9, 0), Some(refused(8, 135)));
    decided_by_the_end(&z_then(134, &[]), refused(1, 132), None);
    decided_by_the_end(&[], refused(1, 0), None);
}

#[test]
fn headers() {
    decided_by_the_end(&[7], refused(1, 0), None);
    decided_by_the_end(&[7, 0], refused(1, 0), Some(refused(2, 0)));
    decided_at_the_last(&[7, 0, 0], refused(2, 0));
    decided_at_the_last(&[2, 124, 0], refused(4, 0));
    decided_at_the_last(&[1, 3, 0], refused(3, 0));
    decided_at_the_last(&z_then(5, &[3, 0, 0]), refused(4, 5));
    decided_at_the_last(&z_then(5, &[2, 0x7D, 0]), refused(3, 5));
    decided_at_the_last(&z_then(5, &[1, 0x7D, 0]), refused(4, 5));
    decided_at_the_last(&z_then(132, &[4, 0, 0]), refused(2, 132));
    decided_at_the_last(&z_then(132, &[2, 124, 0]), refused(4, 132));
    decided_at_the_last(&z_then(132, &[3, 0, 1]), refused(3, 132));
}

/// A body decides when it is whole: the size record's at its fifth byte, a slice's at its 127th.
#[test]
fn bodies() {
    let slice = |at, byte| z().set(0, at, byte).bytes()[..132].to_vec();
    decided_by_the_end(&[1, 2, 0, 0], refused(1, 0), Some(refused(5, 0)));
    decided_at_the_last(&[1, 2, 0, 65, 0], refused(5, 0));
    decided_at_the_last(&slice(0, 1), refused(4, 5));
    decided_at_the_last(&slice(1, 2), refused(5, 5));
    decided_at_the_last(&slice(2, 1), refused(6, 5));
    decided_at_the_last(&slice(62, 3), refused(7, 5));
    let second = Column::zeros(2, 0).set(1, 0, 0).bytes();
    decided_at_the_last(&second[..259], refused(4, 132));
}

/// The longest file fills the store, and what comes after it isn't kept.
#[test]
fn a_full_store() {
    let file = Column::zeros(64, 0).bytes();
    for after in [1, 2, 10_000] {
        let mut reader = Reader::new();
        assert_eq!(reader.feed(&file), None);
        assert_eq!(reader.clone().end(), accepted(64, 0));
        assert_eq!(reader.feed(&vec![3; after]), Some(refused(8, 8136)));
        assert_eq!(reader.bytes(), file);
    }
    let mut reader = Reader::new();
    let longer = [&file[..], &[0; 5]].concat();
    assert_eq!(reader.feed(&longer[..8000]), None);
    assert_eq!(reader.feed(&longer[8000..]), Some(refused(8, 8136)));
    assert_eq!(reader.bytes(), file);
    let mut reader = Reader::new();
    assert_eq!(reader.feed(&[7; 9000]), Some(refused(2, 0)));
    assert_eq!(reader.bytes(), [7; 8136]);
}

#[test]
fn a_verdict_is_given_again() {
    for (bytes, verdict) in [
        (z().bytes(), accepted(1, 0)),
        (worked_file(5), refused(9, 0)),
        (vec![7, 0, 0], refused(2, 0)),
        (vec![1, 2], refused(1, 0)),
    ] {
        let mut reader = Reader::new();
        reader.feed(&bytes);
        assert_eq!(reader.end(), verdict);
        assert_eq!(reader.feed(&[]), Some(verdict));
        assert_eq!(reader.feed(&[7; 9000]), Some(verdict));
        assert_eq!(reader.end(), verdict);
        assert_eq!(reader.bytes(), bytes);
    }
}

#[test]
fn empty_runs() {
    let mut reader = Reader::new();
    for byte in z().bytes() {
        assert_eq!(reader.feed(&[]), None);
        assert_eq!(reader.feed(&[byte]), None);
    }
    assert_eq!(reader.feed(&[]), None);
    assert_eq!(reader.end(), accepted(1, 0));
}

/// The buffers of a reader, guarded.
#[derive(Clone, Debug, PartialEq)]
struct Lents {
    state: Lent<u64>,
    store: Lent<u8>,
}

impl Lents {
    fn fresh() -> Lents {
        Lents {
            state: Lent::words(&[0; STATE]),
            store: Lent::bytes(&[9; STORE]),
        }
    }

    fn feed(&mut self, run: &[u8], last: u8) -> Option<Verdict> {
        feed(self.state.lend(), self.store.lend(), run, last)
    }

    /// The words, and that the store holds these bytes and then what it held before.
    fn holds(&self, state: [u64; STATE], bytes: &[u8]) {
        assert_eq!(self.state.get(), state);
        let (kept, rest) = self.store.get().split_at(bytes.len());
        assert_eq!(kept, bytes);
        assert!(rest.iter().all(|&byte| byte == 9));
    }
}

/// Any byte but 0 says that there is no more, and a run that comes with it counts.
#[test]
fn the_end_with_a_run() {
    for last in [1, 2, 128, 255] {
        let mut reader = Lents::fresh();
        assert_eq!(reader.feed(&z().bytes()[..100], 0), None);
        let verdict = reader.feed(&z().bytes()[100..], last);
        assert_eq!(verdict, Some(accepted(1, 0)));
        assert_eq!(reader.feed(&[], 0), Some(accepted(1, 0)));
    }
    assert_eq!(Lents::fresh().feed(&[], 1), Some(refused(1, 0)));
    assert_eq!(Lents::fresh().feed(&[7, 0], 1), Some(refused(1, 0)));
}

/// The words of the state: bytes kept, slices passed, and the verdict, packed as the judge's.
#[test]
fn state_and_store() {
    let file = Column::zeros(2, 3).bytes();
    let mut reader = Lents::fresh();
    let mut from = 0;
    for (to, passed) in [(0, 0), (5, 0), (131, 0), (132, 1), (258, 1), (262, 2)] {
        assert_eq!(reader.feed(&file[from..to], 0), None);
        reader.holds([to as u64, passed, 0], &file[..to]);
        from = to;
    }
    let mut longer = reader.clone();
    assert_eq!(reader.feed(&[], 1), Some(accepted(2, 3)));
    reader.holds([262, 2, 2 << 8 | 3 << 24], &file);
    assert_eq!(longer.feed(&[5, 6], 0), Some(refused(8, 262)));
    longer.holds([264, 2, 8 | 262 << 8], &[&file[..], &[5, 6]].concat());
}

/// A call with a state or a store of another length is refused, and moves nothing.
fn refuses_other_lengths(reader: &Lents, run: &[u8], last: u8) {
    let lengths = [
        (0, STORE),
        (2, STORE),
        (4, STORE),
        (3, 0),
        (3, STORE - 1),
        (3, STORE + 1),
    ];
    for (words, bytes) in lengths {
        let mut other = Lents {
            state: reader.state.resized(words, 0),
            store: reader.store.resized(bytes, 9),
        };
        let before = other.clone();
        assert_eq!(other.feed(run, last), Some(refused(10, 0)));
        assert_eq!(other, before);
    }
}

/// Before a verdict and after it; the next right call goes on.
#[test]
fn other_lengths() {
    let (mut reader, file) = (Lents::fresh(), z().bytes());
    for (run, last, answer) in [
        (&file[..50], 0, None),
        (&file[50..], 0, None),
        (&[], 1, Some(accepted(1, 0))),
        (&[7], 0, Some(accepted(1, 0))),
    ] {
        refuses_other_lengths(&reader, run, last);
        assert_eq!(reader.feed(run, last), answer);
    }
    reader.holds([135, 1, 1 << 8], &file);
}

/// More bytes than the store has, or more slices than a file: no call leaves such words.
#[test]
fn words_out_of_range() {
    for state in [[8137, 0, 0], [0, 65, 0], [u64::MAX, 0, 0], [0, 1 << 32, 0]] {
        for last in [0, 1] {
            let mut reader = Lents::fresh();
            reader.state = Lent::words(&state);
            assert_eq!(reader.feed(&z().bytes(), last), Some(refused(11, 0)));
            reader.holds(state, &[]);
        }
    }
}
