//! The record calls through the exported library, with what they have to give, written by hand.

use model::layout::*;
use quagmuffin::{read_record, write_record, Refused};
use testkit::column::{z, Column};
use workbench::lent::Lent;

const HEAD: [u8; 3] = [2, 124, 0];

/// Slice 3 with every kind of field set.
fn body() -> [u8; SLICE_BODY] {
    let column = Column::zeros(4, 1)
        .set(3, CARRY_START, 3)
        .set(3, POWER_UP, 0xC3);
    let column = column
        .contents(3, B, 0x0123_4567_89AB_CDEF)
        .pin(3, "D6", 256);
    column.pin(3, "WE", 4096 + 16 * 2 + 11).slices[3]
}

fn record() -> Vec<u8> {
    [&HEAD[..], &body()].concat()
}

fn refused(number: u8) -> Result<(), Refused> {
    Err(Refused { number, place: 0 })
}

#[test]
fn reads_the_body() {
    let mut lent = Lent::bytes(&[7; SLICE_BODY]);
    assert_eq!(read_record(&record(), 4, 1, lent.lend()), Ok(()));
    assert_eq!(lent.get(), body());
}

#[test]
fn writes_the_record_and_leaves_the_rest() {
    let mut lent = Lent::bytes(&[7; SLICE_RECORD + 5]);
    assert_eq!(write_record(&body(), 4, 1, lent.lend()), Ok(()));
    assert_eq!(lent.get(), [&record()[..], &[7; 5]].concat());
}

#[test]
fn the_record_in_z() {
    let file = z().bytes();
    let record = &file[record_start(0)..record_start(1)];
    let mut lent = Lent::bytes(&[7; SLICE_BODY]);
    assert_eq!(read_record(record, 1, 0, lent.lend()), Ok(()));
    let mut part = Lent::bytes(&[7; SLICE_RECORD]);
    assert_eq!(write_record(lent.get(), 1, 0, part.lend()), Ok(()));
    assert_eq!(part.get(), record);
}

/// Every pin left open stays so, read and written again.
#[test]
fn open_pins_stay_open() {
    let body = z().opened().slices[0];
    let mut part = Lent::bytes(&[7; SLICE_RECORD]);
    assert_eq!(write_record(&body, 1, 0, part.lend()), Ok(()));
    assert_eq!(part.get()[HEADER + PINS..], [2, 0].repeat(PIN_COUNT));
    let mut lent = Lent::bytes(&[7; SLICE_BODY]);
    assert_eq!(read_record(part.get(), 1, 0, lent.lend()), Ok(()));
    assert_eq!(lent.get(), body);
}

/// The record refused by the reader, for n and m; and by the writer for its body, where the header is right.
fn refuse(record: &[u8], n: usize, m: usize, number: u8) {
    let before = Lent::bytes(&[7; SLICE_BODY]);
    let mut lent = before.clone();
    assert_eq!(read_record(record, n, m, lent.lend()), refused(number));
    assert_eq!(lent, before, "a refused reader wrote");
    if record.starts_with(&HEAD) && record.len() == SLICE_RECORD {
        let before = Lent::bytes(&[7; SLICE_RECORD]);
        let mut part = before.clone();
        let answer = write_record(&record[HEADER..], n, m, part.lend());
        assert_eq!(answer, refused(number));
        assert_eq!(part, before, "a refused writer wrote");
    }
}

#[test]
fn refusals_of_a_record() {
    let with = |at: usize, byte| {
        let mut record = record();
        record[at] = byte;
        record
    };
    refuse(&record()[..126], 4, 1, 10);
    refuse(&[record(), vec![0]].concat(), 4, 1, 10);
    for (n, m) in [(0, 1), (65, 1), (4, 65), (usize::MAX, 1), (4, usize::MAX)] {
        refuse(&record(), n, m, 11);
    }
    refuse(&with(0, 4), 4, 1, 2);
    refuse(&with(0, 3), 4, 1, 4);
    refuse(&with(1, 123), 4, 1, 3);
    refuse(&record(), 3, 1, 4);
    refuse(&with(HEADER + KIND, 2), 4, 1, 5);
    refuse(&with(HEADER + NUMBER, 0), 4, 1, 6);
    refuse(&record(), 4, 0, 7);
}

/// A record in which everything is wrong; one thing after the other is mended, and the next refusal shows.
#[test]
fn order_of_refusals() {
    let mut record = record();
    let mends: [(usize, u8, u8, u8); 7] = [
        // Where, what is wrong there, what is right, and what is refused while it is wrong.
        (0, 9, 3, 2),
        (0, 3, 2, 4),
        (1, 123, 124, 3),
        (HEADER + NUMBER, 4, 3, 4),
        (HEADER + MAIN + C, 6, 5, 5),
        (HEADER + MODE + A, 1, 0, 6),
        (HEADER + PINS, 3, 2, 7),
    ];
    for (at, wrong, _, _) in mends.into_iter().rev() {
        record[at] = wrong;
    }
    refuse(&[&record[..], &[0]].concat(), 0, 1, 10);
    refuse(&record, 0, 1, 11);
    refuse(&record, 4, 65, 11);
    for (at, _, right, number) in mends {
        refuse(&record, 4, 1, number);
        record[at] = right;
    }
    let mut lent = Lent::bytes(&[7; SLICE_BODY]);
    assert_eq!(read_record(&record, 4, 1, lent.lend()), Ok(()));
    assert_eq!(lent.get(), &record[HEADER..]);
}

#[test]
fn lengths_first() {
    for length in [0, 123, 125] {
        let before = Lent::bytes(&vec![7; length]);
        let mut lent = before.clone();
        assert_eq!(read_record(&[], 0, 65, lent.lend()), refused(10));
        assert_eq!(lent, before);
        let before = Lent::bytes(&[7; SLICE_RECORD]);
        let mut part = before.clone();
        assert_eq!(
            write_record(&vec![0; length], 0, 65, part.lend()),
            refused(10)
        );
        assert_eq!(part, before);
    }
    let before = Lent::bytes(&[7; SLICE_RECORD - 1]);
    let mut part = before.clone();
    assert_eq!(write_record(&body(), 0, 65, part.lend()), refused(10));
    assert_eq!(part, before);
}
