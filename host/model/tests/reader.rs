//! The reader of the model alone, with what it has to say, written by hand.

use model::reader::{certain, feed, Reader, STATE, STORE};
use model::{Rules, Verdict};

/// The base file Z.
fn z() -> Vec<u8> {
    let mut file = vec![1, 2, 0, 1, 0, 2, 0x7c, 0];
    file.extend([0; 124]);
    file.extend([3, 0, 0]);
    file
}

fn refused(number: u8, place: usize) -> Option<Verdict> {
    Some(Verdict::Refused { number, place })
}

/// Byte by byte: more up to the last byte, and then this.
fn decides_at_its_end(bytes: &[u8], answer: Option<Verdict>) {
    let rules = Rules::paper();
    let mut reader = Reader::new(&rules, certain, &[]);
    let (last, others) = bytes.split_last().expect("a byte");
    for byte in others {
        assert_eq!(reader.feed(&[*byte], false), None);
    }
    assert_eq!(reader.feed(&[*last], false), answer);
    assert_eq!(reader.feed(&[], answer.is_some()), answer);
}

#[test]
fn decides_where_it_is_certain() {
    let after_size = |rest: &[u8]| [&z()[..5], rest].concat();
    decides_at_its_end(&z(), None);
    decides_at_its_end(&[z(), vec![0]].concat(), refused(8, 135));
    decides_at_its_end(&[7, 0], None);
    decides_at_its_end(&[7, 0, 0], refused(2, 0));
    decides_at_its_end(&[1, 3, 0], refused(3, 0));
    decides_at_its_end(&[1, 2, 0, 0, 0], refused(5, 0));
    decides_at_its_end(&after_size(&[3, 0, 0]), refused(4, 5));
    decides_at_its_end(&after_size(&[2, 125, 0]), refused(3, 5));
    decides_at_its_end(&after_size(&[1, 125, 0]), refused(4, 5));
    let mut other_number = z();
    other_number[8] = 1;
    decides_at_its_end(&other_number[..132], refused(4, 5));
}

#[test]
fn the_end_decides() {
    let rules = Rules::paper();
    let ended = |bytes: &[u8]| Reader::new(&rules, certain, &[]).feed(bytes, true);
    assert_eq!(ended(&[]), refused(1, 0));
    assert_eq!(ended(&[7, 0]), refused(1, 0));
    assert_eq!(ended(&z()), Some(Verdict::Accepted { n: 1, m: 0 }));
    let mut looped = z();
    looped[71] = 16;
    assert_eq!(ended(&looped), refused(9, 0));
}

/// The words: bytes kept, slices passed, the verdict.
#[test]
fn state_and_store() {
    let (rules, mut state, mut store) = (Rules::paper(), [0; STATE], [9; STORE]);
    let mut fed = |run: &[u8], last| {
        let answer = feed((&rules, certain), &mut state, &mut store, run, last);
        (answer, state, store[..136].to_vec())
    };
    let kept = |length: usize| [&z()[..length], &vec![9; 136 - length]].concat();
    assert_eq!(fed(&z()[..131], 0), (None, [131, 0, 0], kept(131)));
    assert_eq!(fed(&z()[131..132], 0), (None, [132, 1, 0], kept(132)));
    assert_eq!(fed(&[], 0), (None, [132, 1, 0], kept(132)));
    assert_eq!(fed(&z()[132..], 0), (None, [135, 1, 0], kept(135)));
    let accepted = Some(Verdict::Accepted { n: 1, m: 0 });
    assert_eq!(fed(&[], 2), (accepted, [135, 1, 256], kept(135)));
    assert_eq!(fed(&[5], 0), (accepted, [135, 1, 256], kept(135)));
}

#[test]
fn states_and_lengths_that_are_refused() {
    let rules = Rules::paper();
    for (state, length, number) in [
        (vec![0; STATE - 1], STORE, 10),
        (vec![0; STATE + 1], STORE, 10),
        (vec![0, 0, 0], STORE - 1, 10),
        (vec![0, 0, 256], STORE + 1, 10),
        (vec![8137, 0, 0], STORE, 11),
        (vec![0, 65, 0], STORE, 11),
        (vec![8137, 65, 5 << 8 | 4], STORE, 4),
    ] {
        let (mut words, mut store) = (state.clone(), vec![9; length]);
        let answer = feed((&rules, certain), &mut words, &mut store, &[1, 2], 1);
        let place = if number == 4 { 5 } else { 0 };
        assert_eq!(answer, refused(number, place));
        assert_eq!((words, store), (state, vec![9; length]));
    }
}

/// What finds no room is judged, and not kept.
#[test]
fn more_than_the_store_holds() {
    let (rules, mut state, mut store) = (Rules::paper(), [0; STATE], [9; STORE]);
    let run = [&[1, 2, 0, 64, 0, 2][..], &[124; 9000]].concat();
    let answer = feed((&rules, certain), &mut state, &mut store, &run, 0);
    assert_eq!(answer, refused(3, 5));
    assert_eq!(state, [8136, 0, 5 << 8 | 3]);
    assert_eq!(store, run[..8136]);
}
