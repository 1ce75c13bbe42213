//! Random files, records and calls: the library's answers and buffers against the model's.

use calls::{read_record, write_record, MOST_EDITS};
use differential::calls::{by_library, Answer, Buffers, Call, Model};
use differential::comparison::Sides;
use differential::saved::agreed;
use differential::{columns, records, Counts};
use model::design::Driver;
use model::layout::*;
use model::Workings;
use testkit::column::pull_up;
use testkit::random::{seed, times};
use testkit::traps;
use workbench::lent::Lent;

/// The library and the model.
const SIDES: Sides = Sides {
    library: &by_library,
    model: &by_model,
};

fn by_model(call: Call, buffers: &mut Buffers) -> Answer {
    Model::of(buffers.column.file.get()).call(call, buffers)
}

/// Every answer is given by many of the calls: done, and refusals 1 to 11.
#[test]
fn calls_on_files() {
    let seed = seed();
    let subjects = columns::subjects(seed, times());
    let paper = Workings::paper();
    let counts = agreed(columns::compare_all(&subjects, &by_library, paper, seed));
    println!("seed {seed}: {counts:?}, {} calls", counts.calls());
    assert!(counts.answers.iter().all(|&count| count >= 100));
}

/// The same calls on the files that are directed at the judge's rules.
#[test]
fn calls_on_directed_files() {
    let files = traps::all().into_iter().map(|case| case.file).collect();
    let subjects = columns::subjects_of(files);
    let paper = Workings::paper();
    let counts = agreed(columns::compare_all(&subjects, &by_library, paper, 0));
    println!("{counts:?}, {} calls", counts.calls());
}

/// The longest lists on the first large columns: some are made, some refused.
#[test]
fn long_lists_on_large_columns() {
    let seed = seed();
    let is_large = |subject: &columns::Subject| {
        let design = subject.model.simulator.design();
        design.is_ok_and(|design| design.n >= 32 && design.m >= 8)
    };
    let mut counts = Counts::default();
    for subject in columns::subjects(seed, 1)
        .into_iter()
        .filter(is_large)
        .take(4)
    {
        counts += agreed(columns::compare_long_lists(&subject, SIDES, seed));
    }
    println!("seed {seed}: {counts:?}, {} calls", counts.calls());
    assert!(counts.answers[0] > 0 && counts.answers[11] >= 4);
}

/// The library with a call for each edit of a list, on copies of the buffers that are kept where all were made.
fn one_by_one(call: Call, buffers: &mut Buffers) -> Answer {
    if call != Call::Edit {
        return by_library(call, buffers);
    }
    let list = buffers.edits.get();
    let lists = [&[][..]].into_iter().chain(list.chunks(1));
    let mut copies = buffers.clone();
    for one in lists {
        copies.edits = Lent::edits(one);
        let answer = by_library(call, &mut copies);
        if answer != Answer::Done {
            return answer;
        }
    }
    if list.len() > MOST_EDITS {
        return Answer::Refused {
            number: 11,
            place: 0,
        };
    }
    buffers.column = copies.column;
    Answer::Done
}

/// A list answers and leaves what its edits do one after another.
#[test]
fn lists_are_as_single_edits() {
    let seed = seed();
    let sides = Sides::new(&by_library, &one_by_one);
    for subject in columns::subjects(seed, 1) {
        agreed(columns::compare(&subject, sides, seed));
    }
}

/// The library on the file in which every open pin is driven by the constant 1.
fn with_ones(call: Call, buffers: &mut Buffers) -> Answer {
    let file = buffers.column.file.clone();
    let records = buffers.column.file.lend().get_mut(SIZE_RECORD..);
    for record in records.unwrap_or_default().chunks_exact_mut(SLICE_RECORD) {
        pull_up(&mut record[HEADER..]);
    }
    let answer = by_library(call, buffers);
    buffers.column.file = file;
    answer
}

/// A pin left open is as one driven by the constant 1, in all that a call says and leaves.
#[test]
fn open_pins_are_as_ones() {
    let seed = seed();
    let sides = Sides::new(&by_library, &with_ones);
    let mut open = 0;
    for subject in columns::subjects(seed, 1) {
        let design = subject.model.simulator.design().ok();
        let slices = design.into_iter().flat_map(|design| &design.slices);
        let pins = slices.flat_map(|slice| slice.pins);
        open += pins.filter(|&driver| driver == Driver::Open).count();
        agreed(columns::compare(&subject, sides, seed));
    }
    println!("seed {seed}: {open} open pins of accepted files");
    assert!(open >= 1000);
}

/// Every answer that a record call can give is given by many: done, and
/// refusals 2 to 7, 10 and 11.
#[test]
fn calls_on_records() {
    let seed = seed();
    let subjects = records::subjects(seed, times());
    let counts = agreed(records::compare_all(&subjects, SIDES, seed));
    println!("seed {seed}: {counts:?}, {} calls", counts.calls());
    let [done, one, two_to_seven @ .., eight, nine, ten, eleven] = counts.answers;
    assert_eq!([one, eight, nine], [0; 3]);
    assert!(two_to_seven.iter().all(|&count| count >= 100));
    assert!([done, ten, eleven].iter().all(|&count| count >= 1000));
}

#[test]
fn sizes_and_lengths_in_turn() {
    let counts = agreed(records::compare_in_turn(SIDES));
    println!("{counts:?}, {} calls", counts.calls());
}

/// Writing what was read gives the same record, reading what was written the
/// same body.
#[test]
fn round_trips() {
    let mut trips = 0;
    for subject in records::subjects(seed(), 1) {
        let (n, m, mut record) = (subject.n, subject.m, [7; SLICE_RECORD]);
        let (mut body, mut again) = ([7; SLICE_BODY], [9; SLICE_BODY]);
        if read_record(&subject.record, n, m, &mut body).is_ok() {
            assert_eq!(write_record(&body, n, m, &mut record), Ok(()));
            assert_eq!(record[..], subject.record);
            assert_eq!(read_record(&record, n, m, &mut again), Ok(()));
            assert_eq!(again, body);
            trips += 1;
        }
    }
    println!("{trips} records");
    assert!(trips >= 1000);
}
