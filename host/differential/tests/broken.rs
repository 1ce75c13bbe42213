//! A wrapper of the library that does something else than hand calls on is caught by the comparison.

use calls::Change;
use differential::calls::{by_library, Answer, Buffers, Call, Model};
use differential::comparison::{Difference, Sides};
use differential::{columns, feeds, records};
use model::Workings;
use testkit::random::{self, seed};
use workbench::lent::Lent;

type Broken = fn(Call, &mut Buffers) -> Answer;

/// Wrappers that change the answer.
const ANSWERS: [(&str, Broken); 4] = [
    ("forgets the place", |call, buffers| {
        moved(by_library(call, buffers), |_| 0)
    }),
    ("keeps the low byte of a place", |call, buffers| {
        moved(by_library(call, buffers), |place| place & 255)
    }),
    (
        "exchanges n and m of an accepted file",
        |call, buffers| match by_library(call, buffers) {
            Answer::Accepted { n, m } => Answer::Accepted { n: m, m: n },
            answer => answer,
        },
    ),
    (
        "takes a refusal 10 for done",
        |call, buffers| match by_library(call, buffers) {
            Answer::Refused { number: 10, .. } => Answer::Done,
            answer => answer,
        },
    ),
];

/// Wrappers that hand other things on.
const HANDED_ON: [(&str, Broken); 5] = [
    ("settles for a clock", |call, buffers| match call {
        Call::Clock => by_library(Call::Settle, buffers),
        _ => by_library(call, buffers),
    }),
    ("clocks for a settle", |call, buffers| match call {
        Call::Settle => by_library(Call::Clock, buffers),
        _ => by_library(call, buffers),
    }),
    (
        "exchanges n and m for the reader",
        |call, buffers| match call {
            Call::ReadRecord { n, m } => by_library(Call::ReadRecord { n: m, m: n }, buffers),
            _ => by_library(call, buffers),
        },
    ),
    (
        "lends flip-flops and inputs for each other",
        |call, buffers| {
            exchange(buffers);
            let answer = by_library(call, buffers);
            exchange(buffers);
            answer
        },
    ),
    ("lends the writer a copy", |call, buffers| match call {
        Call::WriteRecord { .. } => by_library(call, &mut buffers.clone()),
        _ => by_library(call, buffers),
    }),
];

/// Wrappers of an edit call that hand another list on.
const EDITS: [(&str, Broken); 7] = [
    ("keeps 32 bits of a number", |call, buffers| {
        with_list(call, buffers, |list| {
            let numbers = list.iter_mut().map(|edit| &mut edit.number);
            numbers.for_each(|number| *number &= 0xFFFF_FFFF);
        })
    }),
    ("keeps a byte of a value", |call, buffers| {
        with_list(call, buffers, |list| {
            let values = list.iter_mut().map(|edit| &mut edit.value);
            values.for_each(|value| *value &= 255);
        })
    }),
    ("takes inputs and tables for each other", |call, buffers| {
        with_list(call, buffers, |list| {
            let kinds = list.iter_mut().map(|edit| &mut edit.kind);
            kinds.for_each(|kind| *kind ^= 1);
        })
    }),
    ("hands one edit less on", |call, buffers| {
        with_list(call, buffers, |list| list.truncate(list.len().max(1) - 1))
    }),
    ("hands the edits on in the other order", |call, buffers| {
        with_list(call, buffers, |list| list.reverse())
    }),
    ("hands the edits on one by one", |call, buffers| {
        in_parts(call, buffers, 1)
    }),
    ("hands a long list on in two", |call, buffers| {
        in_parts(call, buffers, 256)
    }),
];

/// Wrappers of a reader's call that hand other things on.
const FEEDS: [(&str, Broken); 5] = [
    ("forgets the reader's state", |call, buffers| {
        buffers.state.lend().fill(0);
        by_library(call, buffers)
    }),
    ("writes the run at the store's start", |call, buffers| {
        let answer = by_library(call, buffers);
        if let Call::Feed { .. } = call {
            put_first(buffers);
        }
        answer
    }),
    ("feeds a byte past the run", |call, buffers| {
        let run = buffers.run.clone();
        buffers.run = run.resized(run.get().len() + 1, 0xA5);
        let answer = by_library(call, buffers);
        buffers.run = run;
        answer
    }),
    (
        "never says that there is no more",
        |call, buffers| match call {
            Call::Feed { .. } => by_library(Call::Feed { last: 0 }, buffers),
            _ => by_library(call, buffers),
        },
    ),
    (
        "always says that there is no more",
        |call, buffers| match call {
            Call::Feed { .. } => by_library(Call::Feed { last: 1 }, buffers),
            _ => by_library(call, buffers),
        },
    ),
];

/// Wrappers that write.
const STORES: [(&str, Broken); 9] = [
    ("writes past the values", |call, buffers| {
        let answer = by_library(call, buffers);
        *past(&mut buffers.column.values) = 0;
        answer
    }),
    ("writes past the contents", |call, buffers| {
        let answer = by_library(call, buffers);
        *past(&mut buffers.column.contents) = 0;
        answer
    }),
    ("writes past the edits", |call, buffers| {
        let answer = by_library(call, buffers);
        past(&mut buffers.edits).kind = 0;
        answer
    }),
    ("writes into the edits", |call, buffers| {
        let answer = by_library(call, buffers);
        if let Some(edit) = buffers.edits.lend().first_mut() {
            edit.value ^= 1;
        }
        answer
    }),
    ("writes past the part", |call, buffers| {
        let answer = by_library(call, buffers);
        *past(&mut buffers.part) = 0;
        answer
    }),
    ("writes past the state", |call, buffers| {
        let answer = by_library(call, buffers);
        *past(&mut buffers.state) = 0;
        answer
    }),
    ("writes past the store", |call, buffers| {
        let answer = by_library(call, buffers);
        *past(&mut buffers.store) = 0;
        answer
    }),
    ("writes a value on refusal", |call, buffers| {
        let answer = by_library(call, buffers);
        if let (Answer::Refused { .. }, Some(value)) =
            (answer, buffers.column.values.lend().first_mut())
        {
            *value ^= 1;
        }
        answer
    }),
    ("writes into the file", |call, buffers| {
        let answer = by_library(call, buffers);
        if let Some(byte) = buffers.column.file.lend().last_mut() {
            *byte ^= 1;
        }
        answer
    }),
];

fn moved(answer: Answer, to: fn(u64) -> u64) -> Answer {
    match answer {
        Answer::Refused { number, place } => Answer::Refused {
            number,
            place: to(place),
        },
        answer => answer,
    }
}

fn exchange(buffers: &mut Buffers) {
    let column = &mut buffers.column;
    std::mem::swap(&mut column.flops, &mut column.inputs);
}

/// Makes an edit call with a copy of the list that was changed.
fn with_list(call: Call, buffers: &mut Buffers, change: fn(&mut Vec<Change>)) -> Answer {
    let lent = buffers.edits.clone();
    let mut list = lent.get().to_vec();
    change(&mut list);
    buffers.edits = Lent::edits(&list);
    let answer = by_library(call, buffers);
    buffers.edits = lent;
    answer
}

/// Makes an edit call for each part of so many edits, up to one that is refused.
fn in_parts(call: Call, buffers: &mut Buffers, length: usize) -> Answer {
    let lent = buffers.edits.clone();
    if call != Call::Edit || lent.get().len() <= length {
        return by_library(call, buffers);
    }
    let mut part = |list: &[Change]| {
        buffers.edits = Lent::edits(list);
        by_library(call, buffers)
    };
    let mut answers = lent.get().chunks(length).map(&mut part);
    let refused = answers.find(|&answer| answer != Answer::Done);
    buffers.edits = lent;
    refused.unwrap_or(Answer::Done)
}

/// Puts the run at the start of the store, as far as it fits.
fn put_first(buffers: &mut Buffers) {
    for (cell, byte) in buffers.store.lend().iter_mut().zip(buffers.run.get()) {
        *cell = *byte;
    }
}

/// The first cell of the guards after a buffer.
fn past<T: Copy + PartialEq>(lent: &mut Lent<T>) -> &mut T {
    let length = lent.get().len();
    let cells = lent.all_cells();
    let guards = (cells.len() - length) / 2;
    &mut cells[guards + length]
}

/// What the calls are made on: files, records, and files that come in runs.
struct Subjects {
    files: Vec<columns::Subject>,
    records: Vec<records::Subject>,
    fed: Vec<Vec<u8>>,
}

/// What the comparison says of a wrapper.
fn found(broken: Broken, subjects: &Subjects) -> Vec<Difference> {
    let model = Model::of(&[]);
    let model = |call, buffers: &mut Buffers| model.call(call, buffers);
    let sides = Sides::new(&broken, &model);
    let compared = [
        columns::compare_all(&subjects.files, &broken, Workings::paper(), seed()),
        records::compare_all(&subjects.records, sides, seed()),
        feeds::compare_all(&subjects.fed, sides, seed()),
    ];
    let differences = compared.into_iter().filter_map(Result::err);
    differences.map(|difference| *difference).collect()
}

fn every_sixteenth<T>(all: Vec<T>) -> Vec<T> {
    all.into_iter().step_by(16).collect()
}

/// A part of the files and records that the library is compared on is enough.
#[test]
fn every_broken_wrapper_is_caught() {
    let subjects = Subjects {
        files: every_sixteenth(columns::subjects(seed(), 1)),
        records: every_sixteenth(records::subjects(seed(), 1)),
        fed: every_sixteenth(random::files(seed(), 1)),
    };
    let wrappers = [&ANSWERS[..], &HANDED_ON, &EDITS, &FEEDS, &STORES].concat();
    for (name, broken) in &wrappers {
        let found = found(*broken, &subjects);
        assert!(!found.is_empty(), "not caught: {name}");
        println!("{name}: {}", found[0].text);
    }
    println!("{} wrappers", wrappers.len());
}

/// A guard is named that was written, though the answer and the buffers are right.
#[test]
fn a_written_guard_is_named() {
    let subjects = Subjects {
        files: vec![columns::Subject::new(0, testkit::column::z().bytes())],
        records: vec![],
        fed: vec![],
    };
    let found = found(STORES[0].1, &subjects);
    assert_eq!(found[0].text, "the library wrote beside the values");
}
