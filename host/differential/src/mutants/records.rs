//! Mistakes in the record calls.

use std::sync::LazyLock;

use crate::calls::{Answer, Buffers, Call, Caller, Model};
use model::layout::*;
use model::records::slice_record;
use testkit::column::pull_up;
use testkit::mutants::{slice, WrongRules};

/// A wrong model of the record calls.
pub struct Mutant {
    pub name: String,
    pub caller: Box<Caller<'static>>,
}

/// Readers that test records in a wrong way.
pub fn readers() -> Vec<Mutant> {
    let wrong = slice::of_headers().into_iter().chain(slice::of_bodies());
    wrong
        .map(|wrong| by_rules("reader", reads, wrong))
        .collect()
}

/// The same for writers, which make the header themselves.
pub fn writers() -> Vec<Mutant> {
    let wrong = slice::of_bodies().into_iter();
    wrong
        .map(|wrong| by_rules("writer", |call| !reads(call), wrong))
        .collect()
}

/// Those that are not about the rules of a record.
pub fn others() -> Vec<Mutant> {
    let mutant = |(name, caller): Wrong| Mutant {
        name: name.to_string(),
        caller: Box::new(caller),
    };
    by_hand().into_iter().map(mutant).collect()
}

/// A model that tests the records of some calls in a wrong way.
fn by_rules(who: &str, concerned: fn(Call) -> bool, wrong: WrongRules) -> Mutant {
    let name = format!("{who}: {}", wrong.name);
    let wrong = wrongly(wrong);
    let caller = move |call, buffers: &mut Buffers| match concerned(call) {
        true => wrong(call, buffers),
        false => rightly(call, buffers),
    };
    Mutant {
        name,
        caller: Box::new(caller),
    }
}

/// Makes a call, with the record tested in a wrong way.
fn wrongly(wrong: WrongRules) -> impl Fn(Call, &mut Buffers) -> Answer {
    let mut model = Model::of(&[]);
    model.rules = wrong.rules.clone();
    move |call, buffers| {
        let mut seen = buffers.clone();
        let (n, m) = sizes(call);
        if reads(call) && seen.record.get().len() == SLICE_RECORD {
            wrong.change(seen.record.lend(), n, m);
        }
        if !reads(call) && seen.body.get().len() == SLICE_BODY {
            let mut record = slice_record(seen.body.get());
            wrong.change(&mut record, n, m);
            seen.body.lend().copy_from_slice(&record[HEADER..]);
        }
        let answer = model.call(call, &mut seen);
        if answer == Answer::Done {
            finish(call, buffers);
        }
        answer
    }
}

fn reads(call: Call) -> bool {
    matches!(call, Call::ReadRecord { .. })
}

/// The n and m of a record call.
fn sizes(call: Call) -> (usize, usize) {
    match call {
        Call::ReadRecord { n, m } | Call::WriteRecord { n, m } => (n, m),
        _ => panic!("no record call: {call:?}"),
    }
}

/// The call with another n and m.
fn with_sizes(call: Call, n: usize, m: usize) -> Call {
    match call {
        Call::ReadRecord { .. } => Call::ReadRecord { n, m },
        _ => Call::WriteRecord { n, m },
    }
}

fn rightly(call: Call, buffers: &mut Buffers) -> Answer {
    static MODEL: LazyLock<Model> = LazyLock::new(|| Model::of(&[]));
    MODEL.call(call, buffers)
}

/// Leaves what a call does that isn't refused, as far as the lengths allow.
fn finish(call: Call, buffers: &mut Buffers) {
    let (bytes, filled) = match call {
        Call::ReadRecord { .. } => {
            let body = buffers.record.get().get(HEADER..).unwrap_or(&[]);
            (body.to_vec(), buffers.body.lend())
        }
        _ => (slice_record(buffers.body.get()), buffers.part.lend()),
    };
    for (cell, byte) in filled.iter_mut().zip(bytes) {
        *cell = byte;
    }
}

fn refused(number: u8) -> Answer {
    Answer::Refused { number, place: 0 }
}

type Wrong = (&'static str, fn(Call, &mut Buffers) -> Answer);

fn by_hand() -> Vec<Wrong> {
    let families = [
        sizes_unjudged(),
        lengths(),
        rules(),
        refused_stores(),
        stores(),
        open_pins(),
    ];
    families.into_iter().flatten().collect()
}

/// The call with the nearest n and m that are in range.
fn in_range(call: Call) -> Call {
    let (n, m) = sizes(call);
    with_sizes(call, n.clamp(1, 64), m.min(64))
}

fn sizes_unjudged() -> Vec<Wrong> {
    vec![
        ("n not judged", |call, buffers| {
            let (n, _) = sizes(in_range(call));
            rightly(with_sizes(call, n, sizes(call).1), buffers)
        }),
        ("m not judged", |call, buffers| {
            let (_, m) = sizes(in_range(call));
            rightly(with_sizes(call, sizes(call).0, m), buffers)
        }),
        ("n and m of 32 bits", |call, buffers| {
            let (n, m) = sizes(call);
            let low = |number| number as u32 as usize;
            rightly(with_sizes(call, low(n), low(m)), buffers)
        }),
        ("11 before 10", |call, buffers| {
            match in_range(call) == call {
                true => rightly(call, buffers),
                false => refused(11),
            }
        }),
        (
            "11 after the rules of the record",
            |call, buffers| match rightly(in_range(call), &mut buffers.clone()) {
                Answer::Done => rightly(call, buffers),
                refused => refused,
            },
        ),
    ]
}

fn lengths() -> Vec<Wrong> {
    vec![
        ("a part longer than a record refused", |call, buffers| {
            let longer = buffers.part.get().len() > SLICE_RECORD;
            match call {
                Call::WriteRecord { .. } if longer => refused(10),
                _ => rightly(call, buffers),
            }
        }),
        ("a longer record taken", |call, buffers| {
            if buffers.record.get().len() <= SLICE_RECORD {
                return rightly(call, buffers);
            }
            let mut seen = buffers.clone();
            seen.record = seen.record.resized(SLICE_RECORD, 0);
            let answer = rightly(call, &mut seen);
            buffers.body = seen.body;
            answer
        }),
        ("always refuses", |_, _| refused(10)),
    ]
}

fn rules() -> Vec<Wrong> {
    vec![
        ("number 0 due", |call, buffers| {
            let number = match call {
                Call::ReadRecord { .. } => buffers.record.get().get(HEADER + NUMBER),
                _ => buffers.body.get().get(NUMBER),
            };
            let zero = number == Some(&0);
            match rightly(call, &mut buffers.clone()) {
                Answer::Done if !zero => refused(4),
                _ => rightly(call, buffers),
            }
        }),
        ("the record's place in a file", |call, buffers| {
            let place = record_start(0) as u64;
            match rightly(call, buffers) {
                Answer::Refused { number, .. } if number < 10 => Answer::Refused { number, place },
                answer => answer,
            }
        }),
    ]
}

/// Cells written on refusal.
fn refused_stores() -> Vec<Wrong> {
    vec![
        ("reader writes on refusal", |call, buffers| {
            let answer = rightly(call, buffers);
            if reads(call) {
                finish(call, buffers);
            }
            answer
        }),
        ("writer writes on refusal", |call, buffers| {
            let answer = rightly(call, buffers);
            if !reads(call) {
                finish(call, buffers);
            }
            answer
        }),
        ("reader fills with zeros on refusal", |call, buffers| {
            let answer = rightly(call, buffers);
            if reads(call) && answer != Answer::Done {
                buffers.body.lend().fill(0);
            }
            answer
        }),
    ]
}

/// Other cells written than the paper says.
fn stores() -> Vec<Wrong> {
    vec![
        ("reader writes nothing", |call, buffers| match reads(call) {
            true => rightly(call, &mut buffers.clone()),
            false => rightly(call, buffers),
        }),
        ("writer writes nothing", |call, buffers| match reads(call) {
            true => rightly(call, buffers),
            false => rightly(call, &mut buffers.clone()),
        }),
        ("writer writes the body alone", |call, buffers| {
            let before = buffers.part.clone();
            let answer = rightly(call, buffers);
            if !reads(call) && answer == Answer::Done {
                buffers.part = before;
                let body = buffers.body.get();
                buffers.part.lend()[..SLICE_BODY].copy_from_slice(body);
            }
            answer
        }),
        ("writer clears the rest of the part", |call, buffers| {
            let answer = rightly(call, buffers);
            if !reads(call) && answer == Answer::Done {
                buffers.part.lend()[SLICE_RECORD..].fill(0);
            }
            answer
        }),
    ]
}

/// Pins left open that become constants on the way.
fn open_pins() -> Vec<Wrong> {
    vec![
        ("reader gives an open pin as 1", |call, buffers| {
            let answer = rightly(call, buffers);
            if reads(call) && answer == Answer::Done {
                pull_up(buffers.body.lend());
            }
            answer
        }),
        ("writer writes an open pin as 1", |call, buffers| {
            let answer = rightly(call, buffers);
            if !reads(call) && answer == Answer::Done {
                pull_up(&mut buffers.part.lend()[HEADER..]);
            }
            answer
        }),
    ]
}
