//! Mistakes in the call that takes a file run by run.

use ::calls::{STATE, STORE};
use model::layout::*;
use model::reader::{certain, Certain};
use model::rules::Test;
use model::{check, judge_by, Rules, Verdict};
use workbench::lent::Lent;

use crate::calls::{Answer, Buffers, Call, Model};

/// A mistake's name, and the model that makes it.
pub type Mutant = (&'static str, fn(Call, &mut Buffers) -> Answer);

pub fn all() -> Vec<Mutant> {
    let families = [
        given_early(),
        given_late(),
        misjudged(),
        ends(),
        kept_verdicts(),
        stores(),
        tests(),
    ];
    families.into_iter().flatten().collect()
}

fn rightly(call: Call, buffers: &mut Buffers) -> Answer {
    deciding(certain, call, buffers)
}

/// Makes a call with another rule of what is certain.
fn deciding(certain: Certain, call: Call, buffers: &mut Buffers) -> Answer {
    let model = Model {
        certain,
        ..Model::of(&[])
    };
    model.call(call, buffers)
}

fn is_last(call: Call) -> bool {
    matches!(call, Call::Feed { last: 1.. })
}

/// How many bytes a reader keeps that has given no verdict, where its words are in range and the lengths right.
fn open(buffers: &Buffers) -> Option<usize> {
    let right = buffers.store.get().len() == STORE;
    match buffers.state.get() {
        &[kept, passed, 0] if right && kept <= STORE as u64 && passed <= 64 => Some(kept as usize),
        _ => None,
    }
}

fn given_early() -> Vec<Mutant> {
    vec![
        ("1 given before the end", |call, buffers| {
            let early = |rules: &Rules, bytes: &[u8]| check(rules, bytes).err();
            deciding(early, call, buffers)
        }),
        ("accepted at the end record", |call, buffers| {
            let early = |rules: &Rules, bytes: &[u8]| {
                let verdict = judge_by(rules, bytes);
                let accepted = matches!(verdict, Verdict::Accepted { .. });
                accepted.then_some(verdict).or(certain(rules, bytes))
            };
            deciding(early, call, buffers)
        }),
        ("9 given at the end record", |call, buffers| {
            let early = |rules: &Rules, bytes: &[u8]| {
                let verdict = judge_by(rules, bytes);
                let looped = matches!(verdict, Verdict::Refused { number: 9, .. });
                looped.then_some(verdict).or(certain(rules, bytes))
            };
            deciding(early, call, buffers)
        }),
        ("a tag refused at its first byte", |call, buffers| {
            let early = |rules: &Rules, bytes: &[u8]| certain(rules, &headers_filled(rules, bytes));
            deciding(early, call, buffers)
        }),
        ("a slice number refused where it stands", |call, buffers| {
            let early = |rules: &Rules, bytes: &[u8]| match check(rules, bytes) {
                Err(Verdict::Refused { number: 1, place }) => {
                    let number = bytes.get(place + HEADER).filter(|_| place > 0);
                    let other = |&byte: &u8| record_start(usize::from(byte)) != place;
                    let refused = Verdict::Refused { number: 4, place };
                    number.filter(|&byte| other(byte)).map(|_| refused)
                }
                _ => certain(rules, bytes),
            };
            deciding(early, call, buffers)
        }),
    ]
}

/// The bytes with zeros after a record that starts with no tag, so that its header is whole.
fn headers_filled(rules: &Rules, bytes: &[u8]) -> Vec<u8> {
    let tag = match check(rules, bytes) {
        Err(Verdict::Refused { number: 1, place }) => bytes.get(place),
        _ => None,
    };
    match tag {
        None | Some(TAG_SIZE..=TAG_END) => bytes.to_vec(),
        Some(_) => [bytes, &[0; HEADER]].concat(),
    }
}

fn given_late() -> Vec<Mutant> {
    vec![
        ("8 at the end only", |call, buffers| {
            let late = |rules: &Rules, bytes: &[u8]| {
                let verdict = certain(rules, bytes);
                verdict.filter(|verdict| !matches!(verdict, Verdict::Refused { number: 8, .. }))
            };
            deciding(late, call, buffers)
        }),
        ("a byte late", |call, buffers| {
            let late = |rules: &Rules, bytes: &[u8]| {
                let (_, before) = bytes.split_last()?;
                certain(rules, before)
            };
            deciding(late, call, buffers)
        }),
        (
            "2, 3 and 4 after the body that a header names",
            |call, buffers| {
                let late = |rules: &Rules, bytes: &[u8]| match certain(rules, bytes) {
                    Some(Verdict::Refused {
                        number: 2..=4,
                        place,
                    }) if !is_whole(bytes, place) => None,
                    verdict => verdict,
                };
                deciding(late, call, buffers)
            },
        ),
        ("nothing before the end", |call, buffers| {
            deciding(|_, _| None, call, buffers)
        }),
    ]
}

/// Whether the record at a place has the body that its header names.
fn is_whole(bytes: &[u8], place: usize) -> bool {
    let body = usize::from(two_bytes(&bytes[place + 1..]));
    bytes.len() >= place + HEADER + body
}

fn misjudged() -> Vec<Mutant> {
    vec![
        ("3 before 4", |call, buffers| {
            let early = |rules: &Rules, bytes: &[u8]| {
                let mut rules = rules.clone();
                let place = |test| rules.order.iter().position(|&known| known == test);
                let (due, length) = (place(Test::TagDue)?, place(Test::Length)?);
                rules.order.swap(due, length);
                certain(&rules, bytes)
            };
            deciding(early, call, buffers)
        }),
        ("a place counted from the run", |call, buffers| {
            let kept = open(buffers).unwrap_or(0) as u64;
            match rightly(call, buffers) {
                Answer::Refused { number, place } => Answer::Refused {
                    number,
                    place: place.saturating_sub(kept),
                },
                answer => answer,
            }
        }),
        ("what finds no room not judged", |call, buffers| {
            let run = buffers.run.clone();
            if let Some(kept) = open(buffers) {
                let room = run.get().len().min(STORE - kept);
                buffers.run = run.resized(room, 0);
            }
            let answer = rightly(call, buffers);
            buffers.run = run;
            answer
        }),
    ]
}

fn ends() -> Vec<Mutant> {
    vec![
        ("the end not heard", |_, buffers| {
            rightly(Call::Feed { last: 0 }, buffers)
        }),
        ("1 alone heard as the end", |call, buffers| {
            let last = u8::from(call == Call::Feed { last: 1 });
            rightly(Call::Feed { last }, buffers)
        }),
        (
            "the run that comes with the end not counted",
            |call, buffers| {
                let run = buffers.run.clone();
                if is_last(call) {
                    buffers.run = Lent::bytes(&[]);
                }
                let answer = rightly(call, buffers);
                buffers.run = run;
                answer
            },
        ),
    ]
}

fn kept_verdicts() -> Vec<Mutant> {
    vec![
        ("a verdict not kept", |call, buffers| {
            let was_open = open(buffers).is_some();
            let answer = rightly(call, buffers);
            if was_open {
                buffers.state.lend()[2] = 0;
            }
            answer
        }),
        ("a verdict not given again", |call, buffers| {
            if buffers.state.get().len() == STATE {
                buffers.state.lend()[2] = 0;
            }
            rightly(call, buffers)
        }),
        ("a verdict given again to any length", |call, buffers| {
            let store = buffers.store.clone();
            if !matches!(buffers.state.get(), [_, _, (1..)]) {
                return rightly(call, buffers);
            }
            buffers.store = store.resized(STORE, 0);
            let answer = rightly(call, buffers);
            buffers.store = store;
            answer
        }),
        ("a verdict kept as its number", |call, buffers| {
            let answer = rightly(call, buffers);
            if let (Answer::Refused { number: 2..=9, .. }, [_, _, given]) =
                (answer, buffers.state.lend())
            {
                *given &= 255;
            }
            answer
        }),
    ]
}

/// Other cells written than the reader's.
fn stores() -> Vec<Mutant> {
    vec![
        ("nothing kept with a verdict", |call, buffers| {
            let store = buffers.store.clone();
            let answer = rightly(call, buffers);
            if answer != Answer::More {
                buffers.store = store;
            }
            answer
        }),
        ("the rest of the store cleared", |call, buffers| {
            let was_open = open(buffers).is_some();
            let answer = rightly(call, buffers);
            if was_open {
                let kept = buffers.state.get()[0] as usize;
                buffers.store.lend()[kept..].fill(0);
            }
            answer
        }),
        ("bytes counted that found no room", |call, buffers| {
            let kept = open(buffers);
            let answer = rightly(call, buffers);
            if let Some(kept) = kept {
                buffers.state.lend()[0] = (kept + buffers.run.get().len()) as u64;
            }
            answer
        }),
        ("the size record counted as a slice", |call, buffers| {
            let answer = rightly(call, buffers);
            if answer == Answer::More && buffers.state.get()[0] >= SIZE_RECORD as u64 {
                buffers.state.lend()[1] += 1;
            }
            answer
        }),
        ("a slice counted that isn't whole", |call, buffers| {
            let answer = rightly(call, buffers);
            let [kept, passed, _] = buffers.state.lend() else {
                return answer;
            };
            if answer == Answer::More && *kept > record_start(*passed as usize) as u64 {
                *passed += 1;
            }
            answer
        }),
    ]
}

/// Refusals 10 and 11 of a reader that aren't given, or in another order.
fn tests() -> Vec<Mutant> {
    vec![
        ("a longer store taken", |call, buffers| {
            let whole = buffers.store.clone();
            if whole.get().len() <= STORE {
                return rightly(call, buffers);
            }
            buffers.store = whole.resized(STORE, 0);
            let answer = rightly(call, buffers);
            buffers.store = whole;
            answer
        }),
        ("a longer state taken", |call, buffers| {
            let whole = buffers.state.clone();
            if whole.get().len() <= STATE {
                return rightly(call, buffers);
            }
            buffers.state = whole.resized(STATE, 0);
            let answer = rightly(call, buffers);
            buffers.state = whole;
            answer
        }),
        (
            "11 before a verdict given again",
            |call, buffers| match buffers.state.get() {
                &[kept, passed, (1..)] if kept > STORE as u64 || passed > 64 => {
                    let given = std::mem::take(&mut buffers.state.lend()[2]);
                    let answer = rightly(call, buffers);
                    buffers.state.lend()[2] = given;
                    answer
                }
                _ => rightly(call, buffers),
            },
        ),
        ("more slices than there can be taken", |call, buffers| {
            if let [_, passed, _] = buffers.state.lend() {
                *passed = (*passed).min(64);
            }
            rightly(call, buffers)
        }),
        ("more bytes than there can be taken", |call, buffers| {
            if let [kept, _, _] = buffers.state.lend() {
                *kept = (*kept).min(STORE as u64);
            }
            rightly(call, buffers)
        }),
    ]
}
