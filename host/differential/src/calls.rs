//! The library's calls as data, the buffers they are lent, and who makes them.

use std::fmt;

use ::calls::{Change, Refused, Verdict};
use model::edits::Edit;
use model::reader::{certain, feed, Certain};
use model::records::{read_record, write_record};
use model::simulate::Refusal;
use model::{Design, Rules, Simulator, Workings};
use workbench::lent::Lent;
use workbench::Workbench;

#[derive(Clone, Copy, Debug, PartialEq, Eq)]
pub enum Call {
    Judge,
    PowerUp,
    Settle,
    Clock,
    Edit,
    ReadRecord { n: usize, m: usize },
    WriteRecord { n: usize, m: usize },
    Feed { last: u8 },
}

#[derive(Clone, Copy, Debug, PartialEq, Eq)]
pub enum Answer {
    Accepted { n: usize, m: usize },
    Done,
    More,
    Refused { number: u8, place: u64 },
}

impl fmt::Display for Answer {
    fn fmt(&self, out: &mut fmt::Formatter) -> fmt::Result {
        match self {
            Answer::Accepted { n, m } => write!(out, "accepted {n} {m}"),
            Answer::Done => write!(out, "done"),
            Answer::More => write!(out, "more"),
            Answer::Refused { number, place } => write!(out, "refused {number} {place}"),
        }
    }
}

/// The buffers of all calls. Those that a call doesn't take are empty.
#[derive(Clone, Debug, PartialEq)]
pub struct Buffers {
    pub column: Workbench,
    pub edits: Lent<Change>,
    pub record: Lent<u8>,
    pub body: Lent<u8>,
    pub part: Lent<u8>,
    pub state: Lent<u64>,
    pub store: Lent<u8>,
    pub run: Lent<u8>,
}

impl Buffers {
    /// The buffers of a call on a file.
    pub fn of_column(column: Workbench) -> Buffers {
        Buffers {
            column,
            edits: Lent::edits(&[]),
            record: Lent::bytes(&[]),
            body: Lent::bytes(&[]),
            part: Lent::bytes(&[]),
            state: Lent::words(&[]),
            store: Lent::bytes(&[]),
            run: Lent::bytes(&[]),
        }
    }

    /// The buffers of a call on a record.
    pub fn of_record(record: &[u8], body: &[u8], part: &[u8]) -> Buffers {
        Buffers {
            record: Lent::bytes(record),
            body: Lent::bytes(body),
            part: Lent::bytes(part),
            ..Buffers::empty()
        }
    }

    /// The buffers of a reader's call.
    pub fn of_reader(state: &[u64], store: &[u8], run: &[u8]) -> Buffers {
        Buffers {
            state: Lent::words(state),
            store: Lent::bytes(store),
            run: Lent::bytes(run),
            ..Buffers::empty()
        }
    }

    fn empty() -> Buffers {
        Buffers::of_column(Workbench {
            file: Lent::bytes(&[]),
            contents: Lent::words(&[]),
            flops: Lent::bytes(&[]),
            inputs: Lent::bytes(&[]),
            values: Lent::bytes(&[]),
        })
    }

    /// Those of words, by their names.
    pub fn words(&self) -> [(&'static str, &Lent<u64>); 2] {
        [("contents", &self.column.contents), ("state", &self.state)]
    }

    /// Those of bytes, by their names.
    pub fn bytes(&self) -> [(&'static str, &Lent<u8>); 9] {
        [
            ("file", &self.column.file),
            ("flops", &self.column.flops),
            ("inputs", &self.column.inputs),
            ("values", &self.column.values),
            ("record", &self.record),
            ("body", &self.body),
            ("part", &self.part),
            ("store", &self.store),
            ("run", &self.run),
        ]
    }
}

/// What makes calls: the library, the model, or a wrong one of them.
pub type Caller<'a> = dyn Fn(Call, &mut Buffers) -> Answer + 'a;

pub fn by_library(call: Call, buffers: &mut Buffers) -> Answer {
    let column = &mut buffers.column;
    let (record, body, part) = (&buffers.record, &mut buffers.body, &mut buffers.part);
    let (state, store, run) = (&mut buffers.state, &mut buffers.store, &buffers.run);
    let answer = match call {
        Call::Judge => return judged(::calls::judge(column.file.get())),
        Call::Feed { last } => {
            let heard = ::calls::feed(state.lend(), store.lend(), run.get(), last);
            return heard.map_or(Answer::More, judged);
        }
        Call::PowerUp => column.power_up(),
        Call::Settle => column.settle(),
        Call::Clock => column.clock(),
        Call::Edit => column.edit(buffers.edits.get()),
        Call::ReadRecord { n, m } => ::calls::read_record(record.get(), n, m, body.lend()),
        Call::WriteRecord { n, m } => ::calls::write_record(body.get(), n, m, part.lend()),
    };
    match answer {
        Ok(()) => Answer::Done,
        Err(Refused { number, place }) => Answer::Refused { number, place },
    }
}

fn judged(verdict: Verdict) -> Answer {
    match verdict {
        Ok(size) => Answer::Accepted {
            n: size.n,
            m: size.m,
        },
        Err(Refused { number, place }) => Answer::Refused { number, place },
    }
}

/// The model of one file, of records, and of readers.
pub struct Model {
    pub simulator: Simulator,
    pub rules: Rules,
    pub certain: Certain,
}

impl Model {
    /// As the paper has it.
    pub fn of(file: &[u8]) -> Model {
        Model {
            simulator: Simulator::new(Workings::paper(), file),
            rules: Rules::paper(),
            certain,
        }
    }

    /// The same file, run in another way.
    pub fn with(&self, workings: Workings) -> Model {
        self.running(self.simulator.with(workings))
    }

    /// The same file, where it is accepted with its design changed.
    pub fn redesigned(&self, change: fn(&mut Design)) -> Model {
        self.running(self.simulator.redesigned(change))
    }

    fn running(&self, simulator: Simulator) -> Model {
        Model {
            simulator,
            rules: self.rules.clone(),
            certain: self.certain,
        }
    }

    pub fn call(&self, call: Call, buffers: &mut Buffers) -> Answer {
        let (simulator, rules) = (&self.simulator, &self.rules);
        let column = &mut buffers.column;
        let (contents, flops) = (column.contents.lend(), column.flops.lend());
        let (inputs, values) = (column.inputs.lend(), column.values.lend());
        let (record, body, part) = (&buffers.record, &mut buffers.body, &mut buffers.part);
        let answer = match call {
            Call::Judge => return self.judge(),
            Call::PowerUp => simulator.power_up(contents, flops),
            Call::Settle => simulator.settle(contents, flops, inputs, values),
            Call::Clock => simulator.clock(contents, flops, inputs, values),
            Call::Edit => {
                let edits: Vec<Edit> = buffers.edits.get().iter().map(edit).collect();
                simulator.edit(contents, flops, inputs, values, &edits)
            }
            Call::ReadRecord { n, m } => read_record(rules, record.get(), n, m, body.lend()),
            Call::WriteRecord { n, m } => write_record(rules, body.get(), n, m, part.lend()),
            Call::Feed { last } => return self.feed(buffers, last),
        };
        answer.map_or_else(refused, |()| Answer::Done)
    }

    pub fn judge(&self) -> Answer {
        let accepted = |design: &model::Design| Answer::Accepted {
            n: design.n,
            m: design.m,
        };
        self.simulator.design().map_or_else(refused, accepted)
    }

    fn feed(&self, buffers: &mut Buffers, last: u8) -> Answer {
        let (state, store, run) = (&mut buffers.state, &mut buffers.store, &buffers.run);
        let deciding = (&self.rules, self.certain);
        match feed(deciding, state.lend(), store.lend(), run.get(), last) {
            None => Answer::More,
            Some(model::Verdict::Accepted { n, m }) => Answer::Accepted { n, m },
            Some(model::Verdict::Refused { number, place }) => refused(Refusal { number, place }),
        }
    }
}

/// An edit as the model takes it.
fn edit(change: &Change) -> Edit {
    Edit::new(change.kind, change.number, change.value)
}

fn refused(refusal: Refusal) -> Answer {
    Answer::Refused {
        number: refusal.number,
        place: refusal.place as u64,
    }
}
