//! The library's calls, and the second program's, on one file.

use crate::columns::NAMED;
use ::calls::{Answer, Change, Verdict, STATE, STORE};
use model::edits::Edit;
use model::{Simulator, Workings};
use std::hint::black_box;

#[derive(Clone, Copy, Debug, PartialEq)]
pub enum Call {
    Judge,
    Settle,
    Clock,
    EditInput,
    EditTable,
    PowerUp,
    ReadRecord,
    WriteRecord,
    Feed,
}

impl Call {
    pub const ALL: [Call; 9] = [
        Call::Judge,
        Call::Settle,
        Call::Clock,
        Call::EditInput,
        Call::EditTable,
        Call::PowerUp,
        Call::ReadRecord,
        Call::WriteRecord,
        Call::Feed,
    ];

    /// Those with an aim for their time.
    pub const TIMED: &'static [Call] = Call::ALL.split_at(5).0;

    pub fn name(self) -> &'static str {
        match self {
            Call::Judge => "judge",
            Call::Settle => "settle",
            Call::Clock => "clock",
            Call::EditInput => "edit input",
            Call::EditTable => "edit table",
            Call::PowerUp => "power up",
            Call::ReadRecord => "read record",
            Call::WriteRecord => "write record",
            Call::Feed => "feed",
        }
    }
}

/// A file and the buffers of its calls.
#[derive(Clone)]
pub struct Bench {
    pub(crate) file: Vec<u8>,
    pub(crate) contents: Vec<u64>,
    pub(crate) flops: Vec<u8>,
    pub(crate) inputs: Vec<u8>,
    pub(crate) values: Vec<u8>,
    record: Vec<u8>,
    body: Vec<u8>,
    store: Vec<u8>,
}

impl Bench {
    /// A file with its state at power-up and its values settled, where it is accepted: by the second program, so that a profiler
    /// sees no call of the library here. The record is the last one.
    pub fn new(file: Vec<u8>) -> Bench {
        let n = usize::from(file[3]);
        let record = file[file.len() - 130..][..127].to_vec();
        let mut bench = Bench {
            contents: vec![0; 4 * n],
            flops: vec![0; n],
            inputs: vec![1; usize::from(file[4])],
            values: vec![0; 32 * n],
            body: record[3..].to_vec(),
            record,
            file,
            store: vec![0; STORE],
        };
        bench.model(Call::PowerUp);
        bench.model(Call::Settle);
        bench
    }

    /// The column of 64 slices of a name, if there is one.
    pub fn find(name: &str) -> Option<Bench> {
        let (_, column) = NAMED.iter().find(|(known, _)| *known == name)?;
        Some(Bench::new(column(64).bytes()))
    }

    /// The column of 64 slices of a name that there is.
    pub fn named(name: &str) -> Bench {
        Bench::find(name).expect("a column's name")
    }

    /// The bytes of the file.
    pub fn length(&self) -> usize {
        self.file.len()
    }

    /// Calls the library. An edit alone changes input 0 or table 0, each time to another value. A reader is fed the file and its end at once.
    pub fn library(&mut self, call: Call) -> Answer {
        let Bench {
            file,
            contents,
            flops,
            inputs,
            values,
            record,
            body,
            store,
        } = self;
        let (n, m) = (flops.len(), inputs.len());
        match call {
            Call::Judge => ::calls::judge(file).map(|_| ()),
            Call::Settle => ::calls::settle(file, contents, flops, inputs, values),
            Call::Clock => ::calls::clock(file, contents, flops, inputs, values),
            Call::EditInput => {
                let edit = Change::input(0, 1 - inputs[0]);
                ::calls::edit(file, contents, flops, inputs, values, &[edit])
            }
            Call::EditTable => {
                let edit = Change::table(0, !contents[0]);
                ::calls::edit(file, contents, flops, inputs, values, &[edit])
            }
            Call::PowerUp => ::calls::power_up(file, contents, flops),
            Call::ReadRecord => ::calls::read_record(record, n, m, body),
            Call::WriteRecord => ::calls::write_record(body, n, m, record),
            Call::Feed => heard(::calls::feed(&mut [0; STATE], store, file, 1)),
        }
    }

    /// A list of so many edits, of inputs and tables in turn from the first ones on, each to another value than it has.
    pub fn edits(&self, count: usize) -> Vec<Change> {
        let edit = |i: usize| match (i % 2, i / 2) {
            (0, pair) => {
                let input = pair % self.inputs.len();
                Change::input(input, 1 - self.inputs[input])
            }
            (_, pair) => {
                let table = pair % self.contents.len();
                Change::table(table, !self.contents[table])
            }
        };
        (0..count).map(edit).collect()
    }

    /// Makes the edits of a list in one call of the library.
    pub fn edit(&mut self, edits: &[Change]) -> Answer {
        let (contents, inputs) = (&mut self.contents, &mut self.inputs);
        ::calls::edit(
            &self.file,
            contents,
            &self.flops,
            inputs,
            &mut self.values,
            edits,
        )
    }

    /// Feeds the file to a fresh reader in runs of so many bytes, and ends it.
    pub fn feed_in_runs(&mut self, length: usize) -> Answer {
        let mut state = [0; STATE];
        for run in self.file.chunks(length) {
            heard(::calls::feed(&mut state, &mut self.store, run, 0))?;
        }
        heard(::calls::feed(&mut state, &mut self.store, &[], 1))
    }

    /// Calls the second program, which is given the file anew in every call, as the library is.
    pub fn model(&mut self, call: Call) -> bool {
        if call == Call::Judge {
            return matches!(model::judge(&self.file), model::Verdict::Accepted { .. });
        }
        let column = Simulator::new(Workings::paper(), &self.file);
        let (contents, flops) = (&mut self.contents, &mut self.flops);
        let (inputs, values) = (&mut self.inputs, &mut self.values);
        let answer = match call {
            Call::Settle => column.settle(contents, flops, inputs, values),
            Call::Clock => column.clock(contents, flops, inputs, values),
            Call::EditInput => {
                let edit = Edit::new(0, 0, (1 - inputs[0]).into());
                column.edit(contents, flops, inputs, values, &[edit])
            }
            Call::EditTable => {
                let edit = Edit::new(1, 0, !contents[0]);
                column.edit(contents, flops, inputs, values, &[edit])
            }
            Call::PowerUp => column.power_up(contents, flops),
            _ => panic!("the second program has no call {call:?}"),
        };
        answer.is_ok()
    }
}

/// What a reader said, if it refused.
fn heard(verdict: Option<Verdict>) -> Answer {
    verdict.map_or(Ok(()), |verdict| verdict.map(|_| ()))
}

/// A call of the library, to be timed.
pub fn on_library(mut bench: Bench, call: Call) -> Box<dyn FnMut()> {
    Box::new(move || {
        let _ = black_box(bench.library(call));
    })
}

/// A call of the library with a list of so many edits, to be timed: each time every input and table of it takes its other value.
pub fn on_list(mut bench: Bench, count: usize) -> Box<dyn FnMut()> {
    let there = bench.edits(count);
    let _ = bench.edit(&there);
    let mut lists = [bench.edits(count), there];
    Box::new(move || {
        let _ = black_box(bench.edit(&lists[0]));
        lists.swap(0, 1);
    })
}

/// The calls of the library that take a file in runs of so many bytes, to be timed.
pub fn on_runs(mut bench: Bench, length: usize) -> Box<dyn FnMut()> {
    Box::new(move || {
        let _ = black_box(bench.feed_in_runs(length));
    })
}

/// A call of the second program, to be timed.
pub fn on_model(mut bench: Bench, call: Call) -> Box<dyn FnMut()> {
    Box::new(move || {
        black_box(bench.model(call));
    })
}
