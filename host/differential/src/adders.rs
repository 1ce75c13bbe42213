//! Carry chains as adders: columns that were wired for chosen numbers, and the chains of any file.

use model::adders::{Numbers, Row};
use model::{Design, Rules};
use testkit::adders::{columns, AdderColumn};
use testkit::prng::Prng;
use workbench::Workbench;

use crate::calls::{Answer, Buffers, Call, Caller, Model};
use crate::columns::{lent, scramble};
use crate::comparison::{Case, Compared, Comparison, Difference, Sides};
use crate::Counts;

/// An adder column, its place among those of the seed, and the model of it.
pub struct Subject {
    pub number: usize,
    pub column: AdderColumn,
    pub model: Model,
}

/// What a column that adds has shown.
pub struct Added {
    pub numbers: Numbers,
    pub counts: Counts,
}

/// The adder columns of a seed.
pub fn subjects(seed: u64, times: usize) -> Vec<Subject> {
    let columns = columns(seed, times).into_iter().enumerate();
    let subject = |(number, column): (usize, AdderColumn)| {
        let model = Model::of(&column.file);
        Subject {
            number,
            column,
            model,
        }
    };
    columns.map(subject).collect()
}

impl Subject {
    /// The column, decoded.
    pub fn design(&self) -> &Design {
        let judged = self.model.simulator.design();
        judged.expect("an adder column is accepted")
    }

    /// The buffers before the first call.
    fn buffers(&self) -> Buffers {
        let mut bench = Workbench::of(self.column.file.clone());
        bench.inputs.lend().copy_from_slice(&self.column.inputs);
        Buffers::of_column(bench)
    }

    /// The numbers at the adder once it is powered up and settled.
    pub fn settled_by(&self, caller: &Caller) -> Numbers {
        let mut buffers = self.buffers();
        for call in [Call::PowerUp, Call::Settle] {
            caller(call, &mut buffers);
        }
        read(self.design(), self.column.row, &buffers)
    }

    /// Settles the column by the library and by the model: both accept it, give the same values, and add the numbers that were chosen for it.
    pub fn compare(&self, library: &Caller, seed: u64) -> Compared<Added> {
        let name = format!("{seed}-adder-{}", self.number);
        let model = |call, buffers: &mut Buffers| self.model.call(call, buffers);
        let sides = Sides::new(library, &model);
        let mut pair = Comparison::new(name.clone(), sides, self.buffers());
        for call in [Call::Judge, Call::PowerUp, Call::Settle] {
            pair.call(call)?;
        }
        let numbers = read(self.design(), self.column.row, &pair.buffers);
        if let Some(text) = mistake(&self.column, &numbers) {
            return Err(of_settle(name, pair.buffers, text));
        }
        pair.counts.files = 1;
        Ok(Added {
            numbers,
            counts: pair.counts,
        })
    }
}

/// What isn't as it was chosen for a column, if anything.
pub fn mistake(column: &AdderColumn, read: &Numbers) -> Option<String> {
    let (result, right) = (read.result(), column.addends.total());
    if result != right {
        return Some(format!("the sums give {result}, not {right}"));
    }
    let others = || format!("{:?} added, not {:?}", read.addends, column.addends);
    (read.addends != column.addends).then(others)
}

/// What isn't as the numbers read have it, if anything.
pub fn unequal(read: &Numbers) -> Option<String> {
    let text = || format!("{} isn't {}", read.result(), read.addends.total());
    (!read.adds()).then(text)
}

/// Settles a file from a random state by the library, if it is accepted: all its chains that are looked at have to add. These are given.
pub fn compare_chains(
    number: usize,
    file: &[u8],
    library: &Caller,
    seed: u64,
) -> Compared<Vec<Row>> {
    let mut rng = Prng::new(seed ^ (number as u64) << 32);
    let mut buffers = Buffers::of_column(lent(&mut rng, file));
    let Answer::Accepted { n, m } = library(Call::Judge, &mut buffers) else {
        return Ok(vec![]);
    };
    let design = Design::decode(&Rules::paper(), file, n, m);
    scramble(&mut rng, &design, &mut buffers.column);
    let answer = library(Call::Settle, &mut buffers);
    let chains = chains(&mut rng, &design);
    let wrong = |&row: &Row| {
        let text = unequal(&read(&design, row, &buffers))?;
        Some(format!("{row:?}: {text}"))
    };
    let text = match answer {
        Answer::Done => chains.iter().find_map(wrong),
        _ => Some(format!("the library answers {answer}")),
    };
    match text {
        None => Ok(chains),
        Some(text) => Err(of_settle(format!("{seed}-chain-{number}"), buffers, text)),
    }
}

/// From each slice the longest chain, and one that may be shorter.
fn chains(rng: &mut Prng, design: &Design) -> Vec<Row> {
    let longest = |base| {
        let rows = (1..=design.n - base).map(|height| Row { base, height });
        rows.take_while(|row| row.is_chain(design)).last()
    };
    let mut shorter = |row: Row| {
        let height = rng.from_to(1, row.height);
        [row, Row { height, ..row }]
    };
    let longest = (0..design.n).filter_map(longest);
    longest.flat_map(&mut shorter).collect()
}

/// The numbers at a row, as the buffers have them.
fn read(design: &Design, row: Row, buffers: &Buffers) -> Numbers {
    let (inputs, values) = (buffers.column.inputs.get(), buffers.column.values.get());
    Numbers::read(design, row, inputs, values)
}

/// A settle of these buffers that isn't right.
fn of_settle(name: String, buffers: Buffers, text: String) -> Box<Difference> {
    let call = Call::Settle;
    let case = Case { call, buffers };
    Box::new(Difference { name, case, text })
}
