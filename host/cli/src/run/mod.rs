//! Runs a design by the library's calls.

mod csv;
mod edits;
pub mod inputs;
mod table;
mod vcd;
mod watch;

use std::io::{stdout, IsTerminal};
use std::path::Path;

use quagmuffin::{Accepted, Answer, Change, Column, Refused};

use crate::args::Run;
use crate::failure::{Failure, Outcome};
use crate::output::{Sink, Used};
use crate::progress::Progress;
use crate::source::{self, Design};
use csv::Csv;
use edits::Edits;
use inputs::Inputs;
use table::Table;
use vcd::Vcd;

/// Takes the rows of a run.
trait Output {
    /// The values settled before a clock's edge.
    fn row(&mut self, clock: usize, column: &Column) -> Outcome<()>;

    /// All rows were taken.
    fn finish(&mut self, clocks: usize) -> Outcome<()>;
}

pub fn run(words: &Run) -> Outcome<u8> {
    let design = source::design(&words.file)?;
    let mut column = design.column()?;
    let inputs = Inputs::read(&words.stimulus, &design.names, column.size().m)?;
    let edits = Edits::read(words, &design.names, &column, inputs.clocks)?;
    let mut outputs = outputs(words, &design, column.size())?;
    let mut progress = Progress::of_clocks(inputs.clocks, !writes_to_terminal(words));
    for clock in 0..inputs.clocks {
        inputs.set(clock, column.inputs_mut());
        clocked(&mut column, edits.before(clock)).map_err(|refused| not_run(clock, refused))?;
        for output in &mut outputs {
            output.row(clock, &column)?;
        }
        progress.made(clock);
    }
    progress.finish();
    for mut output in outputs {
        output.finish(inputs.clocks)?;
    }
    Ok(0)
}

/// The edits before a clock, in one call where there are any, and the clock, which settles the values itself.
fn clocked(column: &mut Column, edits: &[Change]) -> Answer {
    if !edits.is_empty() {
        column.edit(edits)?;
    }
    column.clock()
}

/// The library refused what was looked at before: that is no affair of the file's.
fn not_run(clock: usize, refused: Refused) -> Failure {
    Failure::of(format!("at clock {clock}: {refused}"))
}

/// The table, or the files in its place. All are opened before the first is written.
fn outputs(words: &Run, design: &Design, size: Accepted) -> Outcome<Vec<Box<dyn Output>>> {
    let chosen = match words.watch.is_empty() {
        true => None,
        false => Some(watch::chosen(&words.watch, design, size)?),
    };
    let waves = chosen.clone().unwrap_or_else(|| watch::all(design, size));
    let values = chosen.map_or_else(|| watch::usual(design, size), Ok)?;
    let mut used = Used::by_reading(words.read_files());
    let mut open = |path: Option<&Path>| path.map(|path| used.open(path)).transpose();
    let (vcd, csv) = (open(words.vcd.as_deref())?, open(words.csv.as_deref())?);
    let mut outputs: Vec<Box<dyn Output>> = vec![];
    if let Some(sink) = vcd {
        outputs.push(Box::new(Vcd::begin(sink, &waves)?));
    }
    if let Some(sink) = csv {
        outputs.push(Box::new(Csv::begin(sink, values)?));
    } else if outputs.is_empty() {
        outputs.push(Box::new(Table::begin(Sink::standard_output(), values)?));
    }
    Ok(outputs)
}

/// Whether the terminal shows the rows, so that nothing else can be drawn on it.
fn writes_to_terminal(words: &Run) -> bool {
    let files = [words.vcd.as_deref(), words.csv.as_deref()];
    let shows_rows = files == [None, None] || files.contains(&Some(Path::new("-")));
    shows_rows && stdout().is_terminal()
}
