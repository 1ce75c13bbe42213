//! Edits before clocks of a run.

use model::layout::LETTERS;
use quagmuffin::{Change, Column, MOST_EDITS};
use text::contents;
use text::lines::{lines, Line, Mistake};
use text::names::table_named;
use text::parse::input;
use text::Names;

use crate::args::Run;
use crate::failure::{name, Failure, Outcome};
use crate::source::{self, LONGEST_TEXT};

/// A change and the clock that it comes before.
type Edit = (usize, Change);

/// The edits of a run, by their clocks.
pub struct Edits {
    clocks: Vec<usize>,
    changes: Vec<Change>,
}

impl Edits {
    /// Those of the words, then those of the file. All before one clock go to the library in one call, so there can't be more than that takes.
    pub fn read(words: &Run, names: &Names, column: &Column, clocks: usize) -> Outcome<Edits> {
        let reader = Reader {
            names,
            column,
            clocks,
        };
        let mut edits = vec![];
        for text in &words.edit {
            edits.extend(reader.edits("--edit", text)?);
        }
        if let Some(path) = &words.edits {
            let text = source::any_text(path, LONGEST_TEXT)?;
            edits.extend(reader.edits(&name(path), &text)?);
        }
        edits.sort_by_key(|&(clock, _)| clock);
        let (clocks, changes) = edits.into_iter().unzip();
        let edits = Edits { clocks, changes };
        let counted = |&clock: &usize| (clock, edits.before(clock).len());
        let mut counts = edits.clocks.iter().map(counted);
        match counts.find(|&(_, count)| count > MOST_EDITS) {
            Some((clock, count)) => Err(too_many(clock, count)),
            None => Ok(edits),
        }
    }

    /// The edits before a clock, in their order.
    pub fn before(&self, clock: usize) -> &[Change] {
        let start = self.clocks.partition_point(|&other| other < clock);
        let end = self.clocks.partition_point(|&other| other <= clock);
        &self.changes[start..end]
    }
}

fn too_many(clock: usize, count: usize) -> Failure {
    Failure::of(format!(
        "{count} edits before clock {clock}: at most {MOST_EDITS} are made before one clock"
    ))
}

/// What an edit can speak of: the names of the text, the column's inputs and tables, the clocks of the run.
struct Reader<'a> {
    names: &'a Names,
    column: &'a Column,
    clocks: usize,
}

impl Reader<'_> {
    /// An edit on each line of a text.
    fn edits(&self, name: &str, text: &str) -> Outcome<Vec<Edit>> {
        let edits = lines(text).map(|line| self.edit(&mut line?));
        let edits: Result<_, _> = edits.collect();
        edits.map_err(|mistake| source::mistaken(name, text, &mistake))
    }

    /// `3: in 0 = 1` or `8: s0.A = A1 & A2`.
    fn edit(&self, line: &mut Line) -> Result<Edit, Mistake> {
        let clocks = self.clocks;
        let no_clock = line.mistake(&format!(
            "a clock below {clocks} is due, since the run has {clocks}"
        ));
        let clock = line.number(clocks - 1).map_err(|_| no_clock)?;
        due(line, ":")?;
        let size = self.column.size();
        let table = line.peek().and_then(table_named);
        let change = match table.filter(|&table| table < size.tables()) {
            Some(table) => {
                line.skip();
                due(line, "=")?;
                self.table(line, table)?
            }
            None => {
                let what = format!(
                    "a table of the column (`s0.A`) or one of its {} inputs (`in 0`) is due",
                    size.m
                );
                let input = input(line, self.names, size.m, &what)?;
                due(line, "=")?;
                Change::input(input, line.number(1)? as u8)
            }
        };
        line.ended()?;
        Ok((clock, change))
    }

    /// New contents. Those that a table in shift mode can't hold are tried on a copy of the column: what the library refuses is told before the run.
    fn table(&self, line: &mut Line, table: usize) -> Result<Change, Mistake> {
        let here = line.mistake("refused 11 0: in shift mode a table holds 32 bits");
        let word = contents::parse(line, table % LETTERS.len())?;
        let change = Change::table(table, word);
        let tried = || self.column.clone().edit(&[change]);
        match word >> 32 == 0 || tried().is_ok() {
            true => Ok(change),
            false => Err(here),
        }
    }
}

fn due(line: &mut Line, symbol: &str) -> Result<(), Mistake> {
    match line.take(symbol) {
        true => Ok(()),
        false => Err(line.mistake(&format!(
            "a `{symbol}` is due, as in `3: in 0 = 1` or `8: s0.A = A1 & A2`"
        ))),
    }
}
