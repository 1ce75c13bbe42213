//! A table for the terminal.

use quagmuffin::Column;

use super::watch::Watched;
use super::Output;
use crate::failure::Outcome;
use crate::output::Sink;

/// The first column has the clocks, up to 999999.
const CLOCK: &str = "clock ";

pub struct Table {
    to: Sink,
    watched: Vec<Watched>,
}

impl Table {
    /// Writes the titles.
    pub fn begin(mut to: Sink, watched: Vec<Watched>) -> Outcome<Table> {
        let titles: String = watched.iter().map(|one| cell(one, &one.title)).collect();
        to.write(format!("{CLOCK}{titles}\n"))?;
        Ok(Table { to, watched })
    }
}

impl Output for Table {
    fn row(&mut self, clock: usize, column: &Column) -> Outcome<()> {
        let values = self.watched.iter().map(|one| cell(one, &one.value(column)));
        let values: String = values.collect();
        self.to
            .write(format!("{clock:>width$}{values}\n", width = CLOCK.len()))
    }

    fn finish(&mut self, _clocks: usize) -> Outcome<()> {
        self.to.flush()
    }
}

/// A text in a column's width.
fn cell(one: &Watched, text: &str) -> String {
    let width = one.title.len().max(one.width());
    format!("  {text:>width$}")
}
