//! Comma-separated values. No title has a comma or a quote, so none needs quoting.

use quagmuffin::Column;

use super::watch::Watched;
use super::Output;
use crate::failure::Outcome;
use crate::output::Sink;

pub struct Csv {
    to: Sink,
    watched: Vec<Watched>,
}

impl Csv {
    /// Writes the titles.
    pub fn begin(mut to: Sink, watched: Vec<Watched>) -> Outcome<Csv> {
        let titles: String = watched
            .iter()
            .map(|one| format!(",{}", one.title))
            .collect();
        to.write(format!("clock{titles}\n"))?;
        Ok(Csv { to, watched })
    }
}

impl Output for Csv {
    fn row(&mut self, clock: usize, column: &Column) -> Outcome<()> {
        let values = self
            .watched
            .iter()
            .map(|one| format!(",{}", one.value(column)));
        let values: String = values.collect();
        self.to.write(format!("{clock}{values}\n"))
    }

    fn finish(&mut self, _clocks: usize) -> Outcome<()> {
        self.to.flush()
    }
}
