//! How far a command is, on a terminal, where it takes longer than a second.

use std::time::{Duration, Instant};

use indicatif::{ProgressBar, ProgressDrawTarget, ProgressStyle};

pub const PATIENCE: Duration = Duration::from_secs(1);

/// The clock is looked at once in so many clocks of the run.
const LOOK: usize = 256;

pub struct Progress {
    bar: ProgressBar,
    start: Instant,
    waits: bool,
}

impl Progress {
    /// Of a run. A bar is drawn only where nothing else is written to the terminal.
    pub fn of_clocks(clocks: usize, draws: bool) -> Progress {
        let template = "{bar:40} {pos} of {len} clocks, {eta} left";
        Progress::new(Some(clocks as u64), template, draws)
    }

    /// Of a file that comes in pieces.
    pub fn of_bytes() -> Progress {
        Progress::new(None, "{pos} bytes received", true)
    }

    fn new(most: Option<u64>, template: &str, draws: bool) -> Progress {
        let bar = ProgressBar::with_draw_target(most, ProgressDrawTarget::hidden());
        if let Ok(style) = ProgressStyle::with_template(template) {
            bar.set_style(style);
        }
        Progress {
            bar,
            start: Instant::now(),
            waits: draws,
        }
    }

    /// A clock was made.
    pub fn made(&mut self, clock: usize) {
        if clock.is_multiple_of(LOOK) {
            self.reached(clock);
        }
    }

    /// So many are there.
    pub fn reached(&mut self, count: usize) {
        if self.waits && self.start.elapsed() > PATIENCE {
            self.bar.set_draw_target(ProgressDrawTarget::stderr());
            self.waits = false;
        }
        self.bar.set_position(count as u64);
    }

    pub fn finish(&self) {
        self.bar.finish_and_clear();
    }
}
