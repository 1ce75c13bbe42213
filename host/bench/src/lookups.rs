//! Look-ups to be timed: random words, random picks of their bits, and what the second program makes of both.

use crate::calls::{Bench, Call};
use crate::ways::Way;
use model::design::SIGNALS;
use model::layout::*;
use testkit::column::Column;
use testkit::prng::Prng;

/// The same words in every run.
const SEED: u64 = 20_261_117;
/// The places of a word.
const PLACES: usize = 64;
/// The picks of a row.
const PICKS: usize = 1 << 16;

/// The words of a column of 64 slices, each pin of whose tables is an outside input.
pub struct Lookups {
    bench: Bench,
    /// The signals with the inputs at each place, by the second program.
    settled: Vec<Vec<u8>>,
    picks: Vec<u16>,
}

impl Lookups {
    pub fn random() -> Lookups {
        let mut rng = Prng::new(SEED);
        let mut bench = Bench::new(column(&mut rng).bytes());
        let settled = (0..PLACES).map(|place| settled(&mut bench, place));
        let settled = settled.collect();
        let count = PLACES * bench.contents.len();
        let picks = (0..PICKS).map(|_| rng.below(count) as u16).collect();
        Lookups {
            bench,
            settled,
            picks,
        }
    }

    pub fn words(&self) -> &[u64] {
        &self.bench.contents
    }

    pub fn picks(&self) -> &[u16] {
        &self.picks
    }

    /// The bit that a pick names, so many places on, by the second program.
    fn bit(&self, pick: u16, on: u64) -> u64 {
        let table = usize::from(pick) / PLACES;
        let place = (usize::from(pick) + on as usize) % PLACES;
        u64::from(self.settled[place][SIGNALS * (table / 4) + table % 4])
    }

    /// The sums of a row by the second program: each look-up by itself, and in a chain.
    fn sums(&self, picks: &[u16]) -> [u64; 2] {
        let apart = picks.iter().map(|&pick| self.bit(pick, 0));
        let chained = picks.iter().scan(0, |last, &pick| {
            *last = self.bit(pick, *last);
            Some(*last)
        });
        [apart.sum(), chained.sum()]
    }

    /// Where a way first differs from the second program, if it does: at each place of each word, in a row of picks, and in a settle.
    pub fn check(&mut self, way: &Way) -> Result<(), String> {
        for (table, word) in self.words().iter().enumerate() {
            for place in 0..PLACES {
                let pick = (PLACES * table + place) as u16;
                self.check_row(way, &[pick], || format!("place {place} of {word:#018x}"))?;
            }
        }
        let row = || format!("a row of {} look-ups", self.picks.len());
        self.check_row(way, &self.picks, row)?;
        (0..PLACES).try_for_each(|place| self.check_settle(way, place))
    }

    fn check_row(&self, way: &Way, picks: &[u16], what: impl Fn() -> String) -> Result<(), String> {
        let words = self.words();
        let sums = [way.apart(words, picks), way.chained(words, picks)];
        for ((row, sum), expected) in ["apart", "chained"].iter().zip(sums).zip(self.sums(picks)) {
            if sum != expected {
                let (name, what) = (&way.name, what());
                return Err(format!(
                    "{name}, {row}: {what} gives {sum}, by the second program {expected}"
                ));
            }
        }
        Ok(())
    }

    fn check_settle(&mut self, way: &Way, place: usize) -> Result<(), String> {
        self.bench.inputs = inputs(place);
        self.bench.values.fill(2);
        let answer = way.settle(&mut self.bench);
        let pairs = self.bench.values.iter().zip(&self.settled[place]);
        let name = format!("{}: the settle with the inputs at place {place}", way.name);
        match pairs
            .enumerate()
            .find(|(_, (value, expected))| value != expected)
        {
            _ if answer != 0 => Err(format!("{name} answers {answer}")),
            Some((x, (value, expected))) => Err(format!(
                "{name} gives {value} for signal {x}, by the second program {expected}"
            )),
            None => Ok(()),
        }
    }
}

/// 64 slices of random words, all pins 1 to 6 of which are the inputs 0 to 5.
fn column(rng: &mut Prng) -> Column {
    let mut column = Column::zeros(64, TABLE_PINS as u8);
    for slice in 0..column.slices.len() {
        for letter in LETTERS {
            column.fill(slice, letter, rng.number());
            for pin in 1..=TABLE_PINS {
                let code = INPUT_CODES + pin as u16 - 1;
                column.drive(slice, table_pin(letter, pin), code);
            }
        }
    }
    column
}

/// The inputs that have every table look at a place.
fn inputs(place: usize) -> Vec<u8> {
    (0..TABLE_PINS)
        .map(|pin| (place >> pin & 1) as u8)
        .collect()
}

fn settled(bench: &mut Bench, place: usize) -> Vec<u8> {
    bench.inputs = inputs(place);
    assert!(bench.model(Call::Settle), "the second program accepts it");
    bench.values.clone()
}
