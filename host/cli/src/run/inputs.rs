//! The outside inputs of a run, clock by clock.

use export::bench::MOST_CLOCKS;
use text::lines::{lines, Line, Mistake};
use text::parse::input;
use text::Names;

use crate::args::Stimulus;
use crate::failure::{name, Outcome};
use crate::source;

/// The clocks of a run where nothing says how many.
const USUAL_CLOCKS: usize = 10;

/// The bytes of a line for each clock, with 64 digits and a space after each.
const LONGEST: usize = MOST_CLOCKS * 128;

/// How many clocks there are, and the inputs of the first of them.
#[derive(Debug, PartialEq)]
pub struct Inputs {
    pub clocks: usize,
    m: usize,
    /// The inputs that a row gives.
    given: Vec<usize>,
    rows: Vec<Vec<u8>>,
}

impl Inputs {
    pub fn read(stimulus: &Stimulus, names: &Names, m: usize) -> Outcome<Inputs> {
        let (given, rows) = match &stimulus.inputs {
            None => (vec![], vec![]),
            Some(path) => {
                let text = source::any_text(path, LONGEST)?;
                parse(&text, names, m)
                    .map_err(|mistake| source::mistaken(&name(path), &text, &mistake))?
            }
        };
        let clocks = match (stimulus.clocks, rows.len()) {
            (Some(clocks), _) => clocks,
            (None, 0) => USUAL_CLOCKS,
            (None, rows) => rows,
        };
        Ok(Inputs {
            clocks,
            m,
            given,
            rows,
        })
    }

    /// Sets the inputs that a clock's row gives; without a row all stay as they are.
    pub fn set(&self, clock: usize, inputs: &mut [u8]) {
        let row = self.rows.get(clock).into_iter().flatten();
        for (&input, &bit) in self.given.iter().zip(row) {
            inputs[input] = bit;
        }
    }

    /// All inputs of each clock that has a row, as digits.
    pub fn digits(&self) -> Vec<String> {
        let mut inputs = vec![0; self.m];
        let digits = |clock| {
            self.set(clock, &mut inputs);
            inputs.iter().map(u8::to_string).collect()
        };
        (0..self.rows.len().min(self.clocks)).map(digits).collect()
    }
}

/// The inputs that are given, and a row for each clock.
fn parse(text: &str, names: &Names, m: usize) -> Result<(Vec<usize>, Vec<Vec<u8>>), Mistake> {
    let mut given = None;
    let mut rows = vec![];
    for line in lines(text) {
        let mut line = line?;
        if rows.is_empty() && given.is_none() && line.peek() == Some("inputs") {
            given = Some(header(&mut line, names, m)?);
            continue;
        }
        if rows.len() == MOST_CLOCKS {
            return Err(line.mistake(&format!("there are at most {MOST_CLOCKS} lines of inputs")));
        }
        rows.push(row(&mut line, given.as_ref().map_or(m, Vec::len))?);
    }
    match rows.is_empty() {
        true => Err(Mistake::of_all("no line of inputs")),
        false => Ok((given.unwrap_or((0..m).collect()), rows)),
    }
}

/// `inputs step in3 0`: by name or by number.
fn header(line: &mut Line, names: &Names, m: usize) -> Result<Vec<usize>, Mistake> {
    line.skip();
    let due = format!("one of the column's {m} inputs is due, by name or number");
    let mut given = vec![];
    while line.peek().is_some() {
        let twice = line.mistake("this input is given already");
        let next = input(line, names, m, &due)?;
        if given.contains(&next) {
            return Err(twice);
        }
        given.push(next);
    }
    Ok(given)
}

/// Digits, with or without spaces between them.
fn row(line: &mut Line, count: usize) -> Result<Vec<u8>, Mistake> {
    let mut bits = vec![];
    while let Some(word) = line.peek() {
        let is_bits = word.bytes().all(|x| matches!(x, b'0' | b'1'));
        if !is_bits || bits.len() + word.len() > count {
            return Err(line.mistake(&wanted(count)));
        }
        bits.extend(word.bytes().map(|x| x - b'0'));
        line.skip();
    }
    match bits.len() == count {
        true => Ok(bits),
        false => Err(line.mistake(&wanted(count))),
    }
}

fn wanted(count: usize) -> String {
    format!("a digit 0 or 1 is due for each input that is given, {count} in all")
}
