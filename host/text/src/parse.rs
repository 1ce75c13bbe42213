//! Text as a file.

use std::collections::HashMap;

use model::design::SIGNALS;
use model::layout::{OPEN_CODE, SLICE_BODY};

use crate::contents;
use crate::fields::{fields, kind, Field, Kind, NONE};
use crate::lines::{lines, Line, Mistake};
use crate::names::{self, Wire};
use crate::records::Records;

/// A name that a text gives: its wires, the lowest first, and whether the highest one is the sign of a number.
#[derive(Clone, Debug, PartialEq)]
pub struct Name {
    pub word: String,
    pub wires: Vec<Wire>,
    pub signed: bool,
}

/// The names of a text, in their order.
pub type Names = [Name];

/// What a text holds.
#[derive(Clone, Debug, PartialEq)]
pub struct Parsed {
    pub records: Records,
    pub names: Vec<Name>,
}

/// The most wires that a name can stand for.
const MOST_WIRES: usize = 64;

/// Words that are no names: they stand for something else in a text, in inputs or in what a run writes.
const KEPT: [&str; 7] = [
    "in",
    "code",
    names::OPEN,
    "inputs",
    "signed",
    "clock",
    "clk",
];

/// Reads a text.
pub fn parse(text: &str) -> Result<Parsed, Mistake> {
    let mut reader = Reader {
        fields: fields(),
        size: [None, None],
        slices: vec![],
        current: None,
        seen: HashMap::new(),
        names: vec![],
        named: vec![],
    };
    for line in lines(text) {
        let mut line = line?;
        reader.statement(&mut line)?;
        line.ended()?;
    }
    reader.finish()
}

struct Reader {
    fields: Vec<Field>,
    /// n and m.
    size: [Option<u8>; 2],
    slices: Vec<[u8; SLICE_BODY]>,
    /// The slice that lines are about.
    current: Option<usize>,
    /// The line on which something was said that is said once.
    seen: HashMap<String, usize>,
    names: Vec<Name>,
    /// The wires that have a name, each with what to say where the column doesn't have it.
    named: Vec<(Wire, Mistake)>,
}

impl Reader {
    fn finish(self) -> Result<Parsed, Mistake> {
        let [Some(n), m] = self.size else {
            return Err(Mistake::of_all(
                "no line says how many slices there are, as `slices 2` does",
            ));
        };
        let m = m.unwrap_or(0);
        let is_missing = |wire: Wire| match wire {
            Wire::Input(input) => input >= usize::from(m),
            Wire::Signal(signal) => signal >= SIGNALS * usize::from(n),
        };
        if let Some((_, mistake)) = self.named.into_iter().find(|(wire, _)| is_missing(*wire)) {
            return Err(mistake);
        }
        let slices = self.slices;
        Ok(Parsed {
            records: Records { n, m, slices },
            names: self.names,
        })
    }

    fn statement(&mut self, line: &mut Line) -> Result<(), Mistake> {
        match line.peek() {
            Some("slices") => self.size(line, 0),
            Some("inputs") => self.size(line, 1),
            Some("slice") => self.slice(line),
            Some("name") => self.name(line),
            _ => self.field(line),
        }
    }

    /// Notes that something is said, where it wasn't before.
    fn once(&mut self, line: &Line, what: String) -> Result<(), Mistake> {
        match self.seen.get(&what) {
            Some(before) => Err(line.mistake(&format!("line {before} has said this already"))),
            None => {
                self.seen.insert(what, line.number);
                Ok(())
            }
        }
    }

    /// `slices 2` or `inputs 3`.
    fn size(&mut self, line: &mut Line, which: usize) -> Result<(), Mistake> {
        self.once(line, line.peek().unwrap_or_default().to_string())?;
        line.skip();
        let count = line.number(255)? as u8;
        self.size[which] = Some(count);
        if which == 0 {
            self.slices = Records::zeros(count, 0).slices;
        }
        Ok(())
    }

    /// `slice 3 SLICEM`.
    fn slice(&mut self, line: &mut Line) -> Result<(), Mistake> {
        let last = match self.size[0] {
            None => {
                return Err(line.mistake("a line such as `slices 2` has to stand before the slices"))
            }
            Some(0) => return Err(line.mistake("the column has no slices, as `slices 0` says")),
            Some(n) => usize::from(n) - 1,
        };
        line.skip();
        self.once(line, format!("slice {}", line.peek().unwrap_or_default()))?;
        let number = line.number(last)?;
        self.current = Some(number);
        match line.peek() {
            Some(_) => value(line, &kind(), &[], &mut self.slices[number]),
            None => Ok(()),
        }
    }

    /// `name step = in 0`; more than one wire stand for a number, the lowest first, with a sign after `signed`.
    fn name(&mut self, line: &mut Line) -> Result<(), Mistake> {
        line.skip();
        let word = line.peek().unwrap_or_default();
        if !is_name(word) {
            let kept = KEPT.join(", ");
            return Err(line.mistake(&format!("a name is a word of small letters, digits and _ that begins with a letter, and not s0, in3 or one of {kept}")));
        }
        self.once(line, format!("name {word}"))?;
        line.skip();
        if !line.take("=") {
            return Err(line.mistake("a `=` is due, as in `name step = in 0`"));
        }
        let signed = line.take("signed");
        let mut wires = vec![];
        while wires.is_empty() || line.peek().is_some() {
            if wires.len() == MOST_WIRES {
                return Err(line.mistake(&format!("a name has at most {MOST_WIRES} wires")));
            }
            let missing = line.mistake("the column doesn't have it");
            let due = "an input (`in 3`), a signal (`s0.AQ`) or a name given before is due";
            wires.push(wire(line, &self.names, due)?);
            self.named.extend(wires.last().map(|&wire| (wire, missing)));
        }
        let word = word.to_string();
        self.names.push(Name {
            word,
            wires,
            signed,
        });
        Ok(())
    }

    /// A field of the slice that lines are about.
    fn field(&mut self, line: &mut Line) -> Result<(), Mistake> {
        // `SR` and `SR =` both begin a field: the longer one is meant.
        let starting = |field: &&Field| line.starts_with(&field.words);
        let field = self
            .fields
            .iter()
            .filter(|x| starting(x).is_some())
            .max_by_key(starting);
        let Some(field) = field.cloned() else {
            return Err(line.mistake("no line begins so; docs/TEXT.md has the lines there are"));
        };
        let Some(current) = self.current else {
            return Err(line.mistake("a line such as `slice 0` has to stand before this one"));
        };
        self.once(line, format!("{current} {}", field.words))?;
        (0..field.words.split(' ').count()).for_each(|_| line.skip());
        value(line, &field, &self.names, &mut self.slices[current])
    }
}

/// Whether a word can be given as a name.
fn is_name(word: &str) -> bool {
    let lowercase = |x: char| x.is_ascii_lowercase() || x.is_ascii_digit() || x == '_';
    let begins = word.starts_with(|x: char| x.is_ascii_lowercase());
    let is_numbered = |start| {
        let digits = word.strip_prefix(start).unwrap_or("x");
        digits.bytes().all(|x| x.is_ascii_digit())
    };
    let is_taken = KEPT.contains(&word) || is_numbered("in") || is_numbered("s");
    begins && word.chars().all(lowercase) && !is_taken
}

/// Reads a field's value into a slice's body.
fn value(
    line: &mut Line,
    field: &Field,
    names: &Names,
    body: &mut [u8; SLICE_BODY],
) -> Result<(), Mistake> {
    let bytes = &mut body[field.bytes.clone()];
    match &field.kind {
        Kind::Choice(names) => bytes[0] = choice(line, names)?,
        Kind::Contents(letter) => {
            bytes.copy_from_slice(&contents::parse(line, *letter)?.to_le_bytes())
        }
        Kind::Driver => bytes.copy_from_slice(&driver(line, names)?.to_le_bytes()),
        Kind::Flops => bytes[0] = flops(line)?,
    }
    Ok(())
}

/// A choice by its name, or `choice 7`.
fn choice(line: &mut Line, names: &[String]) -> Result<u8, Mistake> {
    if line.take("choice") {
        return Ok(line.number(255)? as u8);
    }
    let place = names.iter().position(|name| line.peek() == Some(name));
    let mistake = || line.mistake(&format!("{} or `choice 7` is due", names.join(", ")));
    let place = place.ok_or_else(mistake)?;
    line.skip();
    Ok(place as u8)
}

/// `0`, `1`, `open`, `code 7`, or a wire that drives pins.
fn driver(line: &mut Line, names: &Names) -> Result<u16, Mistake> {
    if line.take("code") {
        return Ok(line.number(usize::from(u16::MAX))? as u16);
    }
    for (word, code) in [("0", 0), ("1", 1), (names::OPEN, OPEN_CODE)] {
        if line.take(word) {
            return Ok(code);
        }
    }
    let due = "0, 1, `open`, `code 7`, an input (`in 3`), an output of a slice (`s0.A.O6`, `s0.AMUX`, `s0.AQ`) or a name of one is due";
    let no_driver = line.mistake(due);
    names::code_of(wire(line, names, due)?).ok_or(no_driver)
}

/// `in 3`, `in3`, `s0.AQ`, or a name given before that stands for one wire.
fn wire(line: &mut Line, names: &Names, due: &str) -> Result<Wire, Mistake> {
    if line.take("in") {
        return Ok(Wire::Input(line.number(names::LAST_INPUT)?));
    }
    let word = line.peek().unwrap_or_default();
    let wire = match names.iter().find(|name| name.word == word) {
        Some(name) => match name.wires[..] {
            [wire] => Some(wire),
            _ => return Err(line.mistake("this name stands for more than one wire")),
        },
        None => names::wire_named(word),
    };
    let wire = wire.ok_or_else(|| line.mistake(due))?;
    line.skip();
    Ok(wire)
}

/// One of m outside inputs, by name or by number.
pub fn input(line: &mut Line, names: &Names, m: usize, due: &str) -> Result<usize, Mistake> {
    let no_input = line.mistake(due);
    let number = line.peek().and_then(names::number).map(Wire::Input);
    let wire = match number {
        Some(wire) => {
            line.skip();
            wire
        }
        None => wire(line, names, due)?,
    };
    match wire {
        Wire::Input(input) if input < m => Ok(input),
        _ => Err(no_input),
    }
}

/// Names of flip-flops, or `none`.
fn flops(line: &mut Line) -> Result<u8, Mistake> {
    if line.take(NONE) {
        return Ok(0);
    }
    let mut byte = 0;
    loop {
        let bit = (0..8).find(|&bit| line.peek() == Some(&names::flop(bit)));
        let bit =
            bit.ok_or(line.mistake("flip-flops are due, AQ to DQ and A5Q to D5Q, or `none`"))?;
        line.skip();
        byte |= 1 << bit;
        if line.peek().is_none() {
            return Ok(byte);
        }
    }
}
