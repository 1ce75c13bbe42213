//! A fault and how it is printed.

use std::fmt;

use crate::words::labelled;

/// One fault of a file: the refusal's number and place, where it is, what stands there and what
/// may stand there.
#[derive(Clone, Debug, PartialEq, Eq)]
pub struct Fault {
    pub number: u8,
    pub place: usize,
    pub at: String,
    pub stands: String,
    pub may: String,
}

impl Fault {
    /// What the number means, in the words of the README's table.
    pub fn heading(&self) -> &'static str {
        match self.number {
            1 => "the file ends too early",
            2 => "a tag that doesn't exist",
            3 => "a length that is not the tag's",
            4 => "a record or slice that is not the one due",
            5 => "n, m or a choice outside its list",
            6 => "choices that don't go together",
            7 => "a pin driven by something that doesn't exist",
            8 => "bytes after the end",
            9 => "a combinational loop",
            number => panic!("no file is refused with {number}"),
        }
    }
}

/// The heading and three labelled texts, without a newline at the end.
impl fmt::Display for Fault {
    fn fmt(&self, out: &mut fmt::Formatter) -> fmt::Result {
        writeln!(out, "{}: {}", self.number, self.heading())?;
        writeln!(out, "{}", labelled("at", &self.at))?;
        writeln!(out, "{}", labelled("stands", &self.stands))?;
        write!(out, "{}", labelled("may", &self.may))
    }
}
