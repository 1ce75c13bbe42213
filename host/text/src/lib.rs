//! A design as text: what a person reads in a mail and keeps in git. docs/TEXT.md has the form with its grammar.
//!
//! A field has its words once, in `fields`: by them a file is shown, a text is read and two designs are compared, and a fault is explained.

pub mod changes;
pub mod contents;
pub mod fields;
pub mod lines;
pub mod names;
pub mod parse;
pub mod records;
pub mod show;

pub use changes::changes;
pub use lines::Mistake;
pub use parse::{parse, Name, Names, Parsed};
pub use records::Records;
pub use show::{show, show_slice};
