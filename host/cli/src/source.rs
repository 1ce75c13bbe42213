//! What a command reads: slice files, texts, and designs in either form.

use std::fs::File;
use std::io::{self, Read};
use std::os::fd::AsFd;
use std::path::Path;
use std::sync::atomic::{AtomicBool, Ordering};

use quagmuffin::Column;
use text::{Mistake, Name, Parsed, Records};

use crate::failure::{name, Failure, Outcome};

/// No text of a design or of edits is longer; that of 255 slices with every field has a third of it.
pub const LONGEST_TEXT: usize = 1 << 20;

/// No byte after these changes what is said of a file.
pub const MOST_BYTES: usize = LONGEST_TEXT + 1;

/// A design: its name, its slice file, and the names that its text gives.
pub struct Design {
    pub name: String,
    pub file: Vec<u8>,
    pub names: Vec<Name>,
}

/// A file as it is, as far as it decides.
pub fn slice_file(path: &Path) -> Outcome<Vec<u8>> {
    bytes(path, MOST_BYTES)
}

/// Whether standard input was read.
static STDIN_READ: AtomicBool = AtomicBool::new(false);

/// At most so many bytes of a file, or of standard input for `-`, which can be read once.
fn bytes(path: &Path, most: usize) -> Outcome<Vec<u8>> {
    if path.as_os_str() == "-" && STDIN_READ.swap(true, Ordering::Relaxed) {
        return Err(Failure::of("standard input is named twice"));
    }
    let mut bytes = vec![];
    let read = open(path).and_then(|file| file.take(most as u64).read_to_end(&mut bytes));
    read.map_err(|error| Failure::io(&name(path), &error))?;
    Ok(bytes)
}

/// A file, or standard input for `-`: the standard library's own handle takes a standard input that can't be read for an empty one.
pub fn open(path: &Path) -> io::Result<File> {
    match path.as_os_str() == "-" {
        true => Ok(File::from(io::stdin().as_fd().try_clone_to_owned()?)),
        false => File::open(path),
    }
}

/// A text of any kind, of at most so many bytes.
pub fn any_text(path: &Path, most: usize) -> Outcome<String> {
    decoded(&name(path), bytes(path, most + 1)?, most)
}

fn decoded(name: &str, bytes: Vec<u8>, most: usize) -> Outcome<String> {
    if bytes.len() > most {
        return Err(Failure::of(format!("{name}: longer than {most} bytes")));
    }
    if bytes.contains(&0) {
        return Err(Failure::of(format!(
            "{name}: a binary file, no text; quagmuffin show writes a slice file as text"
        )));
    }
    String::from_utf8(bytes).map_err(|error| {
        let good = &error.as_bytes()[..error.utf8_error().valid_up_to()];
        let good = String::from_utf8_lossy(good);
        let line = 1 + good.matches('\n').count();
        let column = 1 + good.chars().rev().take_while(|&x| x != '\n').count();
        let byte = error.as_bytes()[good.len()];
        Failure::of(format!(
            "{name}:{line}:{column}: byte {byte:#x} is not UTF-8"
        ))
    })
}

/// A text of a design.
pub fn text(path: &Path) -> Outcome<Parsed> {
    parsed(&name(path), any_text(path, LONGEST_TEXT)?)
}

fn parsed(name: &str, text: String) -> Outcome<Parsed> {
    text::parse(&text).map_err(|mistake| mistaken(name, &text, &mistake))
}

/// A mistake in a text.
pub fn mistaken(name: &str, text: &str, mistake: &Mistake) -> Failure {
    Failure::of(mistake.report(name, text))
}

/// A slice file begins with a small number.
pub fn begins_like_text(file: &[u8]) -> bool {
    let begins = |&first: &u8| first >= b' ' || first.is_ascii_whitespace();
    file.first().is_some_and(begins)
}

/// The first byte that no text has: zero, or not UTF-8.
pub fn not_of_text(file: &[u8]) -> Option<usize> {
    let zero = file.iter().position(|&byte| byte == 0);
    let other = std::str::from_utf8(file)
        .err()
        .map(|error| error.valid_up_to());
    zero.into_iter().chain(other).min()
}

/// A design, as a slice file or as a text.
pub fn design(path: &Path) -> Outcome<Design> {
    design_of(name(path), slice_file(path)?)
}

/// What begins like a text is one, if no byte is zero.
pub fn design_of(name: String, file: Vec<u8>) -> Outcome<Design> {
    if !begins_like_text(&file) || file.contains(&0) {
        let names = vec![];
        return Ok(Design { name, file, names });
    }
    let Parsed { records, names } = parsed(&name, decoded(&name, file, LONGEST_TEXT)?)?;
    let file = records.bytes();
    Ok(Design { name, file, names })
}

impl Design {
    /// The design powered up, by the library.
    pub fn column(&self) -> Outcome<Column> {
        Column::new(self.file.clone()).map_err(|refused| Failure::refused(&self.name, refused))
    }

    /// Its records, where they are whole and in order.
    pub fn records(&self) -> Outcome<Records> {
        Records::of(&self.file).ok_or_else(|| match quagmuffin::judge(&self.file) {
            Err(refused) => Failure::refused(&self.name, refused),
            Ok(_) => Failure::of(format!("{}: accepted, and yet not in order", self.name)),
        })
    }
}
