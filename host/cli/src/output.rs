//! Where a command writes: standard output, or a file that it doesn't read.

use std::fs::{metadata, File};
use std::io::{self, stdout, BufWriter, Write};
use std::mem::replace;
use std::os::unix::fs::MetadataExt;
use std::path::Path;

use crate::failure::{name, Failure, Outcome};

/// A file or standard output, by its name.
pub struct Sink {
    name: String,
    to: BufWriter<Box<dyn Write>>,
    /// The file as long as it holds what it held before.
    old: Option<File>,
}

impl Sink {
    pub fn standard_output() -> Sink {
        Sink {
            name: "standard output".to_string(),
            to: BufWriter::new(Box::new(stdout())),
            old: None,
        }
    }

    /// The first text takes the place of what was there.
    pub fn write(&mut self, text: impl AsRef<[u8]>) -> Outcome<()> {
        let emptied = self.old.take().map_or(Ok(()), |file| file.set_len(0));
        let written = emptied.and_then(|()| self.to.write_all(text.as_ref()));
        written.map_err(|error| Failure::io(&self.name, &error))
    }

    pub fn flush(&mut self) -> Outcome<()> {
        let flushed = self.to.flush();
        flushed.map_err(|error| Failure::io(&self.name, &error))
    }
}

/// Writes to standard output.
pub fn say(text: impl AsRef<[u8]>) -> Outcome<()> {
    let mut output = Sink::standard_output();
    output.write(text)?;
    output.flush()
}

/// The files that a command reads or writes, by device and number, and whether standard output is written: so that nothing is written over.
pub struct Used {
    files: Vec<(u64, u64)>,
    standard_output: bool,
}

impl Used {
    /// What is read.
    pub fn by_reading<'a>(paths: impl IntoIterator<Item = &'a Path>) -> Used {
        Used {
            files: paths.into_iter().filter_map(identity).collect(),
            standard_output: false,
        }
    }

    /// Opens the file of a path, which is made where there is none; `-` is standard output.
    pub fn open(&mut self, path: &Path) -> Outcome<Sink> {
        if path.as_os_str() == "-" {
            return match replace(&mut self.standard_output, true) {
                true => Err(Failure::of("standard output can't be written twice")),
                false => Ok(Sink::standard_output()),
            };
        }
        let name = name(path);
        if identity(path).is_some_and(|file| self.files.contains(&file)) {
            return Err(Failure::of(format!("{name}: is read or written already")));
        }
        let failure = |error: io::Error| Failure::io(&name, &error);
        let options = File::options()
            .write(true)
            .create(true)
            .truncate(false)
            .clone();
        let file = options.open(path).map_err(failure)?;
        let old = match identity(path) {
            Some(used) => {
                self.files.push(used);
                Some(file.try_clone().map_err(failure)?)
            }
            None => None,
        };
        let to = BufWriter::new(Box::new(file) as Box<dyn Write>);
        Ok(Sink { name, to, old })
    }
}

/// What tells a file from every other; a device or a pipe can be used twice.
fn identity(path: &Path) -> Option<(u64, u64)> {
    let file = metadata(path).ok().filter(|file| file.is_file())?;
    Some((file.dev(), file.ino()))
}
