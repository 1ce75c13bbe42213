//! Why a command didn't do what it was asked.

use std::fmt::Display;
use std::io;
use std::path::Path;

use quagmuffin::Refused;
use text::lines::plain;

/// The exit status, and what is said on standard error, which may be nothing.
#[derive(Debug)]
pub struct Failure {
    pub status: u8,
    pub said: String,
}

pub type Outcome<T> = Result<T, Failure>;

impl Failure {
    /// Something is wrong with the words or with what they name.
    pub fn of(said: impl Display) -> Failure {
        let said = format!("quagmuffin: {said}");
        Failure { status: 2, said }
    }

    /// A file or the standard output can't be read or written. A reader that went away needs to be told nothing.
    pub fn io(name: &str, error: &io::Error) -> Failure {
        if error.kind() == io::ErrorKind::BrokenPipe {
            let said = String::new();
            return Failure { status: 2, said };
        }
        let why = error.to_string();
        let why = why.split(" (os error").next().unwrap_or(&why);
        Failure::of(format!("{name}: {why}"))
    }

    /// A file that is refused can't be worked with.
    pub fn refused(name: &str, refused: Refused) -> Failure {
        Failure {
            status: 1,
            ..Failure::of(format!("{name}: {refused}; quagmuffin explain says why"))
        }
    }
}

/// The name of a file as it is said: on one line, whatever it holds.
pub fn name(path: &Path) -> String {
    match path.as_os_str() == "-" {
        true => "standard input".to_string(),
        false => plain(&path.to_string_lossy()),
    }
}
