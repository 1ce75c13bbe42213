//! Judges a file as it comes, by the library's reader.

mod pieces;

use std::fs::File;
use std::io::{self, stderr, Write};
use std::time::Duration;

use quagmuffin::{Reader, Verdict};

use crate::args::Receive;
use crate::commands::{keep, line_of};
use crate::failure::{name, Failure, Outcome};
use crate::output::{say, Used};
use crate::progress::Progress;
use crate::source;
use pieces::Pieces;

/// What came up to the verdict, which the judge gives on these bytes as well.
struct Received {
    bytes: Vec<u8>,
    verdict: Verdict,
    /// Whether it was given before the end.
    certain: bool,
}

/// The output is opened before the first byte is waited for.
pub fn receive(words: &Receive) -> Outcome<u8> {
    let name = name(&words.file);
    let failure = |error| Failure::io(&name, &error);
    let file = source::open(&words.file).map_err(failure)?;
    let output = words.output.as_deref();
    let mut used = Used::by_reading([&*words.file]);
    let sink = output.map(|path| used.open(path)).transpose()?;
    let mut progress = Progress::of_bytes();
    let received = received(file, words.idle, &mut progress);
    progress.finish();
    let received = received.map_err(failure)?;
    let (line, status) = line_of(received.verdict);
    match output.zip(sink) {
        Some((path, sink)) => keep(&received.bytes, &line, path, sink)?,
        None => say(format!("{line}\n"))?,
    }
    if received.certain {
        let count = received.bytes.len();
        // The verdict is said already, whether this can be said or not.
        let _ = writeln!(
            stderr(),
            "quagmuffin: {name}: certain after {count} bytes, whatever follows"
        );
    }
    Ok(status)
}

/// A silence is an end from the first byte on: before it the sender may not have begun.
fn received(file: File, idle: Option<Duration>, progress: &mut Progress) -> io::Result<Received> {
    let pieces = Pieces::of(file)?;
    let mut reader = Reader::new();
    let mut bytes = vec![];
    loop {
        let idle = idle.filter(|_| !bytes.is_empty());
        let piece = pieces.next(idle, || progress.reached(bytes.len()))?;
        let ends = piece.is_empty();
        // One byte after the other, to find the first at which the verdict is certain: that is one of the first 8,137, so they are few.
        let early = piece.into_iter().find_map(|byte| {
            bytes.push(byte);
            reader.feed(&[byte])
        });
        if let Some(verdict) = early.or_else(|| ends.then(|| reader.end())) {
            let certain = !ends;
            return Ok(Received {
                bytes,
                verdict,
                certain,
            });
        }
        progress.reached(bytes.len());
    }
}
