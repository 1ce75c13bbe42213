//! The pieces of a file, as they come.

use std::fs::File;
use std::io::{self, ErrorKind, Read};
use std::sync::mpsc::{channel, Receiver, RecvTimeoutError, Sender};
use std::thread::Builder;
use std::time::{Duration, Instant};

use crate::progress::PATIENCE;

/// A piece has at most so many bytes.
const LONGEST_PIECE: usize = 4096;

/// A thread of its own reads, so that a wait for bytes can be given up. It reads a piece only where one is asked for.
pub struct Pieces {
    ask: Sender<()>,
    come: Receiver<io::Result<Vec<u8>>>,
}

impl Pieces {
    pub fn of(mut file: File) -> io::Result<Pieces> {
        let (ask, asked) = channel();
        let (send, come) = channel();
        Builder::new().spawn(move || {
            for () in asked {
                // Where nobody waits any more, nobody asks any more.
                let _ = send.send(next_of(&mut file));
            }
        })?;
        Ok(Pieces { ask, come })
    }

    /// The next piece; an empty one where there are no more, or where nothing came for the time `idle`. While it waits it calls `waiting` now
    /// and then.
    pub fn next(&self, idle: Option<Duration>, mut waiting: impl FnMut()) -> io::Result<Vec<u8>> {
        // Where the thread is gone the wait says so.
        let _ = self.ask.send(());
        let start = Instant::now();
        loop {
            let left = idle.map_or(PATIENCE, |idle| idle.saturating_sub(start.elapsed()));
            match self.come.recv_timeout(left.min(PATIENCE)) {
                Ok(piece) => return piece,
                Err(RecvTimeoutError::Timeout) if left.is_zero() => return Ok(vec![]),
                Err(RecvTimeoutError::Timeout) => waiting(),
                Err(gone @ RecvTimeoutError::Disconnected) => return Err(io::Error::other(gone)),
            }
        }
    }
}

/// What is there, without waiting for more, or as soon as something is.
fn next_of(file: &mut File) -> io::Result<Vec<u8>> {
    let mut piece = vec![0; LONGEST_PIECE];
    loop {
        match file.read(&mut piece) {
            Err(error) if error.kind() == ErrorKind::Interrupted => {}
            read => {
                piece.truncate(read?);
                return Ok(piece);
            }
        }
    }
}
