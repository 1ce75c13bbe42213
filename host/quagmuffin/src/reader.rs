//! A file that comes in pieces, as over a serial line.

use calls::{feed, Verdict, STATE, STORE};

/// Takes a file run by run and keeps its bytes: more than those of the longest file are not kept, and not needed.
#[derive(Clone)]
pub struct Reader {
    state: [u64; STATE],
    store: Box<[u8]>,
}

impl Default for Reader {
    fn default() -> Reader {
        Reader::new()
    }
}

impl Reader {
    /// A reader that has seen nothing.
    pub fn new() -> Reader {
        Reader {
            state: [0; STATE],
            store: vec![0; STORE].into(),
        }
    }

    /// The next run, of any length and also none. `None` says that more is needed; a verdict is one that no bytes to come would change, and
    /// every call after it gives it again.
    pub fn feed(&mut self, run: &[u8]) -> Option<Verdict> {
        feed(&mut self.state, &mut self.store, run, 0)
    }

    /// There is no more: the judge's verdict on all that came, or the one that was given before.
    pub fn end(&mut self) -> Verdict {
        let verdict = feed(&mut self.state, &mut self.store, &[], 1);
        verdict.expect("a reader told that there is no more gives a verdict")
    }

    /// The bytes kept: all that came up to the verdict, but those past the longest file.
    pub fn bytes(&self) -> &[u8] {
        &self.store[..self.state[0] as usize]
    }
}
