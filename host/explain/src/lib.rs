//! What is wrong with a file, in words. The verdict is the proved library's; here every fault is
//! listed, the judge's first: where it is, what stands there and what may.

mod combinations;
mod drivers;
mod due;
mod fault;
mod framing;
mod loops;
mod mended;
mod note;
mod records;
mod size;
mod slice;
mod words;

use model::check::sizes_listed;
use model::Rules;

use due::Due;
pub use fault::Fault;

/// The faults of a file; none where it is accepted.
#[derive(Clone, Debug, PartialEq, Eq)]
pub struct Explained {
    /// In the order of the judge's tests, so the first is the one it refuses for.
    pub faults: Vec<Fault>,
    /// What could not be looked at, and what was taken as it stands: a sentence a line.
    pub note: Option<String>,
}

/// All that is wrong with a file.
pub fn explain(file: &[u8]) -> Explained {
    let rules = Rules::paper();
    let (n, m) = size::of(file);
    let found = records::faults(&rules, file, n, m);
    let (mut faults, stopped) = (found.faults, found.stopped);
    let slices_read = stopped.is_none_or(Due::is_end);
    let loops = (slices_read && sizes_listed(&rules, n, m))
        .then(|| loops::faults(&mended::design(&rules, file, n, m)));
    let note = note::note(file, stopped, &faults, loops.is_some());
    faults.extend(loops.into_iter().flatten());
    Explained { faults, note }
}
