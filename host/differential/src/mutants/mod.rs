//! Wrong models, each with one mistake that looks reasonable: in running a
//! column here, in the record calls in `records`, in a reader's in `feeds`, about adders in `adders`. But for
//! those none makes a signal read what the paper's doesn't depend on, since that could loop.

pub mod adders;
mod decoding;
mod edges;
mod edits;
pub mod feeds;
mod lists;
pub mod records;
mod signals;

use model::{Design, Workings};

/// A mistake's name, and how it changes the paper's workings.
pub type Mutant = (&'static str, fn(&mut Workings));

/// A mistake's name, and how it changes what is read out of a file.
pub type WrongDecoder = (&'static str, fn(&mut Design));

pub fn of_columns() -> Vec<Mutant> {
    let families = [
        signals::all(),
        edges::all(),
        edits::all(),
        lists::all(),
        tests(),
    ];
    families.into_iter().flatten().collect()
}

pub fn of_decoding() -> Vec<WrongDecoder> {
    decoding::all()
}

/// Refusals that aren't given.
fn tests() -> Vec<Mutant> {
    vec![
        ("input bytes not tested", |w| w.tests.input_bytes = false),
        ("value bytes not tested", |w| w.tests.value_bytes = false),
        ("words not tested", |w| w.tests.words = false),
        ("new byte not tested", |w| w.tests.new_byte = false),
        ("new word not tested", |w| w.tests.new_word = false),
    ]
}
