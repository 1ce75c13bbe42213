//! The library for a host in Rust: a file that is run in buffers of its own (`Column`), one that comes in pieces (`Reader`), the judge
//! alone, and the two calls on a slice record.
//! Of what include/quagmuffin.h asks of a host, only the stack is left to keep.

mod column;
mod reader;

pub use calls::{
    judge, read_record, write_record, Accepted, Answer, Change, Refused, Verdict, MOST_EDITS,
};
pub use column::Column;
pub use reader::Reader;
