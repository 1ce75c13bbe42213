//! What a call may use: a bounded stack, and no memory but that and what it is lent.

use bench::calls::{Bench, Call};
use bench::columns::NAMED;
use bench::stack::depth;
use std::hint::black_box;
use std::path::Path;
use std::process::Command;

const STACK_LIMIT: usize = 256 << 10;

#[test]
fn no_call_uses_more_than_256_kb_of_stack() {
    for (name, column) in NAMED {
        for call in Call::ALL {
            let mut bench = Bench::new(column(64).bytes());
            let bytes = depth(|| {
                let _ = black_box(bench.library(call));
            });
            assert!(bytes <= STACK_LIMIT, "{call:?} on {name}: {bytes} bytes");
        }
    }
}

/// The same for lists of edits.
#[test]
fn no_list_uses_more_than_256_kb_of_stack() {
    for (name, column) in NAMED {
        for count in [0, 1, 256, 257] {
            let mut bench = Bench::new(column(64).bytes());
            let edits = bench.edits(count);
            let bytes = depth(|| {
                let _ = black_box(bench.edit(&edits));
            });
            assert!(bytes <= STACK_LIMIT, "{name}, {count}: {bytes} bytes");
        }
    }
}

/// The same for a file that comes in runs.
#[test]
fn no_feeding_uses_more_than_256_kb_of_stack() {
    for (name, column) in NAMED {
        for length in [1, 64, 1024] {
            let mut bench = Bench::new(column(64).bytes());
            let bytes = depth(|| {
                let _ = black_box(bench.feed_in_runs(length));
            });
            assert!(bytes <= STACK_LIMIT, "{name} by {length}: {bytes} bytes");
        }
    }
}

/// The measure itself: a frame with an array of a known size is seen.
#[test]
fn stack_that_is_used_is_seen() {
    let bytes = depth(|| {
        black_box([1u8; STACK_LIMIT]);
    });
    assert!(bytes > STACK_LIMIT, "{bytes} bytes");
    assert!(bytes < STACK_LIMIT + 4096, "{bytes} bytes");
}

/// What a compiler calls for copies and fills; they allocate nothing. A host has to bring no other.
const ALLOWED: [&str; 2] = ["memcpy", "memset"];

#[test]
fn the_library_refers_to_no_allocator() {
    let root = Path::new(env!("CARGO_MANIFEST_DIR")).join("../..");
    let archive = root.join("target/staticlib/libquagmuffin.a");
    let output = Command::new("nm").arg(archive).output().expect("nm");
    let symbols = String::from_utf8(output.stdout).expect("text");
    assert!(symbols.contains(" T qm_judge"), "no library: {symbols}");
    let undefined = symbols.lines().filter_map(|line| line.split_once(" U "));
    let others: Vec<&str> = undefined
        .map(|(_, name)| name)
        .filter(|name| !ALLOWED.contains(name))
        .collect();
    assert!(others.is_empty(), "refers to {others:?}");
}
