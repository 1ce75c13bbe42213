//! The command `bench`: one call for a profiler, and other words.

use std::fs::File;
use std::process::{Command, Output};

use testkit::command::{assert_fails, assert_writes};

fn bench(words: &[&str]) -> Output {
    let mut command = Command::new(env!("CARGO_BIN_EXE_bench"));
    command.args(words).output().expect("run bench")
}

#[test]
fn makes_one_call() {
    assert_writes(&bench(&["edit input", "irregular"]), 0, "Ok(())\n");
    assert_writes(&bench(&["feed", "deep"]), 0, "Ok(())\n");
}

#[test]
fn fails_on_other_words() {
    let calls = "bench: no call \"dance\", but judge, settle, clock, edit input,";
    assert_fails(&bench(&["dance", "deep"]), calls);
    let columns = "bench: no column \"shallow\", but deep, deep looped,";
    assert_fails(&bench(&["settle", "shallow"]), columns);
    for words in [&["settle"][..], &["settle", "deep", "deep"]] {
        assert_fails(&bench(words), "bench: no argument, or a call and a column;");
    }
}

#[test]
fn fails_where_nothing_can_be_written() {
    let mut command = Command::new(env!("CARGO_BIN_EXE_bench"));
    let full = File::create("/dev/full").expect("a full device");
    let output = command.stdout(full).output().expect("run bench");
    assert_fails(&output, "bench: standard output: ");
}

#[test]
fn help() {
    assert_writes(&bench(&["--help"]), 0, include_str!("../../help/bench"));
}
