//! The command `model`: its verdicts as exit statuses, and what it can't read.

use std::fs::File;
use std::path::Path;
use std::process::{Command, Output, Stdio};

use testkit::cases::worked_file;
use testkit::command::{assert_fails, assert_writes};

/// The command in the tests' folder.
fn model(words: &[&str], input: Stdio) -> Output {
    let mut command = Command::new(env!("CARGO_BIN_EXE_model"));
    command.args(words).stdin(input);
    command.current_dir(env!("CARGO_TARGET_TMPDIR"));
    command.output().expect("run model")
}

#[test]
fn statuses_are_verdicts() {
    let path = Path::new(env!("CARGO_TARGET_TMPDIR")).join("z.bin");
    std::fs::write(&path, worked_file(1)).expect("a file");
    let open = |name: &Path| Stdio::from(File::open(name).expect("a file"));
    assert_writes(&model(&["z.bin"], Stdio::null()), 0, "accepted 1 0\n");
    assert_writes(&model(&["-"], open(&path)), 0, "accepted 1 0\n");
    assert_writes(&model(&[], open(&path)), 0, "accepted 1 0\n");
    assert_writes(&model(&[], Stdio::null()), 1, "refused 1 0\n");
    let zeros = Path::new("/dev/zero");
    assert_writes(&model(&[], open(zeros)), 1, "refused 2 0\n");
}

#[test]
fn fails_on_what_it_cannot_read() {
    let folder = Stdio::from(File::open("/").expect("a folder"));
    assert_fails(&model(&[], folder), "model: standard input: ");
    assert_fails(&model(&["."], Stdio::null()), "model: .: ");
    assert_fails(&model(&["none"], Stdio::null()), "model: none: ");
    let two = model(&["z.bin", "z.bin"], Stdio::null());
    assert_fails(&two, "model: more than one argument;");
}

#[test]
fn help() {
    let text = include_str!("../../help/model");
    assert_writes(&model(&["--help"], Stdio::null()), 0, text);
}
