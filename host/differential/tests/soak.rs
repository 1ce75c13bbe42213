//! The command `soak`: it ends in time, and stops at a difference.

use std::os::unix::fs::PermissionsExt;
use std::path::Path;
use std::process::{Command, Output};

use testkit::command::{assert_fails, assert_writes};
use testkit::run::repository;

fn soak(arguments: &[&str], judge: Option<&Path>) -> Output {
    let mut command = Command::new(env!("CARGO_BIN_EXE_soak"));
    if let Some(judge) = judge {
        command.env("JUDGE", judge);
    }
    command.args(arguments).output().expect("run soak")
}

fn text(output: &Output) -> &str {
    std::str::from_utf8(&output.stdout).expect("text")
}

#[test]
fn ends_in_time() {
    let output = soak(&["0.02"], None);
    assert!(output.status.success());
    let line = text(&output).trim_end();
    assert!(line.starts_with("0.0 minutes, "), "{line}");
    assert!(line.ends_with(" calls, no difference"), "{line}");
    assert!(!line.contains(" 0 calls"), "{line}");
}

#[test]
fn wants_minutes() {
    for arguments in [&[][..], &["x"], &["-1"], &["NaN"], &["1", "2"]] {
        assert_fails(&soak(arguments, None), "soak: one argument, a number of");
    }
}

#[test]
fn wants_a_program() {
    let output = soak(&["1"], Some(Path::new("/no/program")));
    assert_fails(
        &output,
        "soak: no program at /no/program: run 'host/rt check judge'",
    );
}

#[test]
fn help() {
    let text = include_str!("../../help/soak");
    assert_writes(&soak(&["--help"], None), 0, text);
}

/// A program that accepts everything is caught, and the file is left behind.
#[test]
fn stops_at_a_difference() {
    let judge = Path::new(env!("CARGO_TARGET_TMPDIR")).join("accepts");
    std::fs::write(&judge, "#!/bin/sh\ncat > /dev/null\necho accepted 1 0\n").expect("a program");
    std::fs::set_permissions(&judge, PermissionsExt::from_mode(0o755)).expect("a program");
    let output = soak(&["5"], Some(&judge));
    assert_eq!(output.status.code(), Some(1));
    let told = text(&output);
    assert!(told.contains(" calls, a difference\n"), "{told}");
    let files = told
        .lines()
        .filter_map(|line| line.split_once(": the program says "));
    let files: Vec<(&str, &str)> = files.collect();
    assert!(!files.is_empty(), "{told}");
    let folder = repository().join("differences");
    for (path, answers) in files {
        assert_eq!(Path::new(path).parent(), Some(&*folder));
        assert!(answers.starts_with("\"accepted 1 0\", the model"));
        let file = std::fs::read(path).expect("the failing file");
        assert_ne!(model::judge(&file).to_string(), "accepted 1 0");
        std::fs::remove_file(path).expect("remove the failing file");
    }
    // Where it has nothing else, the folder goes as well.
    let _ = std::fs::remove_dir(folder);
}
