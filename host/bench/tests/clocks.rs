//! The command `clocks`: rows written in C over the library, sound ones and ones that differ from the second program; its words; simulators on a small
//! column.

use std::fs;
use std::path::{Path, PathBuf};
use std::process::{Command, Output};

use bench::clocks::{Clocks, Subject};
use bench::simulators::Tool;
use export::iverilog::say_skipped;
use testkit::command::{assert_fails, assert_writes};
use testkit::run::repository;

/// Clocks in a row by the library's clock, with what a test defines: the inputs of a clock, and what is done after the last.
const ROWS: &str = r#"
#include "quagmuffin.h"
#ifndef ROW
#define ROW(clock) (clock)
#endif
#ifndef AFTER
#define AFTER
#endif
uint64_t clocks_in_a_row(const uint8_t *file, size_t file_len, uint64_t *contents, size_t contents_len, uint8_t *flops, size_t flops_len,
                         const uint8_t *inputs, size_t inputs_len, uint8_t *values, size_t values_len) {
    size_t m = file[4], clocks = inputs_len / m;
    uint64_t answer = 0;
    for (size_t clock = 0; clock < clocks && answer == 0; clock++)
        answer = qm_clock(file, file_len, contents, contents_len, flops, flops_len, inputs + m * ROW(clock), m, values, values_len);
    AFTER;
    return answer;
}
"#;

/// Makes a shared library of the archive and what else is named.
fn link(library: &Path, words: &[&str]) {
    let archive = repository().join("target/staticlib/libquagmuffin.a");
    let mut gcc = Command::new("gcc");
    gcc.args(["-O1", "-fPIC", "-shared"]).args(words);
    gcc.arg("-I").arg(repository().join("include"));
    gcc.arg("-Wl,--whole-archive").arg(archive);
    gcc.arg("-Wl,--no-whole-archive").arg("-o").arg(library);
    let output = gcc.output().expect("gcc");
    assert!(output.status.success(), "{output:?}");
}

/// A folder with rows in C with definitions, and the library itself.
fn folder(test: &str, definitions: &[&str]) -> PathBuf {
    let folder = Path::new(env!("CARGO_TARGET_TMPDIR")).join("clocks");
    let folder = folder.join(test);
    let _ = fs::remove_dir_all(&folder);
    fs::create_dir_all(&folder).expect("a folder");
    let code = folder.join("clockruns.c");
    fs::write(&code, ROWS).expect("a file");
    let code = [code.to_str().expect("a path")];
    link(&folder.join("clockruns.so"), &[definitions, &code].concat());
    link(&folder.join("quagmuffin.so"), &[]);
    folder
}

/// The command where no simulator is installed.
fn clocks(words: &[&PathBuf]) -> Output {
    let mut command = Command::new(env!("CARGO_BIN_EXE_clocks"));
    command.args(words).env("PATH", "");
    command.output().expect("run clocks")
}

/// What is said of rows with a definition, which differ.
fn differs_by(test: &str, definition: &str) -> String {
    let output = clocks(&[&folder(test, &[definition])]);
    assert_eq!(output.status.code(), Some(1));
    assert_eq!(String::from_utf8_lossy(&output.stdout), "");
    String::from_utf8_lossy(&output.stderr).into()
}

#[test]
fn sound_rows_are_timed() {
    let output = clocks(&[&folder("sound", &[])]);
    let said = String::from_utf8_lossy(&output.stderr);
    let agree = "300 clocks agree with the second program, in a row and one by one\n";
    assert!(
        said.starts_with(&format!("clocks: deep, 1 slice: {agree}")),
        "{said}"
    );
    assert_eq!(said.matches(agree).count(), 4, "{said}");
    let text = String::from_utf8_lossy(&output.stdout);
    let parts: Vec<Vec<&str>> = text
        .split("\n\n")
        .map(|part| part.lines().collect())
        .collect();
    let names = [
        "deep, 1 slice ",
        "deep, 16 slices ",
        "deep, 64 slices ",
        "irregular, 64 slices ",
    ];
    assert_eq!(parts.len(), 1 + names.len(), "{text}");
    for (lines, name) in parts[1..].iter().zip(names) {
        let &[first, row, single, iverilog, verilator] = &lines[..] else {
            panic!("{lines:?}")
        };
        assert!(first.starts_with(name), "{first}");
        assert!(row.starts_with("  clocks in a row, one call "), "{row}");
        assert!(
            single.starts_with("  qm_clock, a call a clock "),
            "{single}"
        );
        for (line, tool) in [(iverilog, "iverilog"), (verilator, "Verilator")] {
            let words: Vec<&str> = line.split_whitespace().collect();
            assert_eq!(words, [tool, "not", "installed"]);
        }
    }
    assert_eq!(output.status.code(), Some(0));
}

/// Rows that take the first inputs in each clock are right as long as a row is one clock.
#[test]
fn inputs_that_are_held_are_named() {
    let said = differs_by("held", "-DROW(clock)=0");
    let start = "clocks: deep, 1 slice: clocks_in_a_row: after clock 110 the ";
    assert!(said.starts_with(start), "{said}");
    assert!(said.contains(", by the second program "), "{said}");
}

#[test]
fn a_wrong_state_or_value_is_named() {
    for (test, definition, what) in [
        ("word", "-DAFTER=contents[2]^=1", "word of table 2"),
        ("flops", "-DAFTER=flops[0]^=16", "flip-flop byte of slice 0"),
        ("value", "-DAFTER=values[5]^=1", "value of signal 5"),
    ] {
        let said = differs_by(test, definition);
        let start = format!("clocks: deep, 1 slice: clocks_in_a_row: after clock 1 the {what} is ");
        assert!(said.starts_with(&start), "{said}");
    }
}

#[test]
fn a_refusal_is_named() {
    let said = differs_by("refused", "-DAFTER=return 10");
    let line = "clocks: deep, 1 slice: clocks_in_a_row: clock 1 is refused 10 0\n";
    assert_eq!(said, line);
}

#[test]
fn fails_where_something_is_missing() {
    let folder = folder("missing", &[]);
    for words in [&[][..], &[&folder, &folder]] {
        assert_fails(&clocks(words), "clocks: one folder,");
    }
    let rows = folder.join("clockruns.so");
    let path = rows.display();
    fs::copy(folder.join("quagmuffin.so"), folder.join("other.so")).expect("a copy");
    fs::rename(folder.join("other.so"), &rows).expect("a library");
    let start = format!("clocks: {path}: has no clocks_in_a_row");
    assert_fails(&clocks(&[&folder]), &start);
    fs::write(&rows, "no library").expect("a file");
    let start = format!("clocks: {path}: is no shared library");
    assert_fails(&clocks(&[&folder]), &start);
    fs::remove_file(&rows).expect("a file");
    let start = format!("clocks: {path}: No such file");
    assert_fails(&clocks(&[&folder]), &start);
}

#[test]
fn fails_where_nothing_can_be_written() {
    let full = fs::File::create("/dev/full").expect("a full device");
    let mut command = Command::new(env!("CARGO_BIN_EXE_clocks"));
    command.arg(folder("written", &[])).env("PATH", "");
    let output = command.stdout(full).output().expect("run clocks");
    let said = String::from_utf8_lossy(&output.stderr);
    let last = said.lines().last().expect("a line");
    assert!(last.starts_with("clocks: standard output: "), "{said}");
    assert_eq!(output.status.code(), Some(2));
}

#[test]
fn help() {
    let text = include_str!("../../help/clocks");
    assert_writes(&clocks(&[&PathBuf::from("--help")]), 0, text);
}

/// Each simulator that is installed has the signals that clocks in a row lead to, also where the inputs come again.
#[test]
fn simulators_agree() {
    let folder = folder("simulators", &[]);
    let clocks = Clocks::load(&folder).expect("both libraries");
    let subject = Subject::new("irregular", 1);
    for tool in Tool::ALL {
        if !tool.is_installed() {
            say_skipped(&format!("{} isn't installed", tool.name()));
            continue;
        }
        let program = tool.build(&subject, &folder.join(tool.name()));
        let program = program.expect("a program");
        for count in [0, 1, 2, 1000, 1030] {
            let signals = program.signals(count).expect("signals");
            assert_eq!(signals, subject.signals(&clocks, count), "{tool:?} {count}");
        }
        let other = program.signals(1).expect("signals");
        assert_ne!(other, subject.signals(&clocks, 2), "{tool:?}");
    }
}
