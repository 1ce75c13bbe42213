//! The command `host/verilog`: what it reads, writes and refuses.

use std::fs::File;
use std::path::{Path, PathBuf};
use std::process::{Command, Output, Stdio};

use export::iverilog;
use model::layout::*;
use testkit::cases::worked_file;
use testkit::column::Column;
use testkit::command::{assert_fails, assert_writes};
use testkit::run::repository;

/// Z with outside input 0 on A1, and contents A that pass it on; an outside input more drives nothing.
fn passes_input() -> Vec<u8> {
    let column = Column::zeros(1, 2).pin(0, "A1", 256);
    column.contents(0, A, 2).bytes()
}

fn folder() -> &'static Path {
    Path::new(env!("CARGO_TARGET_TMPDIR"))
}

/// Writes a file into the tests' folder.
fn saved(name: &str, bytes: &[u8]) -> PathBuf {
    let path = folder().join(name);
    std::fs::write(&path, bytes).expect("a file");
    path
}

/// Runs the program in the tests' folder.
fn export(words: &[&str], input: Stdio) -> Output {
    let mut command = Command::new(env!("CARGO_BIN_EXE_verilog"));
    command.args(words).current_dir(folder()).stdin(input);
    command.output().expect("the program")
}

/// The source that the program writes.
fn source(words: &[&str]) -> String {
    let output = export(words, Stdio::null());
    assert_eq!(String::from_utf8_lossy(&output.stderr), "");
    assert!(output.status.success());
    String::from_utf8(output.stdout).expect("text")
}

/// It refuses a file with a line on standard error.
fn refuse(words: &[&str], line: &str) {
    let output = export(words, Stdio::null());
    let errors = String::from_utf8_lossy(&output.stderr);
    assert_eq!(errors, line, "{words:?}");
    assert_eq!(output.status.code(), Some(1), "{words:?}");
    assert_eq!(output.stdout, b"", "{words:?}");
}

#[test]
fn refuses_as_the_judge() {
    saved("looped.bin", &worked_file(5));
    saved("longer.bin", &[worked_file(1), vec![0]].concat());
    refuse(&["looped.bin", "3"], "refused 9 0\n");
    refuse(&["longer.bin"], "refused 8 135\n");
    refuse(&["-"], "refused 1 0\n");
    refuse(&[], "refused 1 0\n");
}

/// Endless input is read no further than it decides.
#[test]
fn refuses_endless_input() {
    refuse(&["/dev/zero"], "refused 2 0\n");
    let zeros = Stdio::from(File::open("/dev/zero").expect("zeros"));
    let output = export(&[], zeros);
    assert_eq!(output.stderr, b"refused 2 0\n");
}

/// It can't do what the words ask, and says why in one line.
fn fail(words: &[&str], start: &str) {
    assert_fails(&export(words, Stdio::null()), start);
}

#[test]
fn fails_on_other_words() {
    saved("words.bin", &passes_input());
    let clocks = "verilog: CLOCKS is a number from 1 to 1000000\n";
    for word in ["0", "1000001", "-1", "x", ""] {
        fail(&["words.bin", word], clocks);
    }
    let inputs = "verilog: INPUTS has 2 digits 0 or 1, one for each outside input\n";
    for word in ["", "0", "000", "02", "0x"] {
        fail(&["words.bin", "3", "11", word], inputs);
    }
    let more = "verilog: more INPUTS than CLOCKS\n";
    fail(&["words.bin", "1", "10", "10"], more);
    fail(&["no such file"], "verilog: no such file: ");
    fail(&["."], "verilog: .: ");
    fail(&["--help", "1"], "verilog: --help: ");
}

#[test]
fn help() {
    let text = include_str!("../../help/verilog");
    assert_writes(&export(&["--help"], Stdio::null()), 0, text);
}

#[test]
fn full_output() {
    saved("full.bin", &passes_input());
    let mut command = Command::new(env!("CARGO_BIN_EXE_verilog"));
    let full = File::create("/dev/full").expect("the device");
    command.arg("full.bin").current_dir(folder()).stdout(full);
    let output = command.output().expect("the program");
    assert_fails(&output, "verilog: standard output: ");
}

#[test]
fn reads_standard_input() {
    let path = saved("input.bin", &passes_input());
    let expected = source(&["input.bin", "2", "10"]);
    let open = || Stdio::from(File::open(&path).expect("the file"));
    let output = export(&["-", "2", "10"], open());
    assert_eq!(String::from_utf8_lossy(&output.stdout), expected);
    let output = export(&[], open());
    assert_eq!(
        String::from_utf8_lossy(&output.stdout),
        source(&["input.bin"])
    );
}

/// A pin left open is pulled up, and marked.
#[test]
fn open_pins_are_marked() {
    let column = Column::zeros(1, 0).pin(0, "A1", 1).pin(0, "WE", 2);
    saved("open.bin", &column.bytes());
    let source = source(&["open.bin"]);
    for line in [
        "  wire s0_A1 = 1'b1;\n",
        "  wire s0_WE = 1'b1 /* open */;\n",
    ] {
        assert!(source.contains(line), "{line}");
    }
}

/// A's O6 in each clock is input 0.
#[test]
fn inputs_clock_by_clock() {
    let Some(cells) = iverilog::cells() else {
        return;
    };
    saved("clocks.bin", &passes_input());
    let runs: [(&[&str], &[u8]); 4] = [
        (&[], &[0]),
        (&["3"], &[0, 0, 0]),
        (&["2", "10"], &[1, 1]),
        (&["5", "10", "01", "10"], &[1, 0, 1, 1, 1]),
    ];
    for (words, expected) in runs {
        let source = source(&[&["clocks.bin"], words].concat());
        let rows = iverilog::run(&cells, &folder().join("clocks"), &source).expect("a run");
        let o6: Vec<u8> = rows.iter().map(|row| row[A]).collect();
        assert_eq!(o6, expected, "{words:?}");
    }
}

/// The script, from another folder, with a file named from there.
#[test]
fn script_runs_from_anywhere() {
    saved("script.bin", &passes_input());
    let words = ["script.bin", "3", "10"];
    let mut script = Command::new(repository().join("host/verilog"));
    let output = script.args(words).current_dir(folder()).output();
    assert_writes(&output.expect("the script"), 0, &source(&words));
}

/// With `+vcd` the run leaves the waves of every signal and pin.
#[test]
fn leaves_waves() {
    let Some(cells) = iverilog::cells() else {
        return;
    };
    saved("waves.bin", &passes_input());
    let path = folder().join("waves");
    let source = source(&["waves.bin"]);
    iverilog::run(&cells, &path, &source).expect("a run");
    let waves = folder().join("column.vcd");
    let _ = std::fs::remove_file(&waves);
    let mut command = Command::new("vvp");
    command
        .arg("-n")
        .arg(path.with_extension("vvp"))
        .arg("+vcd");
    let output = command.current_dir(folder()).output().expect("vvp");
    assert!(output.status.success());
    let waves = std::fs::read_to_string(waves).expect("the waves");
    for name in ["s0_A_O6", "s0_D5Q", "s0_A1", "s0_WE"] {
        assert!(waves.contains(&format!(" {name} $end")), "{name}");
    }
}
