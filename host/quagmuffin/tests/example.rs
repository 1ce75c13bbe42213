//! The example in C and edits from C, compiled with the header against the archive, and run.

use std::fs::File;
use std::path::{Path, PathBuf};
use std::process::{Command, Stdio};
use testkit::cases::worked_file;

/// Compiles a source of `host/` with every warning an error.
fn compiled(source: &str) -> PathBuf {
    let root = Path::new(env!("CARGO_MANIFEST_DIR")).join("../..");
    let source = root.join("host").join(source);
    let name = source.file_stem().expect("a name");
    let program = Path::new(env!("CARGO_TARGET_TMPDIR")).join(name);
    let status = Command::new("gcc")
        .args(["-std=c99", "-Wall", "-Wextra", "-Wpedantic", "-Werror"])
        .arg("-I")
        .arg(root.join("include"))
        .arg(&source)
        .arg(root.join("target/staticlib/libquagmuffin.a"))
        .arg("-o")
        .arg(&program)
        .status()
        .expect("gcc");
    assert!(status.success(), "{} doesn't compile", source.display());
    program
}

/// What the example writes, given a worked case's file.
fn output(program: &Path, number: usize) -> String {
    let file = Path::new(env!("CARGO_TARGET_TMPDIR")).join(format!("case-{number}"));
    std::fs::write(&file, worked_file(number)).expect("a file");
    let output = Command::new(program)
        .stdin(Stdio::from(File::open(&file).expect("the file")))
        .output()
        .expect("the example");
    String::from_utf8(output.stdout).expect("text")
}

#[test]
fn example_in_c() {
    let program = compiled("example/settle.c");
    // Signals 0, 4, 12 and 20 are 1 in case 2; case 5 has a loop at signal 0.
    assert_eq!(output(&program, 2), "10001000000010000000100000000000\n");
    assert_eq!(output(&program, 5), "refused 9 0\n");
}

/// The struct's fields are where the library reads them, and what is between them makes no difference.
#[test]
fn edits_in_c() {
    let program = compiled("quagmuffin/tests/edit.c");
    let output = Command::new(program).output().expect("the program");
    // Input 0 is set, A's contents twice; then the input is cleared together with a kind that there is none of.
    let lines = "0: 10001000000010000000100000000000 input 1 contents 2\n\
                 11: 10001000000010000000100000000000 input 1 contents 2\n";
    assert_eq!(String::from_utf8_lossy(&output.stdout), lines);
}
