//! Help, version, completions and wrong words.

use std::fs::File;

use testkit::command::assert_fails;
use testkit::run::repository;

use crate::folder::{written, Folder};

const COMMANDS: [&str; 9] = [
    "judge",
    "receive",
    "explain",
    "show",
    "write",
    "run",
    "diff",
    "verilog",
    "completions",
];

#[test]
fn every_command_helps() {
    let folder = Folder::new("help");
    let text = folder.text(&["--help"]);
    for command in COMMANDS {
        assert!(text.contains(&format!("\n  {command}")), "{command}");
        for word in ["--help", "-h"] {
            let help = folder.text(&[command, word]);
            assert!(
                help.contains(&format!("Usage: quagmuffin {command} ")),
                "{help}"
            );
            assert!(
                help.ends_with('\n') && help.lines().all(|line| line.chars().count() <= 100),
                "{help}"
            );
        }
    }
    assert!(
        text.lines().all(|line| line.chars().count() <= 100),
        "{text}"
    );
    // The script has the same list, for before the program is built.
    let script = std::fs::read_to_string(repository().join("quagmuffin")).expect("the script");
    assert!(script.contains(&format!("\ncommands=({})\n", COMMANDS.join(" "))));
    let version = format!("quagmuffin {}\n", env!("CARGO_PKG_VERSION"));
    assert_eq!(folder.text(&["--version"]), version);
}

#[test]
fn completions_know_the_commands() {
    let folder = Folder::new("completions");
    for shell in ["bash", "elvish", "fish", "powershell", "zsh"] {
        let script = folder.text(&["completions", shell]);
        for word in COMMANDS.iter().chain(&["clocks", "watch", "vcd", "idle"]) {
            assert!(script.contains(word), "{shell}: {word}");
        }
    }
    let mut bash = std::process::Command::new("bash");
    folder.put("script", folder.text(&["completions", "bash"]).as_bytes());
    let status = bash.arg("-n").arg(folder.path("script")).status();
    assert!(status.expect("bash").success());
}

#[test]
fn wrong_words_get_one_line() {
    let folder = Folder::with_files("words");
    let words: [&[&str]; 24] = [
        &[],
        &["x"],
        &["--x"],
        &["judge"],
        &["judge", "--x", "z"],
        &["receive", "z", "z"],
        &["receive", "z", "-o"],
        &["receive", "z", "--idle", "0"],
        &["receive", "z", "--idle", "86401"],
        &["receive", "z", "--idle", "nan"],
        &["receive", "z", "--idle", "2 s"],
        &["explain", "z", "z"],
        &["show", "z", "--slice", "x"],
        &["show", "z", "--slice"],
        &["write", "z"],
        &["run"],
        &["run", "z", "--clocks", "0"],
        &["run", "z", "--clocks", "1000001"],
        &["run", "z", "--clocks", "-1"],
        &["run", "z", "--clocks", "x\ny"],
        &["run", "z", "--watch"],
        &["diff", "z"],
        &["completions", "x"],
        &["verilog", "z", "3"],
    ];
    for words in words {
        let output = folder.run(words);
        assert_fails(&output, "quagmuffin: ");
        let said = String::from_utf8_lossy(&output.stderr).into_owned();
        assert!(said.ends_with("; --help says what there is\n"), "{said}");
    }
}

/// What can't be written is said, and is no success.
#[test]
fn full_output() {
    let folder = Folder::with_files("full");
    let words: [&[&str]; 7] = [
        &["judge", "z"],
        &["receive", "z"],
        &["explain", "z"],
        &["show", "z"],
        &["run", "z"],
        &["verilog", "z"],
        &["--help"],
    ];
    for words in words {
        let full = File::create("/dev/full").expect("the device");
        let output = folder.command(words).stdout(full).output();
        assert_fails(
            &output.expect("the binary"),
            "quagmuffin: standard output: No space",
        );
    }
    for words in [
        ["run", "z", "--vcd", "/dev/full"],
        ["run", "z", "--csv", "/dev/full"],
        ["receive", "z", "-o", "/dev/full"],
    ] {
        let output = folder.run(&words);
        assert_fails(&output, "quagmuffin: /dev/full: No space");
    }
}

/// Where nothing can be said the status still tells.
#[test]
fn full_errors() {
    let folder = Folder::with_files("full errors");
    let output = folder.shell("quagmuffin judge none 2> /dev/full");
    assert_eq!(
        (output.status.code(), &output.stdout[..]),
        (Some(2), &b""[..])
    );
}

/// A reader that goes away is told nothing.
#[test]
fn broken_pipe() {
    let folder = Folder::with_files("pipe");
    let output = folder.shell("quagmuffin run z --clocks 100000 | head -n 1");
    assert!(written(&output, 0).starts_with("clock "));
}
