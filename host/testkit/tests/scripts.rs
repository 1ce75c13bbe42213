//! `host/run` and the scripts over it, and the gate with an `rt`, a `cargo` and
//! an `apt-get` of the test's own.

use std::fs;
use std::path::Path;
use std::process::{Command, Output};

use testkit::command::{assert_fails, assert_writes};
use testkit::replica::Replica;
use testkit::run::repository;

const COMMANDS: [&str; 7] = [
    "bench", "clocks", "lookup", "model", "replay", "soak", "verilog",
];

fn run(script: &Path, words: &[&str]) -> Output {
    let output = Command::new(script).args(words).output();
    output.expect("the script")
}

/// A small repository with texts.
fn replica(name: &str, texts: &[(&str, &str)]) -> Replica {
    let folder = Path::new(env!("CARGO_TARGET_TMPDIR")).join(name);
    Replica::new(folder, texts)
}

#[test]
fn every_command_helps() {
    let host = repository().join("host");
    for name in COMMANDS {
        let text = fs::read_to_string(host.join("help").join(name)).expect("a help");
        assert!(text.starts_with(&format!("usage: {name} ")), "{text}");
        assert_writes(&run(&host.join("run"), &[name, "--help"]), 0, &text);
        let script = host.join(name);
        if script.is_file() {
            assert_writes(&run(&script, &["--help"]), 0, &text);
        }
    }
    let output = run(&host.join("run"), &["--help"]);
    let text = String::from_utf8_lossy(&output.stdout).into_owned();
    let is_told = |name: &&str| text.contains(&format!("\n  {name} "));
    assert!(COMMANDS.iter().all(is_told), "{text}");
    assert_writes(&output, 0, &text);
}

/// They hand on their words, and the command's status.
#[test]
fn scripts_run_their_command() {
    let host = repository().join("host");
    assert_fails(&run(&host.join("replay"), &["/"]), "replay: /: ");
    assert_fails(&run(&host.join("soak"), &["x y"]), "soak: one argument");
    let output = run(&host.join("run"), &["model", "/dev/null"]);
    assert_writes(&output, 1, "refused 1 0\n");
    assert_fails(&run(&host.join("run"), &["x"]), "run: no command 'x';");
    assert_fails(&run(&host.join("run"), &[]), "run: no command '';");
}

/// Where nothing is built they help, and say what to run.
#[test]
fn scripts_without_the_library() {
    for name in ["bench", "clocks", "lookup", "replay", "soak"] {
        let help = format!("root/host/help/{name}");
        let copy = replica("unbuilt", &[(&help, "helps\n")]);
        copy.copy(&["host/run"]);
        let run = |word| {
            let output = copy.command("host/run", &[name, word]).output();
            output.expect("the script")
        };
        assert_writes(&run("--help"), 0, "helps\n");
        let archive = copy.root().join("target/staticlib/libquagmuffin.a");
        let archive = archive.display();
        let line = format!("{name}: no archive at {archive}: run 'host/rt staticlib quagmuffin'\n");
        assert_fails(&run("x"), &line);
    }
}

const RESULT: &str = "test result: ok. 3 passed; 0 failed; 0 ignored";

/// The gate in a folder of its own, where `rt ci` writes a line, every test passes,
/// and all that is asked of the machine is there.
fn gate(name: &str, rt_says: &str) -> (Command, Replica) {
    let rt = format!("#!/bin/sh\n[ \"$*\" = ci ] && echo '{rt_says}'\n");
    let tests = |what| format!("#!/bin/sh\necho \"{what}: $*\"\necho '{RESULT}'\n");
    let program = "#!/bin/sh\necho \"quagmuffin $*\"\necho \"models: $CELLS, waves: $WAVES\"\n";
    let texts = [
        ("bin/rt", &rt[..]),
        ("bin/cargo", &tests("host")),
        ("bin/apt-get", "#!/bin/sh\necho \"$@\" >> words\n"),
        ("bin/iverilog", "#!/bin/sh\n"),
        ("bin/sigrok-cli", "#!/bin/sh\n"),
        ("models", ""),
        ("registry/clap-4.0.32/Cargo.toml", ""),
        ("registry/clap_complete-4.0.7/Cargo.toml", ""),
        ("registry/indicatif-0.17.3/Cargo.toml", ""),
        ("root/host/rt", "#!/bin/sh\n"),
        ("root/quagmuffin", program),
        ("root/host/cli/cargo", &tests("cli")),
    ];
    let copy = replica(name, &texts);
    copy.copy(&[".ci/run", "host/proved.sh"]);
    let mut command = copy.command(".ci/run", &[]);
    command.env("CELLS", copy.folder.join("models"));
    command.env("DEBIAN_CRATES", copy.folder.join("registry"));
    command.env_remove("WAVES").env_remove("NO_INSTALL");
    (command, copy)
}

/// A gate that wants for everything.
fn wanting_gate(name: &str) -> (Command, Replica) {
    let (mut gate, copy) = gate(name, "5 passed, 0 failed");
    gate.env("PATH", copy.path_without("iverilog"));
    for variable in ["CELLS", "WAVES", "DEBIAN_CRATES"] {
        gate.env(variable, "none");
    }
    (gate, copy)
}

/// What is said where something is still missing.
const MISSING: [&str; 3] = [
    "gate: no iverilog, or no models of the primitives at none: the tests that need them say so",
    "gate: no none, which reads waves back: the tests that need it say so",
    "gate: not all of librust-clap-dev librust-clap-complete-dev librust-indicatif-dev: \
     cargo takes crates from the network",
];

/// What the gate wrote, by lines, and its status.
fn lines(command: &mut Command) -> (Vec<String>, Option<i32>) {
    let output = command.output().expect("the gate");
    let text = String::from_utf8_lossy(&output.stdout);
    let lines = text.lines().map(str::to_string).collect();
    (lines, output.status.code())
}

#[test]
fn gate_helps() {
    let run = |word| {
        let (mut gate, _copy) = gate("gate helps", "0 passed, 9 failed");
        gate.arg(word).output().expect("the gate")
    };
    let output = run("--help");
    let text = String::from_utf8_lossy(&output.stdout).into_owned();
    assert!(text.starts_with("usage: .ci/run\n"), "{text}");
    assert_writes(&output, 0, &text);
    assert_fails(&run("now"), "gate: it takes no argument;");
}

#[test]
fn gate_adds_up() {
    let (mut gate, copy) = gate("gate", "5 passed, 0 failed");
    let (lines, status) = lines(&mut gate);
    let models = copy.folder.join("models");
    let models = format!("models: {}, waves: sigrok-cli", models.display());
    let expected = [
        "5 passed, 0 failed",
        "quagmuffin --version",
        &models,
        "host: test --release --offline --no-fail-fast --manifest-path host/Cargo.toml",
        RESULT,
        "cli: test --release --no-fail-fast",
        RESULT,
        "11 passed, 0 failed",
    ];
    assert_eq!(lines, expected);
    assert_eq!(status, Some(0));
    assert_eq!(copy.left("words"), "");
}

#[test]
fn gate_fails() {
    for (says, sum) in [
        ("4 passed, 1 failed", "10 passed, 1 failed"),
        ("nothing", "6 passed, 1 failed"),
    ] {
        let (lines, status) = lines(&mut gate("gate fails", says).0);
        assert_eq!(lines.last().map(String::as_str), Some(sum));
        assert_eq!(status, Some(1));
    }
    for script in ["root/host/rt", "root/quagmuffin", "root/host/cli/cargo"] {
        let (mut gate, copy) = gate("gate fails", "5 passed, 0 failed");
        copy.write(script, "#!/bin/sh\necho '3 passed; 0 failed'\nexit 2\n");
        let (lines, status) = lines(&mut gate);
        assert_eq!(
            lines.last().map(String::as_str),
            Some("11 passed, 1 failed")
        );
        assert_eq!(status, Some(1));
    }
}

/// An edit that can't be tried fails, though `rt ci` passes.
#[test]
fn gate_fails_on_a_bad_edit() {
    for (bad, sum) in [("", "11 passed, 0 failed"), (", 1 bad", "11 passed, 1 failed")] {
        let says = format!("rt: ok: all; must-fail edits: 3 refused{bad}\n5 passed, 0 failed");
        let (lines, status) = lines(&mut gate("gate edits", &says).0);
        assert_eq!(lines.last().map(String::as_str), Some(sum));
        assert_eq!(status, Some(i32::from(!bad.is_empty())));
    }
}

/// What is installed is said before, and it is installed before the program is built.
#[test]
fn gate_says_what_it_installs() {
    let (mut gate, copy) = wanting_gate("gate installs");
    let (lines, _) = lines(&mut gate);
    let packages = "iverilog yosys sigrok-cli \
        librust-clap-dev librust-clap-complete-dev librust-indicatif-dev";
    let install = "gate: installing with apt-get, for tests and for building (NO_INSTALL=1: don't)";
    assert_eq!(lines[1], format!("{install}: {packages}"));
    assert_eq!(lines[2..5], MISSING);
    assert_eq!(lines[5], "quagmuffin --version");
    let words = copy.left("words");
    let expected = format!(" install -y --no-install-recommends {packages}\n");
    assert!(words.ends_with(&expected), "{words}");
}

/// Only what is missing is installed.
#[test]
fn gate_installs_what_is_missing() {
    for (variable, packages) in [
        ("CELLS", "yosys"),
        ("WAVES", "sigrok-cli"),
        (
            "DEBIAN_CRATES",
            "librust-clap-dev librust-clap-complete-dev librust-indicatif-dev",
        ),
    ] {
        let (mut gate, copy) = gate("gate installs one", "5 passed, 0 failed");
        lines(gate.env(variable, "none"));
        let words = copy.left("words");
        let expected = format!(" install -y --no-install-recommends {packages}\n");
        assert!(words.ends_with(&expected), "{words}");
    }
}

#[test]
fn gate_installs_nothing_where_told() {
    let (mut gate, copy) = wanting_gate("gate leaves");
    let (lines, status) = lines(gate.env("NO_INSTALL", "1"));
    assert_eq!(lines[1..4], MISSING);
    assert_eq!(status, Some(0));
    assert_eq!(copy.left("words"), "");
}
