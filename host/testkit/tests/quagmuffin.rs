//! The command `quagmuffin` and the script `host/cli/cargo` that it builds by: that
//! it never runs a program of other sources, its errors, and what is handed on. They
//! run in a small copy of the repository, with an `rt` and a `cargo` of the test's own
//! that hand out an archive and a program.

use std::fs::{self, File};
use std::io::{BufRead, BufReader};
use std::path::Path;
use std::process::{Child, Command, Output, Stdio};
use std::thread::sleep;
use std::time::{Duration, SystemTime};

use testkit::command::{assert_fails, assert_says, assert_writes};
use testkit::replica::Replica;

/// `host/rt staticlib quagmuffin` that counts its runs and proves two crates.
const RT: &str = "#!/bin/sh
[ \"$*\" = 'staticlib quagmuffin' ] || exit 9
echo run >> proofs
echo 'rt: below proved (3 s)' >&2
mkdir -p target/staticlib && echo archive > target/staticlib/libquagmuffin.a
echo 'logic=proved functions=12'
echo 'rt: target/staticlib/libquagmuffin.a has the functions of quagmuffin that are marked'
";

/// A `cargo` that tells its words, and where it builds hands out the program.
const CARGO: &str = "#!/bin/sh
echo \"$*\" >> ../../words
[ \"$1\" = build ] || exit 0
echo run >> ../../builds
mkdir -p ../../target/host/release && cp ../../../program ../../target/host/release/quagmuffin
";

/// A `cargo` that tells its folder, its words and the lock that it finds, leaves
/// another, and fails.
const LOCKING_CARGO: &str = "#!/bin/sh
echo \"in ${PWD##*/}, lock: $(cat Cargo.lock)\"
printf '[%s]' \"$@\"
echo new > Cargo.lock
exit 101
";

/// Helps, or tells its folder, its words and its input and ends with the status
/// that the second word says.
const PROGRAM: &str = "#!/bin/sh
[ \"$1\" != --help ] || exec echo helps
echo \"in ${PWD##*/}\"
printf '[%s]\\n' \"$@\"
cat
exit $2
";

/// A command that ends with 0.
const RUN: [&str; 2] = ["run", "0"];

const CLI: &str = "\
[package]
name = \"cli\"

[[bin]]
path = \"src/main.rs\"

[dependencies]
clap = \"4.0\"
low = { path = \"../low\" }

[dev-dependencies]
kit = { path = \"../kit\" }
";

const LOW: &str = "[dependencies]\ncalls = { path = \"../calls\" }\n";

const PROVING: &str = "\
quagmuffin: proving the library for these sources; from nothing that takes some minutes
quagmuffin: proved 1 of 2: below (3 s)
quagmuffin: proved 2 of 2: quagmuffin
";

const BUILDING: &str = "quagmuffin: building the program; from nothing that takes a minute\n";

/// A small repository beside a program, an `rt` and a `cargo`.
fn replica(name: &str) -> Replica {
    let layers = "# layers\nbelow:\nbeside: below\nquagmuffin: below io # two\n";
    let texts = [
        ("program", PROGRAM),
        ("root/host/rt", RT),
        ("bin/cargo", CARGO),
        ("root/crates.txt", layers),
        ("root/crates/below/specs/Low.antt", "one"),
        ("root/crates/below/must-fail/wrong.edit", "one"),
        ("root/crates/beside/src/lib.rt", "one"),
        ("root/crates/quagmuffin/src/lib.rt", "one"),
        ("root/.cargo/config.toml", "one"),
        ("root/host/cli/Cargo.toml", CLI),
        ("root/host/cli/src/main.rs", "one"),
        ("root/host/low/Cargo.toml", LOW),
        ("root/host/low/src/lib.rs", "one"),
        ("root/host/calls/Cargo.toml", "[package]\n"),
        ("root/host/calls/build.rs", "one"),
        ("root/host/calls/src/lib.rs", "one"),
        ("root/host/kit/Cargo.toml", "[package]\n"),
        ("root/host/kit/src/lib.rs", "one"),
    ];
    let folder = Path::new(env!("CARGO_TARGET_TMPDIR")).join(format!("quagmuffin {name}"));
    let copy = Replica::new(folder, &texts);
    copy.copy(&["quagmuffin", "host/proved.sh", "host/cli/cargo"]);
    copy
}

/// A copy with the program built.
fn built(name: &str) -> Replica {
    let copy = replica(name);
    assert_eq!(run(&copy, &RUN).status.code(), Some(0));
    copy
}

/// Script and words, with crates of Debian's where the test has put them.
fn script(copy: &Replica, name: &str, words: &[&str]) -> Command {
    let mut command = copy.command(name, words);
    command.env("DEBIAN_CRATES", copy.folder.join("registry"));
    command
}

fn run(copy: &Replica, words: &[&str]) -> Output {
    let output = script(copy, "quagmuffin", words).output();
    output.expect("the command")
}

fn cargo(copy: &Replica, words: &[&str]) -> Output {
    let output = script(copy, "host/cli/cargo", words).output();
    output.expect("the script")
}

/// How often the library was proved and the program built.
fn runs(copy: &Replica) -> (usize, usize) {
    (copy.count("proofs"), copy.count("builds"))
}

/// Has the packages of Debian installed, of these versions.
fn install(copy: &Replica, versions: [&str; 3]) {
    let registry = copy.folder.join("registry");
    let _ = fs::remove_dir_all(&registry);
    for version in versions {
        fs::create_dir_all(registry.join(version)).expect("a folder");
    }
}

const INSTALLED: [&str; 3] = ["clap-4.0.32", "clap_complete-4.0.7", "indicatif-0.17.3"];

/// The path of the log, as the command writes it.
fn log(copy: &Replica) -> String {
    let path = copy.root().join("target/quagmuffin-build.log");
    path.display().to_string()
}

#[test]
fn says_how_far_it_is() {
    let copy = replica("progress");
    let output = run(&copy, &RUN);
    let said = String::from_utf8_lossy(&output.stderr);
    assert_eq!(said, format!("{PROVING}{BUILDING}"));
    let target = copy.root().join("target/host");
    let target = target.display();
    let words = format!(
        "clean --release --target-dir {target} --package=cli --package=low --package=calls\n\
         build --release --target-dir {target}\n"
    );
    assert_eq!(copy.left("words"), words);
}

/// Words, folder, input and status are those of the program.
#[test]
fn hands_on() {
    let copy = replica("handed on");
    let reading = |text: &str| text.replacen("echo", "cat > /dev/null\necho", 1);
    copy.write("root/host/rt", &reading(RT));
    copy.write("bin/cargo", &reading(CARGO));
    copy.write("here/input", "line\n");
    let run = |words: &[&str]| {
        let input = File::open(copy.folder.join("here/input")).expect("the input");
        let mut command = script(&copy, "quagmuffin", words);
        command.current_dir(copy.folder.join("here")).stdin(input);
        command.output().expect("the command")
    };
    let first = run(&["run", "1", "a  b"]);
    assert_eq!(first.stdout, b"in here\n[run]\n[1]\n[a  b]\nline\n");
    assert_eq!(first.status.code(), Some(1));
    let output = run(&["x", "0", "", "--help", "*"]);
    assert_writes(&output, 0, "in here\n[x]\n[0]\n[]\n[--help]\n[*]\nline\n");
    assert_writes(&run(&["run", "2"]), 2, "in here\n[run]\n[2]\nline\n");
    assert_writes(&run(&["--help"]), 0, "helps\n");
    assert_eq!(runs(&copy), (1, 1));
}

/// It is built again exactly when something changed that it is built from, and
/// proved again when it was a crate.
#[test]
fn built_again_when_sources_change() {
    let copy = built("changes");
    let one_more = "below:\nbeside: below\nquagmuffin: below beside\n";
    let with_kit = format!("{LOW}kit = {{ path = \"../kit\" }}\n");
    for (name, text, expected) in [
        ("crates/beside/src/lib.rt", "two", (1, 1)),
        ("crates/below/must-fail/wrong.edit", "two", (1, 1)),
        ("host/cli/tests/words.rs", "one", (1, 1)),
        ("host/cli/Cargo.lock", "one", (1, 1)),
        ("host/low/tests/low.rs", "one", (1, 1)),
        ("host/kit/src/lib.rs", "two", (1, 1)),
        ("host/cli/src/main.rs", "two", (1, 2)),
        ("host/calls/build.rs", "two", (1, 3)),
        ("host/calls/src/new/mod.rs", "one", (1, 4)),
        ("host/low/Cargo.toml", &with_kit, (1, 5)),
        ("host/kit/src/lib.rs", "one", (1, 6)),
        (".cargo/config.toml", "two", (1, 7)),
        ("crates/below/specs/Low.antt", "two", (2, 8)),
        ("crates/quagmuffin/src/lib.rt", "two", (3, 9)),
        ("crates.txt", one_more, (4, 10)),
        ("crates/beside/src/lib.rt", "one", (5, 11)),
        ("host/cli/src/main.rs", "one", (5, 12)),
    ] {
        copy.write(&format!("root/{name}"), text);
        for _ in 0..2 {
            assert_eq!(run(&copy, &RUN).status.code(), Some(0));
        }
        assert_eq!(runs(&copy), expected, "{name}");
    }
    let kept = fs::read_dir(copy.root().join("target/quagmuffin"));
    assert_eq!(kept.expect("the folder").count(), 1);
}

/// Crates of Debian's are what it is built from, where all are there.
#[test]
fn built_again_with_other_packages() {
    let copy = built("packages");
    for (version, builds) in [
        ("indicatif-0.16.2", 1),
        ("indicatif-0.17.3", 2),
        ("indicatif-0.17.4", 3),
    ] {
        install(&copy, [INSTALLED[0], INSTALLED[1], version]);
        assert_eq!(run(&copy, &RUN).status.code(), Some(0));
        assert_eq!(runs(&copy), (1, builds), "{version}");
    }
}

/// An archive that was made otherwise, or removed, is none of these crates.
#[test]
fn archives_of_others() {
    let copy = built("archives");
    let archive = copy.root().join("target/staticlib/libquagmuffin.a");
    let later = SystemTime::now() + Duration::from_secs(60);
    let file = File::options().write(true).open(&archive);
    let touched = file.and_then(|file| file.set_modified(later));
    touched.expect("the archive");
    copy.write("root/host/cli/src/main.rs", "two");
    run(&copy, &RUN);
    assert_eq!(runs(&copy), (2, 2));
    fs::remove_file(&archive).expect("the archive");
    copy.write("root/host/cli/src/main.rs", "three");
    run(&copy, &RUN);
    assert_eq!(runs(&copy), (3, 3));
}

/// Without a tool it runs the program of these sources, and no other. The library
/// is only proved where it has changed.
#[test]
fn without_rt_or_cargo() {
    let copy = built("without");
    let run = |tool| {
        let mut command = script(&copy, "quagmuffin", &RUN);
        let output = command.env("PATH", copy.path_without(tool)).output();
        output.expect("the command")
    };
    let missing = |tool, does| {
        let not_built = "quagmuffin: the program is not built for these sources";
        format!("{not_built}, and {tool}, which {does}, is not on the PATH\n")
    };
    for tool in ["rt", "cargo"] {
        assert_writes(&run(tool), 0, "in quagmuffin without\n[run]\n[0]\n");
    }
    copy.write("root/host/cli/src/main.rs", "two");
    assert_fails(&run("cargo"), &missing("cargo", "builds it"));
    assert_eq!(run("rt").status.code(), Some(0));
    copy.write("root/crates/below/specs/Low.antt", "two");
    assert_fails(&run("rt"), &missing("rt", "proves its library"));
    assert_fails(&run("cargo"), &missing("cargo", "builds it"));
    assert_eq!(runs(&copy), (1, 2));
}

#[test]
fn help_while_there_is_no_program() {
    let copy = replica("help");
    for word in ["--help", "-h", "help"] {
        let output = run(&copy, &[word]);
        let text = String::from_utf8_lossy(&output.stdout).into_owned();
        assert!(text.starts_with("usage: quagmuffin COMMAND "), "{text}");
        let commands =
            "\nCommands: judge receive explain show write run diff verilog completions\n";
        assert!(text.contains(commands), "{text}");
        assert_writes(&output, 0, &text);
    }
    let no_command = "quagmuffin: no command 'x'; --help says what there is\n";
    assert_fails(&run(&copy, &["x"]), no_command);
    let no_command = "quagmuffin: no command is named; --help says what there is\n";
    assert_fails(&run(&copy, &[]), no_command);
    assert_eq!(runs(&copy), (0, 0));
}

/// A closed standard input is no empty one; it matters where it is read.
#[test]
fn closed_input() {
    let copy = built("closed");
    let run = |words: &str| {
        let line = format!("exec bash root/quagmuffin {words} <&-");
        let mut closed = Command::new("sh");
        closed.args(["-c", &line]).current_dir(&copy.folder);
        closed.env("DEBIAN_CRATES", copy.folder.join("registry"));
        closed.output().expect("sh")
    };
    for words in [
        "run 0 -",
        "receive",
        "receive -",
        "receive -o file --idle 2",
        "receive --output file --idle=2 -",
    ] {
        assert_fails(&run(words), "quagmuffin: standard input: is closed\n");
    }
    for words in [
        "run 0 file",
        "receive file",
        "receive file --idle 2",
        "receive -o kept --idle 2 file",
        "receive --help",
    ] {
        let written = run(words).stdout;
        assert!(written.starts_with(b"in quagmuffin closed\n"), "{words}");
    }
}

/// Where the proof fails nothing is built, and the old program is not run.
#[test]
fn failing_proof() {
    let copy = built("failing proof");
    let rt =
        "#!/bin/sh\necho run >> proofs\necho 'rt: below NOT PROVED (exit 1, 2 s)' >&2\nexit 1\n";
    copy.write("root/host/rt", rt);
    copy.write("root/crates/below/specs/Low.antt", "two");
    let first = PROVING.lines().next().expect("a line");
    let log = log(&copy);
    let lines = format!(
        "{first}\n\
         quagmuffin: below NOT PROVED (exit 1, 2 s)\n\
         quagmuffin: host/rt staticlib quagmuffin failed, so there is no program; {log} says why\n"
    );
    for proofs in [2, 3] {
        assert_says(&run(&copy, &RUN), 2, &lines);
        assert_eq!(runs(&copy), (proofs, 1));
    }
}

/// Where it can't be built the old program is not run, and what was proved is kept.
#[test]
fn failing_build() {
    let copy = built("failing build");
    let cargo = "#!/bin/sh\necho run >> ../../builds\necho \"error: $1\" >&2\nexit 101\n";
    copy.write("bin/cargo", cargo);
    copy.write("root/crates/below/specs/Low.antt", "two");
    let log = log(&copy);
    let fails = format!("{BUILDING}quagmuffin: can't be built; {log} says why\n");
    assert_says(&run(&copy, &RUN), 2, &format!("{PROVING}{fails}"));
    assert_says(&run(&copy, &RUN), 2, &fails);
    assert_eq!(runs(&copy), (2, 3));
    let text = fs::read_to_string(log).expect("the log");
    assert_eq!(text, "error: clean\n");
}

/// A program that was there before is not taken for the one that is missing.
#[test]
fn build_without_a_program() {
    let copy = built("no program");
    copy.write("bin/cargo", "#!/bin/sh\n");
    copy.write("root/host/cli/src/main.rs", "two");
    let target = copy.root().join("target");
    let target = target.display();
    let why = format!(
        "quagmuffin: {target}/host/release/quagmuffin: can't be kept in {target}/quagmuffin\n"
    );
    assert_says(&run(&copy, &RUN), 2, &format!("{BUILDING}{why}"));
}

/// With neither packages nor a network it says which packages to install.
#[test]
fn nothing_to_build_with() {
    let copy = built("nothing");
    copy.write("root/host/cli/src/main.rs", "two");
    let install_them = "quagmuffin: can't be built: cargo has no network to take crates from; \
        install the packages librust-clap-dev librust-clap-complete-dev librust-indicatif-dev\n";
    for why in [
        "  failed to download from `https://index.crates.io/config.json`",
        "  failed to fetch `https://github.com/rust-lang/crates.io-index`",
        "As a reminder, you are using offline mode (--offline)",
    ] {
        let _ = fs::remove_dir_all(copy.folder.join("registry"));
        let cargo = format!("#!/bin/sh\necho '{why}' >&2\nexit 101\n");
        copy.write("bin/cargo", &cargo);
        let lines = format!("{BUILDING}{install_them}");
        assert_says(&run(&copy, &RUN), 2, &lines);
        install(&copy, INSTALLED);
        let log = log(&copy);
        let lines = format!("{BUILDING}quagmuffin: can't be built; {log} says why\n");
        assert_says(&run(&copy, &RUN), 2, &lines);
    }
}

/// What was proved or built is not what stands there now.
#[test]
fn sources_that_change_meanwhile() {
    let copy = replica("meanwhile");
    let proving = format!("{RT}echo two >> crates/below/specs/Low.antt\n");
    copy.write("root/host/rt", &proving);
    let changed = "quagmuffin: the sources changed while they were";
    let lines = format!("{PROVING}{changed} proved: run it again\n");
    assert_says(&run(&copy, &RUN), 2, &lines);
    assert_eq!(runs(&copy), (1, 0));
    let building = format!("{CARGO}echo two >> ../low/src/lib.rs\n");
    copy.write("root/host/rt", RT);
    copy.write("bin/cargo", &building);
    let lines = format!("{PROVING}{BUILDING}{changed} built: run it again\n");
    assert_says(&run(&copy, &RUN), 2, &lines);
    copy.write("bin/cargo", CARGO);
    assert_eq!(run(&copy, &RUN).status.code(), Some(0));
    assert_eq!(runs(&copy), (2, 2));
}

#[test]
fn sources_that_are_missing() {
    let copy = built("unreadable");
    let root = copy.root();
    let why = format!(
        "quagmuffin: {}: its sources can't be read\n",
        root.display()
    );
    for name in ["host/calls", "crates/below", "crates.txt"] {
        fs::rename(root.join(name), root.join("away")).expect("a source");
        assert_fails(&run(&copy, &RUN), &why);
        fs::rename(root.join("away"), root.join(name)).expect("a source");
    }
}

fn start(copy: &Replica, name: &str, words: &[&str]) -> Child {
    let mut command = script(copy, name, words);
    command.stdout(Stdio::piped()).stderr(Stdio::piped());
    command.spawn().expect("the command")
}

/// Starts `quagmuffin`, and another command while that one is proving. The proof ends
/// once the other has said its first line, which is given with both.
fn start_while_proving(copy: &Replica, other: &str, words: &[&str]) -> (String, [Child; 2]) {
    let wait = "until [ -e ../go ]; do sleep 0.02; done; mkdir";
    copy.write("root/host/rt", &RT.replace("mkdir", wait));
    let mut first = start(copy, "quagmuffin", &RUN);
    while copy.count("proofs") == 0 {
        assert!(first.try_wait().expect("the command").is_none());
        sleep(Duration::from_millis(10));
    }
    let mut second = start(copy, other, words);
    let mut line = String::new();
    let mut said = BufReader::new(second.stderr.take().expect("a pipe"));
    let read = said.read_line(&mut line);
    copy.write("go", "");
    read.expect("a line");
    second.stderr = Some(said.into_inner());
    (line, [first, second])
}

/// Of two runs one builds, and the other waits for it and says so.
#[test]
fn two_at_once() {
    let copy = replica("twice");
    let (line, children) = start_while_proving(&copy, "quagmuffin", &RUN);
    let waiting = "quagmuffin: waiting for another run, which is proving or building\n";
    assert_eq!(line, waiting);
    for child in children {
        let output = child.wait_with_output().expect("the command");
        assert_eq!(output.stdout, b"in quagmuffin twice\n[run]\n[0]\n");
        assert_eq!(output.status.code(), Some(0));
    }
    assert_eq!(runs(&copy), (1, 1));
}

/// What cargo leaves running doesn't keep the next run waiting.
#[test]
fn what_runs_on_holds_no_lock() {
    let copy = replica("runs on");
    let server = "sleep 3 > /dev/null 2>&1 < /dev/null &";
    copy.write("bin/cargo", &format!("{CARGO}{server}\n"));
    assert_eq!(run(&copy, &RUN).status.code(), Some(0));
    copy.write("root/host/cli/src/main.rs", "two");
    let output = run(&copy, &RUN);
    assert_eq!(String::from_utf8_lossy(&output.stderr), BUILDING);
}

/// It proves in the same folder.
#[test]
fn judge_waits_too() {
    let copy = replica("judge");
    let layers = "below:\nquagmuffin: below\njudge: below\n";
    copy.write("root/crates.txt", layers);
    copy.write("root/crates/judge/src/main.rt", "one");
    copy.write("file", "");
    copy.copy(&["judge"]);
    let (line, children) = start_while_proving(&copy, "judge", &["file"]);
    let waiting = "judge: waiting for another run, which is proving or building\n";
    assert_eq!(line, waiting);
    let [first, second] = children.map(|child| child.wait_with_output().expect("the command"));
    assert_eq!(first.status.code(), Some(0));
    assert_eq!(second.status.code(), Some(2));
}

/// All words of `host/cli/cargo` are cargo's, and its status is cargo's. Where the
/// packages are installed crates are taken from there, and no lock is used or left.
#[test]
fn cargo_with_and_without_packages() {
    let copy = replica("cargo");
    copy.write("bin/cargo", LOCKING_CARGO);
    let lock = copy.root().join("host/cli/Cargo.lock");
    for versions in [
        ["none"; 3],
        ["clap-3.2.1", "clap_complete-4.0.7", "indicatif-0.17.3"],
        ["clap-4.0.32", "clap_derive-4.0.7", "indicatif-0.17.3"],
    ] {
        install(&copy, versions);
        fs::write(&lock, "old").expect("a lock");
        let output = cargo(&copy, &["test", "--release", "--", "a  b"]);
        assert_writes(
            &output,
            101,
            "in cli, lock: old\n[test][--release][--][a  b]",
        );
        assert_eq!(copy.left("host/cli/Cargo.lock"), "new\n");
    }
    install(&copy, INSTALLED);
    let output = cargo(&copy, &["test", "--release", "--", "a  b"]);
    let registry = copy.folder.join("registry");
    let expected = format!(
        "in cli, lock: \n[test][--offline][--config][source.crates-io.replace-with=\"debian\"]\
         [--config][source.debian.directory=\"{}\"][--release][--][a  b]",
        registry.display()
    );
    assert_eq!(String::from_utf8_lossy(&output.stdout), expected);
    assert_eq!(output.status.code(), Some(101));
    assert!(!lock.exists());
}

#[test]
fn cargo_that_is_missing() {
    let copy = replica("no cargo");
    let mut command = script(&copy, "host/cli/cargo", &["build"]);
    let output = command.env("PATH", copy.path_without("cargo")).output();
    let why = "host/cli/cargo: cargo is not on the PATH\n";
    assert_fails(&output.expect("the script"), why);
}
