//! The command `judge`: its verdicts as exit statuses, its errors, and that it
//! never runs a program of other sources. All but one test run it in a small copy
//! of the repository, with an `rt` of the test's own that hands out a program.

use std::fs::{self, File};
use std::os::unix::net::UnixListener;
use std::path::Path;
use std::process::{Command, Output, Stdio};

use testkit::cases::worked_file;
use testkit::column::Column;
use testkit::command::{assert_fails, assert_writes};
use testkit::replica::Replica;
use testkit::run::{judge_path, repository};

/// `host/rt check judge` that counts its runs and proves two crates.
const RT: &str = "#!/bin/sh
[ \"$*\" = 'check judge' ] || exit 9
echo run >> runs
echo 'rt: below proved (3 s)'
mkdir -p target/bin && cp ../program target/bin/judge
echo 'rt: judge proved (4 s)'
";

const PROGRESS: &str = "\
judge: proving the program and building it for these sources; from nothing that takes some two minutes
judge: proved 1 of 2: below (3 s)
judge: proved 2 of 2: judge (4 s)
";

/// A small repository beside a program and an `rt`.
fn replica(name: &str) -> Replica {
    let layers = "# layers\nbelow:\nbeside: below\njudge: below io # two\n";
    let texts = [
        ("bin/rt", "#!/bin/sh\nexit 9\n"),
        ("root/host/rt", RT),
        ("root/crates.txt", layers),
        ("root/crates/below/specs/Low.antt", "one"),
        ("root/crates/below/must-fail/wrong.edit", "one"),
        ("root/crates/beside/src/lib.rt", "one"),
        ("root/crates/judge/src/main.rt", "one"),
    ];
    let folder = Path::new(env!("CARGO_TARGET_TMPDIR")).join(format!("judge {name}"));
    let copy = Replica::new(folder, &texts);
    copy.copy(&["judge", "host/proved.sh"]);
    fs::copy(judge_path(), copy.folder.join("program")).expect("the program");
    copy
}

/// A copy with the program built.
fn built(name: &str) -> Replica {
    let copy = replica(name);
    assert_eq!(judge(&copy, &[]).status.code(), Some(1));
    copy
}

fn judge(copy: &Replica, words: &[&str]) -> Output {
    let output = copy.command("judge", words).output();
    output.expect("the command")
}

/// In the repository itself, where the proof is real.
#[test]
fn judges_in_the_repository() {
    let path = Path::new(env!("CARGO_TARGET_TMPDIR")).join("whole.bin");
    fs::write(&path, worked_file(1)).expect("a file");
    let run = || {
        let mut command = Command::new(repository().join("judge"));
        command.arg(&path).output().expect("the command")
    };
    let first = run();
    let said = String::from_utf8_lossy(&first.stderr);
    assert_eq!(
        (first.status.code(), &first.stdout[..]),
        (Some(0), &b"accepted 1 0\n"[..]),
        "{said}"
    );
    assert_writes(&run(), 0, "accepted 1 0\n");
}

#[test]
fn statuses_are_verdicts() {
    let copy = built("statuses");
    fs::write(copy.folder.join("z"), worked_file(1)).expect("a file");
    fs::write(copy.folder.join("looped"), worked_file(6)).expect("a file");
    assert_writes(&judge(&copy, &["z"]), 0, "accepted 1 0\n");
    assert_writes(&judge(&copy, &["looped"]), 1, "refused 9 4\n");
    for words in [&[][..], &["-"]] {
        assert_writes(&judge(&copy, words), 1, "refused 1 0\n");
        let file = File::open(copy.folder.join("z")).expect("the file");
        let output = copy.command("judge", words).stdin(file).output();
        assert_writes(&output.expect("the command"), 0, "accepted 1 0\n");
    }
}

/// Nothing is cut off the longest file, and endless input is judged.
#[test]
fn long_input() {
    let copy = built("long");
    let mut file = Column::zeros(64, 64).bytes();
    fs::write(copy.folder.join("longest"), &file).expect("a file");
    file.push(0);
    fs::write(copy.folder.join("longer"), &file).expect("a file");
    assert_writes(&judge(&copy, &["longest"]), 0, "accepted 64 64\n");
    assert_writes(&judge(&copy, &["longer"]), 1, "refused 8 8136\n");
    assert_writes(&judge(&copy, &["/dev/zero"]), 1, "refused 2 0\n");
}

/// What is wrong with the words or the input is told before anything is proved.
#[test]
fn no_verdict_on_wrong_words() {
    let copy = replica("words");
    let _socket = UnixListener::bind(copy.folder.join("socket")).expect("a socket");
    for (words, line) in [
        (&["z", "z"][..], "more than one argument; judge --help says"),
        (&["-x"], "no option -x; judge --help says"),
        (&["--all"], "no option --all; judge --help says"),
        (&["none"], "none: no such file\n"),
        (&[""], ": no such file\n"),
        (&["bin"], "bin: is a directory\n"),
        (&["socket"], "socket: can't be opened\n"),
    ] {
        assert_fails(&judge(&copy, words), &format!("judge: {line}"));
    }
    let folder = File::open("/").expect("a folder");
    let output = copy.command("judge", &[]).stdin(folder).output();
    let why = "judge: standard input: is a directory\n";
    assert_fails(&output.expect("the command"), why);
    let mut closed = Command::new("sh");
    closed.args(["-c", "exec bash root/judge <&-"]);
    let output = closed.current_dir(&copy.folder).output();
    assert_fails(&output.expect("sh"), "judge: standard input: is closed\n");
    assert_eq!(copy.count("runs"), 0);
}

/// What can be opened and not read is no end of the input.
#[test]
fn no_verdict_on_what_cannot_be_read() {
    let copy = built("unreadable");
    let output = judge(&copy, &["/proc/self/mem"]);
    assert_fails(&output, "judge: /proc/self/mem: can't be read\n");
    let written = File::create(copy.folder.join("written")).expect("a file");
    let output = copy.command("judge", &[]).stdin(written).output();
    let why = "judge: standard input: can't be read\n";
    assert_fails(&output.expect("the command"), why);
}

#[test]
fn help() {
    let copy = replica("help");
    let output = judge(&copy, &["--help"]);
    let text = String::from_utf8_lossy(&output.stdout).into_owned();
    assert!(text.starts_with("usage: judge [FILE]\n"), "{text}");
    assert_writes(&output, 0, &text);
    assert_eq!(copy.count("runs"), 0);
}

/// A verdict that can't be written is none.
#[test]
fn full_output() {
    let copy = built("full");
    let full = File::create("/dev/full").expect("the device");
    let output = copy
        .command("judge", &[])
        .stdout(full)
        .output()
        .expect("the command");
    assert_fails(&output, "judge: the verdict can't be written\n");
}

#[test]
fn says_how_far_it_is() {
    let output = judge(&replica("progress"), &[]);
    assert_eq!(String::from_utf8_lossy(&output.stderr), PROGRESS);
    assert_eq!(String::from_utf8_lossy(&output.stdout), "refused 1 0\n");
}

/// It is built again exactly when something changed that it is built from.
#[test]
fn built_again_when_sources_change() {
    let copy = built("changes");
    let low = "root/crates/below/specs/Low.antt";
    let one_less = "below:\nbeside: below\njudge: below\n";
    let one_more = "below:\nbeside: below\njudge: beside\n";
    for (name, text, runs) in [
        (low, "one", 1),
        ("root/crates/beside/src/lib.rt", "two", 1),
        ("root/crates/below/must-fail/wrong.edit", "two", 1),
        (low, "two", 2),
        ("root/crates/below/proofs/New.antt", "one", 3),
        ("root/crates/judge/src/main.rt", "two", 4),
        ("root/crates.txt", one_less, 5),
        ("root/crates.txt", one_more, 6),
        ("root/crates/beside/src/lib.rt", "three", 7),
        (low, "one", 8),
    ] {
        copy.write(name, text);
        for _ in 0..2 {
            assert_eq!(judge(&copy, &[]).status.code(), Some(1));
        }
        assert_eq!(copy.count("runs"), runs, "{name}");
    }
    fs::remove_file(copy.folder.join("root/crates/below/proofs/New.antt")).expect("the file");
    judge(&copy, &[]);
    assert_eq!(copy.count("runs"), 9);
}

/// Without `rt` it judges with the program of these sources, and with no other.
#[test]
fn without_rt() {
    let copy = built("without");
    let run = || {
        let mut command = copy.command("judge", &[]);
        let output = command.env("PATH", copy.path_without("rt")).output();
        output.expect("the command")
    };
    assert_writes(&run(), 1, "refused 1 0\n");
    copy.write("root/crates/judge/src/main.rt", "two");
    let why = "judge: the program is not built for these sources, and rt, which";
    assert_fails(&run(), why);
    copy.write("root/crates/judge/src/main.rt", "one");
    assert_writes(&run(), 1, "refused 1 0\n");
}

/// Where the proof fails there is no verdict, from the old program neither.
#[test]
fn failing_proof() {
    let copy = built("failing");
    let rt = "#!/bin/sh\necho run >> runs\necho 'rt: below NOT PROVED (exit 1, 2 s)'\nexit 1\n";
    copy.write("root/host/rt", rt);
    copy.write("root/crates/below/src/lib.rt", "two");
    for runs in [2, 3] {
        let output = judge(&copy, &[]);
        let said = String::from_utf8_lossy(&output.stderr);
        let lines: Vec<&str> = said.lines().collect();
        assert_eq!(
            (output.status.code(), &output.stdout[..]),
            (Some(2), &b""[..]),
            "{said}"
        );
        assert_eq!(lines[1], "judge: below NOT PROVED (exit 1, 2 s)");
        assert!(lines[2].starts_with("judge: host/rt check judge failed, so there is no program; "));
        assert_eq!((lines.len(), copy.count("runs")), (3, runs));
    }
}

/// What was proved is not what stands there now.
#[test]
fn sources_that_change_meanwhile() {
    let copy = replica("meanwhile");
    copy.write(
        "root/host/rt",
        &format!("{RT}echo two >> crates/below/specs/Low.antt\n"),
    );
    let output = judge(&copy, &[]);
    let said = String::from_utf8_lossy(&output.stderr);
    assert_eq!(
        (output.status.code(), &output.stdout[..]),
        (Some(2), &b""[..]),
        "{said}"
    );
    assert!(said.ends_with("\njudge: the sources changed while they were proved: run it again\n"));
}

/// A program that was removed is built anew.
#[test]
fn removed_program() {
    let copy = built("removed");
    fs::remove_dir_all(copy.root().join("target")).expect("a folder");
    let output = judge(&copy, &[]);
    assert_eq!(String::from_utf8_lossy(&output.stdout), "refused 1 0\n");
    assert_eq!(copy.count("runs"), 2);
}

#[test]
fn programs_without_a_verdict() {
    let copy = replica("killed");
    for (program, status) in [
        ("kill -KILL $$", "137"),
        ("exit 3", "3"),
        ("cat > /dev/null", "0"),
        ("cat > /dev/null; echo accept 1 0", "0"),
    ] {
        copy.write("program", &format!("#!/bin/sh\n{program}\n"));
        copy.write("root/crates/judge/src/main.rt", program);
        judge(&copy, &[]);
        let why = format!("judge: the program gave no verdict; its status is {status}\n");
        assert_fails(&judge(&copy, &[]), &why);
    }
}

/// Of two runs one builds, and the other waits for it.
#[test]
fn two_at_once() {
    let copy = replica("twice");
    copy.write("root/host/rt", &RT.replace("mkdir", "sleep 0.5; mkdir"));
    let start = || {
        let mut command = copy.command("judge", &[]);
        command.stdout(Stdio::piped()).stderr(Stdio::piped());
        command.spawn().expect("the command")
    };
    for child in [start(), start()] {
        let output = child.wait_with_output().expect("the command");
        assert_eq!(String::from_utf8_lossy(&output.stdout), "refused 1 0\n");
        assert_eq!(output.status.code(), Some(1));
    }
    assert_eq!(copy.count("runs"), 1);
}
