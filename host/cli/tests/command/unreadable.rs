//! What can't be read, is no text, or is refused: one clear line, and nothing on standard output.

use std::fs::{self, Permissions};
use std::os::unix::fs::{MetadataExt, PermissionsExt};
use std::process::{Command, Output, Stdio};

use testkit::command::{assert_fails, assert_says};

use crate::folder::{example, Folder};

/// The words of all that reads a file, which is called BAD.
const READERS: [&[&str]; 11] = [
    &["judge", "BAD"],
    &["receive", "BAD"],
    &["explain", "BAD"],
    &["show", "BAD"],
    &["write", "BAD", "-o", "new"],
    &["run", "BAD"],
    &["run", "z", "--inputs", "BAD"],
    &["run", "z", "--edits", "BAD"],
    &["diff", "z", "BAD"],
    &["verilog", "BAD"],
    &["verilog", "z", "--inputs", "BAD"],
];

fn words_with<'a>(words: &[&'a str], bad: &'a str) -> Vec<&'a str> {
    let word = |&word: &&'a str| if word == "BAD" { bad } else { word };
    words.iter().map(word).collect()
}

/// The binary, run by one who may not read everything: a superuser gives up what lets him.
fn unprivileged(folder: &Folder, words: &[&str]) -> Output {
    let binary = folder.command(words);
    let process = fs::metadata("/proc/self").expect("the process");
    let mut command = match process.uid() {
        0 => Command::new("setpriv"),
        _ => return folder.run(words),
    };
    command.args(["--bounding-set=-all", "--inh-caps=-all"]);
    command.arg(binary.get_program()).args(words);
    command.current_dir(folder.path("")).stdin(Stdio::null());
    command.output().expect("setpriv, of util-linux")
}

#[test]
fn what_cannot_be_read() {
    let folder = Folder::with_files("unreadable");
    folder.put("closed", "slices 1\n");
    fs::set_permissions(folder.path("closed"), Permissions::from_mode(0o000)).expect("a mode");
    for words in READERS {
        for (bad, why) in [
            ("none", "quagmuffin: none: No such file or directory\n"),
            (".", "quagmuffin: .: Is a directory\n"),
            ("a\nb", "quagmuffin: a b: No such file or directory\n"),
        ] {
            assert_fails(&folder.run(&words_with(words, bad)), why);
        }
        let output = unprivileged(&folder, &words_with(words, "closed"));
        assert_fails(&output, "quagmuffin: closed: Permission denied\n");
    }
}

/// What is no text where one is due.
#[test]
fn what_is_no_text() {
    let folder = Folder::with_files("no text");
    folder.put("latin", b"slices 1\n # caf\xe9\n");
    let why_latin = "quagmuffin: latin:2:7: byte 0xe9 is not UTF-8\n";
    let readers: [(&[&str], &str); 3] = [
        (&["write", "BAD", "-o", "new"], "1048576"),
        (&["run", "z", "--inputs", "BAD"], "128000000"),
        (&["run", "z", "--edits", "BAD"], "1048576"),
    ];
    for (words, most) in readers {
        let long = format!("quagmuffin: /dev/zero: longer than {most} bytes\n");
        for (bad, why) in [
            ("z", "quagmuffin: z: a binary file, no text; "),
            ("/dev/zero", &long),
            ("latin", why_latin),
        ] {
            assert_fails(&folder.run(&words_with(words, bad)), why);
        }
    }
    assert_fails(&folder.run(&["run", "latin"]), why_latin);
    // With a zero in it, it is taken for a slice file.
    folder.put("zero", b"slices 1\0");
    let line = "quagmuffin: zero: refused 2 0; quagmuffin explain says why\n";
    assert_says(&folder.run(&["run", "zero"]), 1, line);
}

#[test]
fn what_says_nothing() {
    let folder = Folder::with_files("nothing");
    let why = "quagmuffin: empty: no line says how many slices there are, as `slices 2` does\n";
    assert_fails(&folder.run(&["write", "empty", "-o", "new"]), why);
    let output = folder.run(&["run", "z", "--inputs", "empty"]);
    assert_fails(&output, "quagmuffin: empty: no line of inputs\n");
}

/// A refused file can't be run or exported: its verdict is said, and the status is 1.
#[test]
fn what_is_refused() {
    let folder = Folder::with_files("refused");
    let text = example("loop.txt");
    for command in ["run", "verilog"] {
        for (file, verdict) in [
            ("empty", "refused 1 0"),
            ("looped", "refused 9 0"),
            ("broken", "refused 7 5"),
            (&*text, "refused 9 32"),
            ("/dev/zero", "refused 2 0"),
        ] {
            let line = format!("quagmuffin: {file}: {verdict}; quagmuffin explain says why\n");
            assert_says(&folder.run(&[command, file]), 1, &line);
        }
    }
}
