//! judge and explain, by lines written by hand.

use model::layout::KIND;
use testkit::column::z;
use testkit::command::{assert_fails, assert_writes};
use testkit::random;
use testkit::run::run;

use crate::folder::{written, Folder};
use crate::run::assert_marks;

#[test]
fn judge_statuses() {
    let folder = Folder::with_files("judge");
    for (words, status, lines) in [
        (&["z"][..], 0, "accepted 1 0\n"),
        (&["looped"], 1, "refused 9 0\n"),
        (&["empty"], 1, "refused 1 0\n"),
        (&["/dev/zero"], 1, "refused 2 0\n"),
        (&["z", "z"], 0, "z: accepted 1 0\nz: accepted 1 0\n"),
        (
            &["z", "broken", "z"],
            1,
            "z: accepted 1 0\nbroken: refused 7 5\nz: accepted 1 0\n",
        ),
    ] {
        let output = folder.run(&[&["judge"], words].concat());
        assert_writes(&output, status, lines);
    }
    // Nothing is written where one file can't be read.
    let output = folder.run(&["judge", "z", "none"]);
    assert_fails(&output, "quagmuffin: none: No such file");
}

#[test]
fn judge_reads_standard_input() {
    let folder = Folder::with_files("judge input");
    let output = folder.shell("quagmuffin judge - < z");
    assert_writes(&output, 0, "accepted 1 0\n");
    let output = folder.shell("quagmuffin judge - z < looped");
    assert_writes(&output, 1, "standard input: refused 9 0\nz: accepted 1 0\n");
    let output = folder.shell("quagmuffin judge - - < z");
    assert_fails(&output, "quagmuffin: standard input is named twice\n");
    // What can't be read is no empty file.
    let output = folder.shell("quagmuffin judge - 0> written");
    assert_fails(&output, "quagmuffin: standard input: Bad file descriptor\n");
}

/// The line is that of the proved program.
#[test]
fn judge_is_the_program() {
    let folder = Folder::new("judge program");
    let files = random::files(random::seed() + 2, 1);
    let files: Vec<Vec<u8>> = files.into_iter().step_by(40).collect();
    let names: Vec<String> = (0..files.len()).map(|number| number.to_string()).collect();
    for (name, file) in names.iter().zip(&files) {
        folder.put(name, file);
    }
    let names: Vec<&str> = names.iter().map(|name| &**name).collect();
    let text = written(&folder.run(&[&["judge"], &names[..]].concat()), 1);
    let line = |(name, file): (&&str, &Vec<u8>)| format!("{name}: {}\n", run(file));
    let expected: String = names.iter().zip(&files).map(line).collect();
    assert!(files.len() > 50, "{} files", files.len());
    assert_eq!(text, expected);
}

#[test]
fn explain_statuses() {
    let folder = Folder::with_files("explain");
    let output = folder.run(&["explain", "z"]);
    assert_writes(&output, 0, "z: accepted 1 0: no fault\n");
    folder.put("two", z().pin(0, "A1", 3).set(0, KIND, 7).bytes());
    for (name, start, part) in [
        (
            "looped",
            "refused 9 0: one fault\n\n9: ",
            "  s0.A.O6 <- A1 <- s0.A.O6\n",
        ),
        (
            "broken",
            "refused 7 5: one fault\n\n7: ",
            "slice 0, pin A1: bytes 70 and 71",
        ),
        ("two", "refused 5 5: 2 faults\n\n5: ", "\n\n7: "),
    ] {
        let text = written(&folder.run(&["explain", name]), 1);
        assert!(text.starts_with(&format!("{name}: {start}")), "{text}");
        assert!(text.contains(part), "{text}");
    }
}

/// A text is explained as the slice file that it makes.
#[test]
fn explain_takes_a_text() {
    let folder = Folder::new("explain text");
    folder.put("text", "slices 2\nslice 1\nB1 = s0.A.O6\nB2 = s1.B.O6\n");
    let text = written(&folder.run(&["explain", "text"]), 1);
    assert!(
        text.starts_with("text: refused 9 33: one fault\n"),
        "{text}"
    );
    assert!(text.contains("  s1.B.O6 <- B2 <- s1.B.O6\n"), "{text}");
    folder.put("text", "slices 2\nslice 2\n");
    let output = folder.run(&["explain", "text"]);
    assert_marks(
        &output,
        "quagmuffin: text:2:7: `2`: a number from 0 to 1 is due\n",
    );
}

/// What begins like a text and is none, and a file of which not all is looked at.
#[test]
fn explain_says_what_it_was_given() {
    let folder = Folder::new("explain given");
    for (bytes, place, byte) in [(&b"s\0l\0i\0"[..], 1, "0x0"), (b"slices \xff\0", 7, "0xff")] {
        folder.put("file", bytes);
        let text = written(&folder.run(&["explain", "file"]), 1);
        assert!(text.starts_with("file: refused 2 0: "), "{text}");
        let hint = format!("\nIt begins like a text, but byte {place} is {byte}: a text is UTF-8, and has no zeros.\n");
        assert!(text.ends_with(&hint), "{text}");
    }
    let text = written(&folder.run(&["explain", "/dev/zero"]), 1);
    assert!(text.starts_with("/dev/zero: refused 2 0: "), "{text}");
    assert!(
        text.ends_with("\nOnly the first 1048577 bytes were looked at.\n"),
        "{text}"
    );
}
