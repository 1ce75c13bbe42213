//! show, write and diff, by texts written by hand.

use model::layout::*;
use testkit::cases::worked_file;
use testkit::column::{z_slicem, Column};
use testkit::command::{assert_fails, assert_says, assert_writes};

use crate::folder::{broken, Folder};

#[test]
fn show_statuses() {
    let folder = Folder::with_files("show");
    assert_writes(&folder.run(&["show", "z"]), 0, "slices 1\ninputs 0\n");
    let output = folder.run(&["show", "z", "--slice", "0"]);
    assert_writes(&output, 0, "slice 0 SLICEL\n");
    let text = "slices 1
inputs 0

slice 0 SLICEL
  A1 = code 3
";
    assert_writes(&folder.run(&["show", "broken"]), 0, text);
    // What is shown is shown again.
    folder.put("text", text);
    assert_writes(&folder.run(&["show", "text"]), 0, text);
    let output = folder.run(&["show", "z", "--slice", "1"]);
    assert_fails(
        &output,
        "quagmuffin: z: no slice 1: there are 1, from 0 on\n",
    );
    let line = "quagmuffin: empty: refused 1 0; quagmuffin explain says why\n";
    assert_says(&folder.run(&["show", "empty"]), 1, line);
}

/// A file is written whether it is accepted or not, and the status is its verdict.
#[test]
fn write_statuses() {
    let folder = Folder::new("write");
    folder.put("text", "slices 1\nslice 0\nA1 = code 3\n");
    let output = folder.run(&["write", "text", "-o", "new"]);
    assert_writes(&output, 1, "new: refused 7 5\n");
    assert_eq!(folder.get("new"), broken());
    folder.put("text", "slices 1\nslice 0\nA1 = 0\n");
    let output = folder.run(&["write", "text", "--output", "new"]);
    assert_writes(&output, 0, "new: accepted 1 0\n");
    assert_eq!(folder.get("new"), worked_file(1));
    let output = folder.run(&["write", "text", "-o", "-"]);
    assert_eq!(output.stdout, worked_file(1));
    for (path, why) in [
        ("no/new", "quagmuffin: no/new: No such file or directory\n"),
        (".", "quagmuffin: .: Is a directory\n"),
        ("./text", "quagmuffin: ./text: is read or written already\n"),
    ] {
        assert_fails(&folder.run(&["write", "text", "-o", path]), why);
    }
    assert_eq!(folder.get("text"), b"slices 1\nslice 0\nA1 = 0\n");
}

/// A mistake is said with its line and column, the line shown and marked, and nothing is written.
#[test]
fn write_says_a_mistake() {
    let folder = Folder::new("mistake");
    folder.put("text", "slices 1\nslice 0\n  A mode shft\n");
    let said = "quagmuffin: text:3:10: `shft`: logic, memory, shift or `choice 7` is due
  3 |   A mode shft
    |          ^^^^
";
    assert_says(&folder.run(&["write", "text", "-o", "new"]), 2, said);
    assert!(!folder.path("new").exists());
}

/// Showing and writing again by the command itself.
#[test]
fn show_and_write_again() {
    let folder = Folder::new("again");
    let shifting = z_slicem().set(0, MODE + D, 2).set(0, SHIFT_DATA + C, 1);
    for file in [
        worked_file(4),
        worked_file(9),
        broken(),
        z_slicem().opened().bytes(),
        shifting.contents(0, A, 0x1234).bytes(),
        Column::zeros(64, 64).bytes(),
    ] {
        folder.put("file", &file);
        folder.shell("quagmuffin show file | quagmuffin write - -o again");
        assert!(folder.get("again") == file);
    }
}

#[test]
fn diff_statuses() {
    let folder = Folder::with_files("diff");
    folder.put("text", "slices 1\nslice 0 SLICEM\nA1 = 1\n");
    assert_writes(&folder.run(&["diff", "z", "z"]), 0, "");
    let changes = "- slice 0 SLICEL\n+ slice 0 SLICEM\n-   A1 = 0\n+   A1 = 1\n";
    assert_writes(&folder.run(&["diff", "z", "text"]), 1, changes);
    let changes = "  slice 0 SLICEL\n-   A1 = code 3\n+   A1 = s0.A.O6\n";
    assert_writes(&folder.run(&["diff", "broken", "looped"]), 1, changes);
    let output = folder.run(&["diff", "z", "empty"]);
    assert_fails(&output, "quagmuffin: empty: refused 1 0; ");
}
