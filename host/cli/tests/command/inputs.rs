//! The inputs of a run: which they are, and what is wrong with a file of them.

use crate::folder::{rows, Folder};
use crate::run::assert_marks;

/// A design of three inputs, two of them with names.
fn folder(name: &str) -> Folder {
    let folder = Folder::new(name);
    folder.put(
        "text",
        "slices 1\ninputs 3\nname up = in 2\nname low = in 0 in 1\n",
    );
    folder
}

const WORDS: [&str; 4] = ["run", "text", "--inputs", "inputs"];

/// Inputs that a first line names; what isn't named stays 0.
#[test]
fn by_name_or_number() {
    let folder = folder("inputs");
    for (first, expected) in [
        ("inputs up 0", [[1, 0, 1], [1, 0, 0]]),
        ("inputs in2 in 0", [[1, 0, 1], [1, 0, 0]]),
        ("inputs 0 2", [[1, 0, 1], [0, 0, 1]]),
        ("inputs 1 0", [[1, 1, 0], [1, 0, 0]]),
    ] {
        folder.put("inputs", format!("\u{feff}{first}\n11\n01\n"));
        let csv = folder.text(&[&WORDS[..], &["--watch", "in*", "--csv", "-"]].concat());
        let found: Vec<Vec<i64>> = rows(&csv).iter().map(|row| row[1..].to_vec()).collect();
        assert_eq!(found, expected, "{first}");
    }
}

#[test]
fn mistakes() {
    let folder = folder("wrong inputs");
    for (inputs, said) in [
        ("11\n", "1:3: the line ends here: a digit 0 or 1 is due for each input that is given, 3 in all\n"),
        ("1111\n", "1:1: `1111`: a digit 0 or 1"),
        ("\n0 1 2\n", "2:5: `2`: a digit 0 or 1"),
        ("inputs up\n1\ninputs up\n", "3:1: `inputs`: a digit 0 or 1"),
        ("inputs up\ninputs 0\n1\n", "2:1: `inputs`: a digit 0 or 1"),
        ("inputs up up\n", "1:11: `up`: this input is given already"),
        ("inputs 3\n", "1:8: `3`: one of the column's 3 inputs is due"),
        ("inputs low\n", "1:8: `low`: this name stands for more than one"),
        ("inputs s0.AQ\n", "1:8: `s0.AQ`: one of the column's 3 inputs is due"),
    ] {
        folder.put("inputs", inputs);
        assert_marks(&folder.run(&WORDS), &format!("quagmuffin: inputs:{said}"));
    }
}

/// As many lines as there can be clocks are taken, and one more is a mistake.
#[test]
fn a_million_lines() {
    let folder = folder("many inputs");
    folder.put(
        "inputs",
        "inputs up\n".to_string() + &"1\n".repeat(1_000_000),
    );
    let csv = folder.text(&[&WORDS[..], &["--clocks", "1", "--csv", "-"]].concat());
    assert_eq!(csv, "clock,up,low\n0,1,0\n");
    folder.put(
        "inputs",
        "inputs up\n".to_string() + &"1\n".repeat(1_000_001),
    );
    let said = "quagmuffin: inputs:1000002:1: `1`: there are at most 1000000 lines of inputs\n";
    assert_marks(&folder.run(&WORDS), said);
}
