//! The text form by examples written by hand: what is shown, what is read, what is a mistake, what differs.

use model::layout::*;
use testkit::column::{z, Column};
use text::names::Wire;
use text::{changes, parse, show, Mistake, Name, Records};

fn records(column: Column) -> Records {
    Records::of(&column.bytes()).expect("records in order")
}

/// A slice with every field set.
fn full() -> Column {
    let mut column = Column::zeros(2, 4).set(1, KIND, 1);
    for (letter, name) in LETTERS.into_iter().zip(["A", "B", "C", "D"]) {
        column = column.set(1, MODE + letter, 2).contents(1, letter, 0xF0);
        column = column.set(1, SHIFT_DATA + letter, 1);
        column = column.set(1, CARRY_DATA + letter, 1);
        column = column.set(1, MUX + letter, 3).set(1, MAIN + letter, 4);
        column = column.set(1, SECOND + letter, 1);
        for i in 1..=6 {
            column = column.pin(1, &format!("{name}{i}"), 255 + i);
        }
        column = column.pin(1, &format!("{name}X"), 4096 + 8 + letter as u16);
    }
    let column = column.set(1, CARRY_START, 3).set(1, POWER_UP, 0x81);
    let column = column
        .set(1, SET_RESET_VALUES, 0x18)
        .set(1, SET_RESET_PIN, 1);
    column
        .pin(1, "CE", 1)
        .pin(1, "SR", 4096 + 4)
        .pin(1, "WE", 4112)
}

/// A pin left open by its name or by its code, and one that no line drives.
#[test]
fn open_pins() {
    let open = records(z().pin(0, "A1", 2));
    let text = "slices 1\ninputs 0\n\nslice 0 SLICEL\n  A1 = open\n";
    assert_eq!(show(&open), text);
    for driver in ["open", "code 2"] {
        let text = format!("slices 1\nslice 0\nA1 = {driver}\nA2 = 0\n");
        assert_eq!(parse(&text).expect("a text").records, open);
    }
}

const FULL: &str = "slices 2
inputs 4

slice 1 SLICEM
  carry from below
  A mode shift
  A = 0xf0
  A1 = in 0
  A2 = in 1
  A3 = in 2
  A4 = in 3
  A5 = in 4
  A6 = in 5
  AX = s0.AQ
  A data cascade
  A carry AX
  AMUX = F7A
  AQ = F7A
  A5Q = AX
  B mode shift
  B = 0xf0
  B1 = in 0
  B2 = in 1
  B3 = in 2
  B4 = in 3
  B5 = in 4
  B6 = in 5
  BX = s0.BQ
  B data cascade
  B carry BX
  BMUX = F8
  BQ = F8
  B5Q = BX
  C mode shift
  C = 0xf0
  C1 = in 0
  C2 = in 1
  C3 = in 2
  C4 = in 3
  C5 = in 4
  C6 = in 5
  CX = s0.CQ
  C data cascade
  C carry CX
  CMUX = F7B
  CQ = F7B
  C5Q = CX
  D mode shift
  D = 0xf0
  D1 = in 0
  D2 = in 1
  D3 = in 2
  D4 = in 3
  D5 = in 4
  D6 = in 5
  DX = s0.DQ
  D data cascade
  D carry DX
  DMUX = MC31
  DQ = MC31
  D5Q = DX
  CE = 1
  SR = s0.AMUX
  SR used
  set DQ A5Q
  power-up AQ D5Q
  WE = s1.A.O6
";

#[test]
fn every_field_is_shown() {
    assert_eq!(show(&records(full())), FULL);
    assert_eq!(show(&records(z())), "slices 1\ninputs 0\n");
}

/// Each choice by its name.
#[test]
fn every_choice_is_read() {
    let choices: [(&str, usize, &[&str]); 10] = [
        ("slice 1", KIND, &["SLICEL", "SLICEM"]),
        ("B mode", MODE + B, &["logic", "memory", "shift"]),
        ("B data", SHIFT_DATA + B, &["BX", "cascade"]),
        ("B carry", CARRY_DATA + B, &["O5", "BX"]),
        ("carry from", CARRY_START, &["0", "1", "AX", "below"]),
        ("BMUX =", MUX + B, &["O5", "sum", "carry", "F8", "B5Q"]),
        (
            "DQ =",
            MAIN + D,
            &["O6", "O5", "sum", "carry", "MC31", "DX"],
        ),
        ("C5Q =", SECOND + C, &["O5", "CX"]),
        ("SR", SET_RESET_PIN, &["ignored", "used"]),
        ("CMUX =", MUX + C, &["O5", "sum", "carry", "F7B", "C5Q"]),
    ];
    for (words, at, names) in choices {
        let numbers = (0..=255).map(|byte| (byte, format!("choice {byte}")));
        let named = (0..).zip(names.iter().map(|name| name.to_string()));
        for (byte, name) in named.chain(numbers) {
            let head = if at == KIND { "" } else { "slice 1\n" };
            let text = format!("slices 2\n{head}{words} {name}\n");
            let parsed = parse(&text).expect("a text").records;
            let expected = records(Column::zeros(2, 0).set(1, at, byte));
            assert_eq!(parsed, expected, "{text}");
        }
    }
}

/// Comments, blank lines, slices in any order, other line ends, names.
#[test]
fn free_forms_are_read() {
    let text = "\u{feff}# A note.\r\n\tslices 2 # two\r\ninputs 3\r\n\r\nname step = in 2\nname both = signed s1.AQ in1\n
slice 1\nA=A1&!A2|A3\nA1 = step\nA2 = in1\nslice 0 SLICEM\n  power-up none\nA1 = s1.BMUX\nA2 = code 4108\n";
    let parsed = parse(text).expect("a text");
    let column = Column::zeros(2, 3).contents(1, A, 0xF2F2_F2F2_F2F2_F2F2);
    let column = column.pin(1, "A1", 258).pin(1, "A2", 257).set(0, KIND, 1);
    let column = column.pin(0, "A1", 4096 + 16 + 5).pin(0, "A2", 4108);
    assert_eq!(parsed.records, records(column));
    let name = |word: &str, wires, signed| Name {
        word: word.to_string(),
        wires,
        signed,
    };
    let both = vec![Wire::Signal(32 + 24), Wire::Input(1)];
    let names = [
        name("step", vec![Wire::Input(2)], false),
        name("both", both, true),
    ];
    assert_eq!(parsed.names, names);
}

/// A mistake starts so: line, column, how much is marked, and the message.
fn assert_mistake(text: &str, expected: &str) {
    let start = &text[..text.len().min(80)];
    let Mistake {
        line,
        column,
        width,
        message,
    } = parse(text).expect_err(start);
    let found = format!("{line}:{column}+{width} {message}");
    assert!(
        found.starts_with(expected),
        "{start}: {found}, not {expected}"
    );
}

/// Texts, each with the line, column and width of its mistake, and how the message begins.
const MISTAKES: &[(&str, &str)] = &[
    ("", "0:0+0 no line says how many slices there are"),
    ("# nothing\n\n", "0:0+0 no line says how many slices"),
    ("slices", "1:7+1 the line ends here: a number from 0 to 255"),
    ("slices 256", "1:8+3 `256`: a number from 0 to 255 is due"),
    ("slices -1", "1:8+2 `-1`: a number"),
    ("slices 01", "1:8+2 `01`: a number"),
    ("slices 1 2", "1:10+1 `2`: nothing more"),
    ("slices 1\nslices 1", "2:1+6 `slices`: line 1 has said this"),
    ("slice 0", "1:1+5 `slice`: a line such as `slices 2`"),
    ("slices 1\nslice 1", "2:7+1 `1`: a number from 0 to 0"),
    (
        "slices 1\nslice 0 SLICEX",
        "2:9+6 `SLICEX`: SLICEL, SLICEM or `choice 7`",
    ),
    ("slices 1\nA1 = 1", "2:1+2 `A1`: a line such as `slice 0`"),
    (
        "slices 1\nslice 0\nA1 = 1\nA1 = 1",
        "4:1+2 `A1`: line 3 has said this",
    ),
    ("name In = in 0", "1:6+2 `In`: a name is a word of small"),
    ("name in = in 0", "1:6+2 `in`: a name is"),
    ("name in3 = in 0", "1:6+3 `in3`: a name is"),
    ("name in03 = in 0", "1:6+4 `in03`: a name is"),
    ("name clock = in 0", "1:6+5 `clock`: a name is"),
    ("name open = in 0", "1:6+4 `open`: a name is"),
    ("name a = open", "1:10+4 `open`: an input"),
    (
        "slices 0\nslice 0",
        "2:1+5 `slice`: the column has no slices",
    ),
    ("name far = in3840", "1:12+6 `in3840`: an input"),
    ("name s12 = in 0", "1:6+3 `s12`: a name is"),
    (
        "slices 1\nname far = s1.AQ",
        "2:12+5 `s1.AQ`: the column doesn't have it",
    ),
    (
        "name far = in0\nslices 1",
        "1:12+3 `in0`: the column doesn't have it",
    ),
    (
        "slices 1\n\u{200b}slice 0",
        "2:1+1 `U+200B`: no line begins so",
    ),
    ("name step in 0", "1:11+2 `in`: a `=` is due"),
    (
        "name a = in 0\nname a = in 1",
        "2:6+1 `a`: line 1 has said this",
    ),
    (
        "name a = in 0 in 1\nslices 1\nslice 0\nA1 = a",
        "4:6+1 `a`: this name stands for more",
    ),
];

#[test]
fn mistakes_are_placed() {
    for (text, expected) in MISTAKES {
        assert_mistake(text, expected);
    }
}

/// Lines of a slice, likewise.
const MISTAKES_IN_A_SLICE: &[(&str, &str)] = &[
    ("slice 0", "7+1 `0`: line 2 has said this"),
    ("  A7 = 1", "3+2 `A7`: no line begins so"),
    (
        "A1 = 2",
        "6+1 `2`: 0, 1, `open`, `code 7`, an input (`in 3`), an output",
    ),
    ("A1 = open 2", "11+1 `2`: nothing more"),
    ("A1 = in 3840", "9+4 `3840`: a number from 0 to 3839"),
    (
        "A1 = s0.A.sum",
        "6+8 `s0.A.sum`: 0, 1, `open`, `code 7`, an input",
    ),
    ("A1 = s9999.AQ", "6+8 `s9999.AQ`: 0, 1, `open`, `code 7`"),
    ("A1 = code 65536", "11+5 `65536`: a number from 0 to 65535"),
    ("A1 = step", "6+4 `step`: 0, 1, `open`, `code 7`"),
    ("A1 =", "5+1 the line ends here: 0, 1, `open`, `code 7`"),
    (
        "A mode shft",
        "8+4 `shft`: logic, memory, shift or `choice 7`",
    ),
    ("A mode choice 256", "15+3 `256`: a number from 0 to 255"),
    ("A = B1", "5+2 `B1`: an operand is A1 to A6"),
    ("A = 2", "5+1 `2`: an operand is A1 to A6"),
    ("A = (A1", "8+1 the line ends here: a `)` is due"),
    ("A = A1 ? A2", "12+1 the line ends here: a `:` is due"),
    ("A = A1 A2", "8+2 `A2`: nothing more"),
    ("A = 0x", "5+2 `0x`: not 1 to 16 hexadecimal"),
    (
        "A = 0x10000000000000000",
        "5+19 `0x10000000000000000`: not 1",
    ),
    ("A = 0xg", "5+3 `0xg`: not 1 to 16"),
    ("A = 0x+1", "5+2 `0x`: not 1 to 16"),
    ("A = ä", "5+1 `ä`: an operand"),
    ("set AQ E5Q", "8+3 `E5Q`: flip-flops are due"),
    ("set none AQ", "10+2 `AQ`: nothing more"),
];

#[test]
fn mistakes_in_a_slice() {
    let assert_mistake = |line: &str, expected: &str| {
        let text = format!("slices 1\nslice 0\n{line}");
        assert_mistake(&text, &format!("3:{expected}"));
    };
    for (line, expected) in MISTAKES_IN_A_SLICE {
        assert_mistake(line, expected);
    }
    let brackets = format!("A = {}A1", "(".repeat(40));
    assert_mistake(&brackets, "37+1 `(`: more than 32 expressions");
    let selects = format!("A = {}A1", "A1 ? A1 : ".repeat(400));
    assert_mistake(&selects, "320+2 `A1`: more than 32 expressions");
    let long = format!("A = {}A1", "!".repeat(4092));
    assert_mistake(&long, "4097+1 a line has at most 4096 characters");
}

/// The line is shown under the message, and the word marked.
#[test]
fn mistakes_are_marked() {
    let text = "slices 1\n\nslice 0\n\tA mode shft # oh\n";
    let report = parse(text).expect_err("a mistake").report("file", text);
    let expected = "file:4:9: `shft`: logic, memory, shift or `choice 7` is due
  4 |  A mode shft # oh
    |         ^^^^";
    assert_eq!(report, expected);
    // Just past the end of what is shown there is a mark as well.
    let full = format!("slices 1\nslice 0\nA = {}", "!".repeat(116));
    let report = parse(&full).expect_err("a mistake").report("file", &full);
    assert!(
        report.ends_with(&format!("| {}^", " ".repeat(120))),
        "{report}"
    );
    let empty = parse("\n").expect_err("a mistake").report("file", "\n");
    let expected = "file: no line says how many slices there are, as `slices 2` does";
    assert_eq!(empty, expected);
    let far = format!("slices 1\nslice 0\nA = {}A1 | x", "A1 | ".repeat(800));
    let report = parse(&far).expect_err("a mistake").report("file", &far);
    let lines: Vec<&str> = report.lines().collect();
    assert_eq!(
        (lines.len(), lines[0].starts_with("file:3:4010: `x`: ")),
        (3, true)
    );
    assert_eq!(lines[1].find('x'), lines[2].find('^'));
}

#[test]
fn changes_in_words() {
    let a = records(Column::zeros(2, 1).pin(1, "A1", 256));
    assert_eq!(changes(&a, &a), "");
    let b = Column::zeros(3, 1).set(1, KIND, 1).pin(1, "A1", 1);
    let b = records(
        b.set(0, CARRY_DATA + B, 1)
            .set(0, POWER_UP, 2)
            .pin(2, "WE", 1),
    );
    let expected = "- slices 2
+ slices 3
  slice 0 SLICEL
-   B carry O5
+   B carry BX
-   power-up none
+   power-up BQ
- slice 1 SLICEL
+ slice 1 SLICEM
-   A1 = in 0
+   A1 = 1
+ slice 2 SLICEL
+   WE = 1
";
    assert_eq!(changes(&a, &b), expected);
}
