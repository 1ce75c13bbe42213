//! The command `run`: tables by hand, edits and what is watched; and against a simulator.

use std::process::Command;
use std::time::Instant;

use export::iverilog;
use model::layout::*;
use testkit::column::{z, Column};
use testkit::command::{assert_fails, assert_says, assert_writes};
use testkit::prng::Prng;
use testkit::random;

use crate::folder::{accepted, rows, Folder};

/// Z with two outside inputs: A's O6 is input 0, and AQ takes it; B1 is input 1, and table B is empty.
fn folder(name: &str) -> Folder {
    let folder = Folder::new(name);
    let column = Column { m: 2, ..z() }.pin(0, "A1", 256).contents(0, A, 2);
    folder.put("file", column.pin(0, "B1", 257).pin(0, "CE", 1).bytes());
    folder
}

#[test]
fn table_by_hand() {
    let folder = folder("table");
    folder.put("inputs", "# two clocks\n10\n0 1 # here\n");
    let text = "clock   in0  in1  s0.AQ  s0.BQ  s0.CQ  s0.DQ
     0    1    0      0      0      0      0
     1    0    1      1      0      0      0
     2    0    1      0      0      0      0
";
    let words = ["run", "file", "--inputs", "inputs", "--clocks", "3"];
    assert_writes(&folder.run(&words), 0, text);
    let csv = "clock,s0.A.O6,in1\n0,1,0\n1,0,1\n";
    let words = [
        "run",
        "file",
        "--inputs",
        "inputs",
        "--watch",
        "s0.A.O6,in 1",
    ];
    let to = |path| folder.run(&[&words[..], &["--csv", path]].concat());
    assert_writes(&to("-"), 0, csv);
    assert_writes(&to("out"), 0, "");
    assert_eq!(folder.get("out"), csv.as_bytes());
    assert_eq!(rows(&folder.text(&["run", "file", "--csv", "-"])).len(), 10);
    // A number can be wider than its name.
    folder.put("text", "slices 1\nname n = s0.AQ s0.BQ s0.CQ s0.DQ\n");
    let output = folder.run(&["run", "text", "--clocks", "1"]);
    assert_writes(&output, 0, "clock    n\n     0   0\n");
}

/// Edits come after the clock's inputs, in their order, and stay until something else is set.
#[test]
fn edits_before_clocks() {
    let folder = folder("edits");
    folder.put("inputs", "00\n00\n00\n10\n");
    folder.put(
        "edits",
        "# a table, then an input\n2: s0.B = B1\n4: in 1 = 1\n4: s0.B = !B1\n",
    );
    let edits = [
        "1: in 0 = 1",
        "5: s0.B = 0x1",
        "0: 0 = 1",
        "0: in 0 = 0",
        "6: in 1 = 0",
        "3: in 1 = 1",
    ];
    let edits = edits.iter().flat_map(|edit| ["--edit", edit]);
    let words = [
        "run", "file", "--clocks", "7", "--inputs", "inputs", "--edits", "edits",
    ];
    let watch = ["--watch", "in0,in1,s0.A.O6,s0.AQ,s0.B.O6", "--csv", "-"];
    let words: Vec<&str> = words.into_iter().chain(watch).chain(edits).collect();
    // Table B gives input 1 after the edit at 2, its opposite after that at 4, and 1 where no pin is after that at 5.
    let expected = "clock,in0,in1,s0.A.O6,s0.AQ,s0.B.O6
0,0,0,0,0,0
1,1,0,1,0,0
2,0,0,0,1,0
3,1,1,1,0,1
4,1,1,1,1,0
5,1,1,1,1,0
6,1,0,1,1,1
";
    assert_eq!(folder.text(&words), expected);
}

/// Wrong edits of a run of 10 clocks, each with the column of its mistake.
const WRONG_EDITS: [(&str, &str); 11] = [
    (
        "10: in 0 = 1",
        "1: `10`: a clock below 10 is due, since the run has 10\n",
    ),
    ("in 0 = 1", "1: `in`: a clock below 10"),
    ("1 in 0 = 1", "3: `in`: a `:` is due"),
    (
        "1: in 2 = 1",
        "4: `in`: a table of the column (`s0.A`) or one of its 2 inputs",
    ),
    ("1: in 0 = 2", "11: `2`: a number from 0 to 1 is due\n"),
    ("1: s1.A = A1", "4: `s1.A`: a table of the column"),
    ("1: s0.A.O6 = 1", "4: `s0.A.O6`: a table of the column"),
    ("1: s0.A = B1", "11: `B1`: an operand is A1 to A6"),
    ("1: s0.A A1", "9: `A1`: a `=` is due"),
    ("1: in 0 = 1 1", "13: `1`: nothing more"),
    ("1:", "3: the line ends here: a table of the column"),
];

#[test]
fn wrong_edits() {
    let folder = folder("wrong edits");
    for (edit, said) in WRONG_EDITS {
        let output = folder.run(&["run", "file", "--edit", edit]);
        assert_marks(&output, &format!("quagmuffin: --edit:1:{said}"));
    }
    // What only the library can tell is its refusal, before the first row.
    folder.put("shift", "slices 1\nslice 0 SLICEM\nA mode shift\n");
    folder.put("edits", "0: s0.B = 0x100000000\n3: s0.A = 0x100000000\n");
    let said = "quagmuffin: edits:2:11: `0x100000000`: refused 11 0: in shift mode a table holds 32 bits\n";
    assert_marks(&folder.run(&["run", "shift", "--edits", "edits"]), said);
}

/// Before one clock 256 edits are made, in their order; one more is told before the first row, wherever it stands.
#[test]
fn most_edits_before_a_clock() {
    let folder = folder("most edits");
    let lines = |count: usize| "3: in 0 = 1\n3: in 0 = 0\n".repeat(count / 2);
    folder.put("edits", lines(256) + "2: in 1 = 1\n4: in 0 = 1\n");
    let words = [
        "run", "file", "--clocks", "5", "--watch", "in0,in1", "--edits", "edits",
    ];
    let run = |more: &[&str]| folder.run(&[&words[..], more].concat());
    let rows = "clock,in0,in1\n0,0,0\n1,0,0\n2,0,1\n3,0,1\n4,1,1\n";
    assert_writes(&run(&["--csv", "-"]), 0, rows);
    let said = "quagmuffin: 257 edits before clock 3: at most 256 are made before one clock\n";
    assert_says(&run(&["--edit", "3: in 1 = 1", "--csv", "out"]), 2, said);
    assert!(!folder.path("out").exists(), "nothing is written");
    folder.put("edits", "4: in 0 = 1\n".repeat(300) + &lines(300));
    let said = "quagmuffin: 300 edits before clock 3: at most 256 are made before one clock\n";
    assert_says(&run(&[]), 2, said);
}

/// It says where a mistake is, shows the line and marks it.
pub fn assert_marks(output: &std::process::Output, start: &str) {
    let said = String::from_utf8_lossy(&output.stderr).into_owned();
    assert!(said.starts_with(start), "not {start}: {said}");
    let lines: Vec<&str> = said.lines().collect();
    assert!(
        lines.len() == 3 && lines[2].trim_start_matches(['|', ' ']).starts_with('^'),
        "{said}"
    );
    assert_says(output, 2, &said);
}

#[test]
fn what_is_watched() {
    let folder = folder("watch");
    let text = "slices 2\ninputs 1\nname step = in 0\nname two = s0.AQ s1.AQ\nslice 1\nCE = 1\n";
    folder.put("text", text);
    for (words, titles) in [
        (&["text"][..], "clock,step,two"),
        (&["text", "--watch", "two,s1.AQ"], "clock,two,s1.AQ"),
        (
            &["text", "--watch", "s*.F8, in 0 ,s0.F*"],
            "clock,s0.F8,s1.F8,in0,s0.F7A,s0.F7B",
        ),
        (&["text", "--watch", "24,63"], "clock,s0.AQ,s1.D5Q"),
        (
            &["file", "--watch", "*.A.*"],
            "clock,s0.A.O6,s0.A.O5,s0.A.carry,s0.A.sum",
        ),
    ] {
        let csv = folder.text(&[&["run", "--csv", "-"], words].concat());
        assert_eq!(csv.lines().next(), Some(titles), "{words:?}");
    }
    for wrong in ["s2.AQ", "x", "", "64", "in1", "s0.aq"] {
        let why = format!("quagmuffin: --watch: no signal, input or name `{wrong}`; ");
        assert_fails(&folder.run(&["run", "text", "--watch", wrong]), &why);
    }
    // Without names, the inputs and the slices that aren't left at their defaults.
    folder.put("text", "\n# a text\nslices 2\ninputs 1\nslice 1\nCE = 1\n");
    let csv = folder.text(&["run", "text", "--csv", "-"]);
    let titles = "clock,in0,s1.AQ,s1.BQ,s1.CQ,s1.DQ";
    assert_eq!(csv.lines().next(), Some(titles));
}

/// No file is written that is read, or twice.
#[test]
fn what_is_used_already() {
    let folder = folder("used");
    folder.put("inputs", "10\n");
    folder.put("edits", "0: in 0 = 1\n");
    std::fs::hard_link(folder.path("file"), folder.path("linked")).expect("a link");
    let files = ["file", "linked", "inputs", "edits"];
    let before = files.map(|name| folder.get(name));
    let words = ["run", "file", "--inputs", "inputs", "--edits", "edits"];
    for name in files {
        for output in ["--vcd", "--csv"] {
            let why = format!("quagmuffin: {name}: is read or written already\n");
            assert_fails(&folder.run(&[&words[..], &[output, name]].concat()), &why);
        }
    }
    assert_eq!(files.map(|name| folder.get(name)), before);
    // What is there already is kept where the other can't be written.
    folder.put("old", "old");
    let output = folder.run(&["run", "file", "--vcd", "old", "--csv", "no/new"]);
    assert_fails(&output, "quagmuffin: no/new: No such file");
    assert_eq!(folder.get("old"), b"old");
    folder.text(&[
        "run", "file", "--clocks", "1", "--watch", "in0", "--csv", "old",
    ]);
    assert_eq!(folder.get("old"), b"clock,in0\n0,0\n");
    let both = |path| folder.run(&["run", "file", "--vcd", path, "--csv", path]);
    assert_fails(
        &both("out"),
        "quagmuffin: out: is read or written already\n",
    );
    assert_fails(
        &both("-"),
        "quagmuffin: standard output can't be written twice\n",
    );
    assert_writes(&both("/dev/null"), 0, "");
}

/// On random designs every signal of every clock is what iverilog makes of the exported Verilog, with the same file of inputs.
#[test]
fn run_is_iverilog() {
    let Some(cells) = iverilog::cells() else {
        return;
    };
    let folder = folder("iverilog");
    let mut rng = Prng::new(random::seed() + 3);
    for file in accepted(3, 60) {
        let m = usize::from(file[HEADER + 1]);
        let mut digits = |_| ["0", "1"][rng.below(2)];
        let mut row = |_| (0..m).map(&mut digits).collect::<String>() + "\n";
        let inputs: String = (0..9).map(&mut row).collect();
        folder.put("file", &file);
        folder.put("inputs", &inputs);
        let stimulus = ["--clocks", "12", "--inputs", "inputs"];
        // Without inputs there are no lines of them.
        let words = if m == 0 { &stimulus[..2] } else { &stimulus };
        let csv = folder.text(&[&["run", "file", "--watch", "s*", "--csv", "-"], words].concat());
        let source = folder.text(&[&["verilog", "file"], words].concat());
        let simulated = iverilog::run(&cells, &folder.path("design"), &source).expect("a run");
        let signals = |row: &Vec<i64>| row[1..].iter().map(|&bit| bit as u8).collect();
        let run: Vec<Vec<u8>> = rows(&csv).iter().map(signals).collect();
        assert_eq!(run.len(), 12);
        assert!(run == simulated, "inputs:\n{inputs}");
    }
}

/// A run in a terminal, and what was written there.
fn in_terminal(folder: &Folder, words: &str) -> String {
    let binary = env!("CARGO_BIN_EXE_quagmuffin");
    let line = format!("'{binary}' run large {words}");
    let mut script = Command::new("script");
    script.args(["-q", "-e", "-c", &line, "/dev/null"]);
    let output = script.current_dir(folder.path("")).output();
    let output = output.expect("script, of bsdutils");
    assert!(output.status.success());
    String::from_utf8_lossy(&output.stdout).into_owned()
}

/// So many clocks as take some three seconds.
fn many_clocks(folder: &Folder) -> usize {
    let start = Instant::now();
    folder.text(&["run", "large", "--clocks", "5000", "--csv", "out"]);
    let clocks = 5000.0 * 3.0 / start.elapsed().as_secs_f64();
    (clocks as usize).clamp(5000, 1_000_000)
}

/// On a terminal a run that takes long says how far it is, where it writes nothing else there; elsewhere it doesn't.
#[test]
fn progress_on_a_terminal() {
    let folder = Folder::new("progress");
    folder.put("large", Column::zeros(64, 0).bytes());
    let clocks = many_clocks(&folder);
    let long = in_terminal(&folder, &format!("--clocks {clocks} --csv out"));
    assert!(long.contains(&format!(" of {clocks} clocks, ")), "{long:?}");
    assert_eq!(in_terminal(&folder, "--clocks 10 --csv out"), "");
    let rows = in_terminal(&folder, &format!("--clocks {clocks} --watch s0.AQ --csv -"));
    let row = |clock| format!("{clock},0\r\n");
    let expected: String = (0..clocks).map(row).collect();
    assert!(
        rows == format!("clock,s0.AQ\r\n{expected}"),
        "rows and more"
    );
    let words = [
        "run",
        "large",
        "--clocks",
        &clocks.to_string(),
        "--csv",
        "out",
    ];
    assert_eq!(folder.text(&words), "");
}
