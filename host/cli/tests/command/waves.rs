//! Waves, read back by sigrok-cli, equal the table.

use std::path::Path;
use std::process::Command;

use export::iverilog::say_skipped;

use crate::folder::{accepted, example, rows, Folder};

/// The program that reads waves. Where `WAVES` names it, it has to be there; else a test that needs it says that it is skipped.
fn reader() -> Option<String> {
    let named = std::env::var("WAVES").ok();
    let required = named.is_some();
    let reader = named.unwrap_or("sigrok-cli".to_string());
    if Command::new(&reader).arg("--version").output().is_ok() {
        return Some(reader);
    }
    let missing = format!("{reader} isn't installed");
    assert!(!required, "{missing}");
    say_skipped(&missing);
    None
}

/// The names of the waves, and their bits in each nanosecond.
fn read(reader: &str, path: &Path) -> (Vec<String>, Vec<Vec<i64>>) {
    let mut command = Command::new(reader);
    command.args(["-I", "vcd", "-O", "csv", "-i"]).arg(path);
    let output = command.output().expect("the reader");
    assert!(output.status.success());
    let text = String::from_utf8(output.stdout).expect("text");
    let names = text
        .lines()
        .find_map(|line| line.strip_prefix("; Channels (")?.split_once("): "));
    let names = names
        .expect("the names")
        .1
        .split(", ")
        .map(str::to_string)
        .collect();
    let is_row = |line: &&str| line.starts_with(['0', '1']);
    let bits = |line: &str| {
        line.split(',')
            .map(|bit| bit.parse().expect("a bit"))
            .collect()
    };
    (names, text.lines().filter(is_row).map(bits).collect())
}

/// A clock takes ten nanoseconds, in which the signals are those of its row. It is high for five after each edge, and the last edge ends the waves.
fn assert_waves(waves: &[Vec<i64>], rows: &[Vec<i64>]) {
    assert_eq!(waves.len(), 10 * rows.len());
    for (time, bits) in waves.iter().enumerate() {
        let is_high = time >= 10 && time % 10 < 5;
        assert_eq!(bits[0], i64::from(is_high), "the clock at {time}");
        assert!(bits[1..] == rows[time / 10][1..], "at {time}");
    }
}

#[test]
fn waves_of_all_signals() {
    let Some(reader) = reader() else {
        return;
    };
    let folder = Folder::new("waves");
    for file in accepted(4, 120) {
        folder.put("file", &file);
        let words = ["run", "file", "--clocks", "20"];
        folder.text(&[&words[..], &["--vcd", "waves"]].concat());
        let csv = folder.text(&[&words[..], &["--watch", "*", "--csv", "-"]].concat());
        let (names, waves) = read(&reader, &folder.path("waves"));
        let titles = csv.lines().next().expect("titles").split(',').skip(1);
        let name = |title: &str| title.replace('.', "_");
        let expected: Vec<String> = ["clk".to_string()]
            .into_iter()
            .chain(titles.map(name))
            .collect();
        assert_eq!(names, expected);
        assert_waves(&waves, &rows(&csv));
    }
}

/// What is chosen, with a wave for each wire of a name.
#[test]
fn waves_of_names() {
    let Some(reader) = reader() else {
        return;
    };
    let folder = Folder::new("named waves");
    let (text, inputs) = (example("accumulator.txt"), example("accumulator.inputs"));
    let words = ["run", &text, "--inputs", &inputs];
    folder.text(&[&words[..], &["--watch", "back,size", "--vcd", "waves"]].concat());
    let (names, waves) = read(&reader, &folder.path("waves"));
    assert_eq!(names, ["clk", "back", "size[0]", "size[1]", "size[2]"]);
    let csv = folder.text(&[&words[..], &["--watch", "in3,in0,in1,in2", "--csv", "-"]].concat());
    assert_waves(&waves, &rows(&csv));
}
