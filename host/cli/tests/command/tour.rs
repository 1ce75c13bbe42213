//! The tour of README.md, command by command, and the texts of docs/TEXT.md.

use std::os::unix::fs::symlink;

use export::iverilog;
use testkit::command::assert_says;
use testkit::run::repository;

use crate::folder::{rows, Folder};

fn document(name: &str) -> String {
    std::fs::read_to_string(repository().join(name)).expect("the document")
}

/// The blocks of a document that are indented, without the indentation.
fn blocks(document: &str) -> Vec<String> {
    let mut blocks = vec![String::new()];
    for line in document.lines() {
        match (
            line.strip_prefix("    "),
            line.is_empty(),
            blocks.last_mut(),
        ) {
            (Some(text), _, Some(block)) => *block += &format!("{text}\n"),
            (None, true, Some(block)) if !block.is_empty() => *block += "\n",
            _ => blocks.push(String::new()),
        }
    }
    blocks.retain(|block| !block.is_empty());
    blocks
}

/// A folder with the examples, where `./quagmuffin` is the binary.
fn folder(name: &str) -> Folder {
    let folder = Folder::new(name);
    symlink(repository().join("examples"), folder.path("examples")).expect("a link");
    symlink(env!("CARGO_BIN_EXE_quagmuffin"), folder.path("quagmuffin")).expect("a link");
    folder
}

/// The commands of a section of README.md, each with the lines that stand under it.
fn commands(section: &str) -> Vec<(String, String)> {
    let readme = document("README.md");
    let section = readme
        .split("\n## ")
        .find(|x| x.starts_with(&format!("{section}\n")));
    let blocks = blocks(section.expect("the section")).into_iter();
    let commands = blocks.flat_map(|block| {
        let commands = block.split("$ ").map(|command| command.split_once('\n'));
        let commands = commands
            .flatten()
            .map(|(x, y)| (x.to_string(), y.to_string()));
        commands.collect::<Vec<_>>()
    });
    commands.collect()
}

/// Every command writes what stands under it; those that judge or compare end with their verdict, 1 here as often as 0.
#[test]
fn tour_of_the_readme() {
    let folder = folder("tour");
    let commands = commands("Five minutes");
    for word in [
        "judge", "explain", "show", "write", "diff", "receive", "run",
    ] {
        let start = format!("./quagmuffin {word} ");
        assert!(
            commands
                .iter()
                .any(|(command, _)| command.starts_with(&start)),
            "{word}"
        );
    }
    for (command, expected) in commands {
        let output = folder.shell(&command);
        assert_eq!(String::from_utf8_lossy(&output.stderr), "", "{command}");
        let text = String::from_utf8_lossy(&output.stdout);
        assert_eq!(text.trim_end(), expected.trim_end(), "{command}");
        let refuses = expected.contains("refused") && !command.contains(" show ");
        let status = i32::from(refuses || command.contains(" diff "));
        assert_eq!(output.status.code(), Some(status), "{command}");
    }
    assert!(folder.path("waves.vcd").exists());
}

/// So does the export for a simulator of one's own.
#[test]
fn simulator_of_the_readme() {
    let Some(cells) = iverilog::cells() else {
        return;
    };
    let folder = folder("simulator");
    for (command, _) in commands("More") {
        if command.contains("design.v") {
            let cells = cells.display().to_string();
            let command = command.replace("/usr/share/yosys/xilinx/cells_sim.v", &cells);
            assert_eq!(folder.shell(&command).status.code(), Some(0), "{command}");
        }
    }
    assert!(folder.path("design.v").exists() && folder.path("design").exists());
}

/// The first design of TEXT.md counts to three, and takes the inputs and edits that stand there.
#[test]
fn texts_of_the_document() {
    let blocks = blocks(&document("docs/TEXT.md"));
    let block = |start: &str| {
        blocks
            .iter()
            .find(|x| x.starts_with(start))
            .expect("a block")
    };
    let folder = Folder::new("document");
    folder.put("text", block("# Counts to three"));
    folder.put("inputs", block("inputs step\n"));
    folder.put("edits", block("3: step = 1\n"));
    let words = ["run", "text", "--watch", "count", "--csv", "-"];
    let counts = |more: &[&str]| {
        let csv = folder.text(&[&words[..], more].concat());
        rows(&csv).iter().map(|row| row[1]).collect::<Vec<i64>>()
    };
    let held = ["--edit", "0: step = 1", "--clocks", "6"];
    assert_eq!(counts(&held), [0, 1, 2, 3, 3, 3]);
    assert_eq!(counts(&["--inputs", "inputs"]), [0, 1, 1]);
    // From clock 8 on, A is A1 & A2, and B's word 0xff has a 1 at the number 3 on its pins.
    let edited = ["--edits", "edits", "--clocks", "11"];
    assert_eq!(counts(&edited), [0, 0, 0, 0, 1, 2, 3, 3, 3, 3, 3]);
}

/// Its mistake is said as it says.
#[test]
fn mistake_of_the_document() {
    let blocks = blocks(&document("docs/TEXT.md"));
    let command = "$ quagmuffin write bad.txt -o bad\n";
    let said = blocks.iter().find_map(|block| block.strip_prefix(command));
    let folder = Folder::new("document mistake");
    folder.put("bad.txt", "slices 1\n\n\n\n\nslice 0\nA mode shft\n");
    let output = folder.run(&["write", "bad.txt", "-o", "bad"]);
    assert_says(
        &output,
        2,
        &(said.expect("the mistake").trim_end().to_string() + "\n"),
    );
}
