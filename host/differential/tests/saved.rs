//! A difference is saved as a case that repeats it.

use std::path::Path;
use std::process::{Command, Output};

use calls::Change;
use differential::calls::{by_library, Buffers, Call, Caller, Model};
use differential::comparison::{replayed, Case, Difference, Sides};
use differential::saved::{from_text, save, to_text};
use differential::{columns, feeds, mutants, records};
use model::layout::A;
use model::Workings;
use testkit::column::Column;
use testkit::command::{assert_fails, assert_writes};
use testkit::random::{files, seed};
use workbench::lent::Lent;
use workbench::Workbench;

/// Saves a difference with a wrong model and reads it back: the case is the same, differs in the same way with
/// the wrong model, and not at all with the right one.
fn repeats(difference: &Difference, wrong: &Caller) {
    let said = save(difference, folder());
    let path = folder().join(format!("failing-{}.case", difference.name));
    assert!(said.starts_with(path.to_str().expect("a path of text")));
    assert!(said.ends_with(&difference.text));
    let text = std::fs::read_to_string(&path).expect("the saved case");
    let case = from_text(&text).expect("a case");
    assert_eq!(case, difference.case);
    let again = replayed(&case, Sides::new(&by_library, wrong));
    assert_eq!(again.difference.as_ref(), Some(&difference.text));
    let model = Model::of(case.buffers.column.file.get());
    let right = |call, buffers: &mut Buffers| model.call(call, buffers);
    let right = replayed(&case, Sides::new(&by_library, &right));
    assert_eq!(right.difference, None);
}

fn folder() -> &'static Path {
    Path::new(env!("CARGO_TARGET_TMPDIR"))
}

/// Differences of calls of each kind on files.
#[test]
fn differences_on_files_repeat() {
    let seed = seed();
    let subjects = columns::subjects(seed, 1);
    for (name, change) in mutants::of_columns() {
        let mut workings = Workings::paper();
        change(&mut workings);
        let difference = columns::compare_all(&subjects, &by_library, workings, seed);
        let difference = difference.expect_err(name);
        let model = Model::of(difference.case.buffers.column.file.get()).with(workings);
        repeats(&difference, &|call, buffers| model.call(call, buffers));
    }
}

/// Differences of the reader and of the writer.
#[test]
fn differences_on_records_repeat() {
    let seed = seed();
    let subjects = records::subjects(seed, 1);
    for mutant in mutants::records::others() {
        let sides = Sides::new(&by_library, &mutant.caller);
        let difference = records::compare_all(&subjects, sides, seed);
        repeats(&difference.expect_err(&mutant.name), &mutant.caller);
    }
}

/// Differences of readers.
#[test]
fn differences_of_readers_repeat() {
    let seed = seed();
    let files = files(seed, 1);
    for (name, caller) in mutants::feeds::all() {
        let sides = Sides::new(&by_library, &caller);
        let difference = feeds::compare_all(&files, sides, seed);
        repeats(&difference.expect_err(name), &caller);
    }
}

/// A case's lines, written by hand.
#[test]
fn case_as_text() {
    let column = Workbench {
        file: Lent::bytes(&[1, 2, 0xFF]),
        contents: Lent::words(&[1, 1 << 63]),
        flops: Lent::bytes(&[0x5A]),
        inputs: Lent::bytes(&[]),
        values: Lent::bytes(&[0, 1]),
    };
    let odd = Change {
        kind: 255,
        number: u64::MAX,
        value: 256,
    };
    let edits = [Change::input(0, 1), Change::table((1 << 32) + 3, 10), odd];
    let case = Case {
        call: Call::Edit,
        buffers: Buffers {
            edits: Lent::edits(&edits),
            ..Buffers::of_column(column)
        },
    };
    let lines = "call edit\n\
                 contents 0000000000000001 8000000000000000\n\
                 file 0102ff\n\
                 flops 5a\n\
                 values 0001\n\
                 edits 0:0:1 1:100000003:a ff:ffffffffffffffff:100\n";
    assert_eq!(to_text(&case), lines);
    assert_eq!(from_text(lines), Ok(case));
}

/// The same for a reader's call.
#[test]
fn reader_as_text() {
    let case = Case {
        call: Call::Feed { last: 255 },
        buffers: Buffers::of_reader(&[2, 0, 1 << 63], &[1, 2, 0xA0], &[0xFF]),
    };
    let lines = "call feed 255\n\
                 state 0000000000000002 0000000000000000 8000000000000000\n\
                 store 0102a0\n\
                 run ff\n";
    assert_eq!(to_text(&case), lines);
    assert_eq!(from_text(lines), Ok(case));
}

#[test]
fn texts_that_are_no_case() {
    for (text, error) in [
        ("file 00\n", "no call"),
        ("call dance\n", "no such call: \"dance\""),
        ("call settle 1\n", "no such call: \"settle 1\""),
        ("call edit 0:0:1\n", "no such call: \"edit 0:0:1\""),
        ("call edit\nedits 0:0\n", "no edit: \"0:0\""),
        ("call edit\nedits 0:0:1:1\n", "no edit: \"0:0:1:1\""),
        ("call edit\nedits 100:0:1\n", "no edit: \"100:0:1\""),
        ("call edit\nedits 0:0:1  0:0:1\n", "no edit: \"\""),
        ("call edit\nedits 0:0:x\n", "no edit: \"0:0:x\""),
        ("call feed 256\n", "no such call: \"feed 256\""),
        ("call judge\ncall judge\n", "twice: \"call\""),
        ("call judge\nbooty 00\n", "no such buffer: \"booty\""),
        ("call judge\nfile\n", "one word: \"file\""),
        ("call judge\nfile 012\n", "no bytes: \"012\""),
        ("call judge\nfile +1\n", "no bytes: \"+1\""),
        ("call settle\ncontents 0 x\n", "no word: \"x\""),
        ("\0\x1b[2J", "one word: \"\\0\\u{1b}[2J\""),
        (
            "call 0123456789012345678901234567890123456789 0",
            "no such call: \"0123456789012345678901234567890123456789\"..",
        ),
    ] {
        assert_eq!(from_text(text), Err(error.to_string()));
    }
}

/// The command `replay` on a file.
fn replay(name: &str, bytes: &[u8]) -> Output {
    std::fs::write(folder().join(name), bytes).expect("write a case");
    replay_words(&[name])
}

/// The command `replay` in the tests' folder.
fn replay_words(words: &[&str]) -> Output {
    let mut command = Command::new(env!("CARGO_BIN_EXE_replay"));
    let output = command.args(words).current_dir(folder()).output();
    output.expect("run replay")
}

#[test]
fn replay_makes_the_call() {
    let file = Column::zeros(1, 0).pin(0, "A1", 4100).bytes();
    let digits: String = file.iter().map(|byte| format!("{byte:02x}")).collect();
    let case = format!("call settle\nfile {digits}\n");
    let lines = "call:    settle\nlibrary: refused 9 4\nmodel:   refused 9 4\nno difference\n";
    assert_writes(&replay("looped.case", case.as_bytes()), 0, lines);
}

/// Z with input 0 on A1 and contents A that pass it on: the input is set, and then the byte 2 is refused.
#[test]
fn replay_edits() {
    let column = Column::zeros(1, 1).pin(0, "A1", 256);
    let file = column.contents(0, A, 2).bytes();
    let digits: String = file.iter().map(|byte| format!("{byte:02x}")).collect();
    let words = "0000000000000002 0000000000000000 0000000000000000 0000000000000000";
    let values = "00".repeat(32);
    let case = format!(
        "call edit\nfile {digits}\ncontents {words}\nflops 00\ninputs 00\nvalues {values}\nedits 0:0:0 0:0:1\n"
    );
    let lines = "call:    edit\nlibrary: done\nmodel:   done\nno difference\n";
    assert_writes(&replay("edits.case", case.as_bytes()), 0, lines);
    let case = case.replace("0:0:0 0:0:1", "0:0:1 0:0:2");
    let lines = "call:    edit\nlibrary: refused 11 0\nmodel:   refused 11 0\nno difference\n";
    assert_writes(&replay("bad-edit.case", case.as_bytes()), 0, lines);
}

/// The size record came, and now the three bytes of an end record.
#[test]
fn replay_feeds_a_reader() {
    let store = format!("0102000100{}", "00".repeat(8131));
    let state = "0000000000000005 0000000000000000 0000000000000000";
    let case = format!("call feed 0\nstate {state}\nstore {store}\nrun 030000\n");
    let lines = "call:    feed 0\nlibrary: refused 4 5\nmodel:   refused 4 5\nno difference\n";
    assert_writes(&replay("reader.case", case.as_bytes()), 0, lines);
    let case = case.replace("run 030000", "run 0300");
    let lines = "call:    feed 0\nlibrary: more\nmodel:   more\nno difference\n";
    assert_writes(&replay("waiting.case", case.as_bytes()), 0, lines);
}

#[test]
fn replay_says_what_is_wrong() {
    let one = "replay: one argument, the file of a saved case\n";
    assert_fails(&replay_words(&[]), one);
    assert_fails(&replay_words(&["a", "b"]), one);
    assert_fails(&replay_words(&["none"]), "replay: none: No such file");
    assert_fails(&replay_words(&["."]), "replay: .: Is a directory");
    let dance = replay("dance.case", b"call dance\n");
    assert_fails(
        &dance,
        "replay: dance.case: no case: no such call: \"dance\"\n",
    );
    let bytes = replay("bytes.case", b"\xff\xfe");
    assert_fails(&bytes, "replay: bytes.case: no case: not a text\n");
    let zeros = replay("zeros.case", &[0; 1000]);
    assert_fails(&zeros, "replay: zeros.case: no case: one word: \"\\0\\0");
    assert_fails(
        &replay_words(&["/dev/zero"]),
        "replay: /dev/zero: no case: too long\n",
    );
}

#[test]
fn replay_helps() {
    let text = include_str!("../../help/replay");
    assert_writes(&replay_words(&["--help"]), 0, text);
}
