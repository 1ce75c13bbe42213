//! The command `lookup`: ways written in C beside each other, sound ones and ones that differ from the second program; its words.

use std::fs;
use std::path::{Path, PathBuf};
use std::process::{Command, Output};

use testkit::command::{assert_fails, assert_says, assert_writes};
use testkit::run::repository;

/// Look-ups in a row, with what a test defines: the bit of a word, and how far on the next place is.
const ROWS: &str = r#"
#include <stddef.h>
#include <stdint.h>
#ifndef BIT
#define BIT(word, place) ((word) >> (place) & 1)
#endif
#ifndef ON
#define ON(bit) (bit)
#endif
static uint64_t picked(const uint64_t *words, size_t count, unsigned pick, uint64_t on) {
    return pick / 64 < count ? BIT(words[pick / 64], (pick + on) % 64) : 0;
}
uint64_t lookups_apart(const uint64_t *words, size_t count, const uint16_t *picks, size_t length) {
    uint64_t sum = 0;
    for (size_t i = 0; i < length; i++) sum += picked(words, count, picks[i], 0);
    return sum;
}
uint64_t lookups_chained(const uint64_t *words, size_t count, const uint16_t *picks, size_t length) {
    uint64_t sum = 0, bit = 0;
    for (size_t i = 0; i < length; i++) sum += bit = picked(words, count, picks[i], ON(bit));
    return sum;
}
"#;

const MASK: &str = "-DBIT(word,place)=(((word)&1ull<<(place))!=0)";

/// Makes a shared library.
fn link(library: &Path, words: &[&str]) {
    let mut gcc = Command::new("gcc");
    gcc.args(["-O1", "-fPIC", "-shared", "-Wl,--build-id=none"]);
    gcc.args(words).arg("-o").arg(library);
    let output = gcc.output().expect("gcc");
    assert!(output.status.success(), "{output:?}");
}

/// Makes a shared library of a text in C, with definitions.
fn compile(library: &Path, code: &str, definitions: &[&str]) {
    let file = library.with_extension("c");
    fs::write(&file, code).expect("a file");
    let file = [file.to_str().expect("a path")];
    link(library, &[definitions, &file].concat());
}

/// Another library where one was loaded before.
fn replace(library: &Path, code: &str) {
    fs::remove_file(library).expect("a library");
    compile(library, code, &[]);
}

/// The folder of a way: rows in C with definitions, and the library itself.
fn way(test: &str, name: &str, definitions: &[&str]) -> PathBuf {
    let folder = Path::new(env!("CARGO_TARGET_TMPDIR")).join("ways");
    let folder = folder.join(test).join(name);
    let _ = fs::remove_dir_all(&folder);
    fs::create_dir_all(&folder).expect("a folder");
    compile(&folder.join("lookuprows.so"), ROWS, definitions);
    let archive = repository().join("target/staticlib/libquagmuffin.a");
    let archive = archive.to_str().expect("a path");
    let whole = ["-Wl,--whole-archive", archive, "-Wl,--no-whole-archive"];
    link(&folder.join("quagmuffin.so"), &whole);
    folder
}

fn lookup(words: &[&PathBuf]) -> Output {
    let mut command = Command::new(env!("CARGO_BIN_EXE_lookup"));
    command.args(words).output().expect("run lookup")
}

/// What is said where a way differs from the second program.
fn differs(ways: &[&PathBuf]) -> String {
    let output = lookup(ways);
    let said = String::from_utf8_lossy(&output.stderr).into_owned();
    assert_says(&output, 1, &said);
    said
}

/// The same of rows with a definition, beside a sound way.
fn differs_by(test: &str, definition: &str) -> String {
    differs(&[&way(test, "shift", &[]), &way(test, "other", &[definition])])
}

#[test]
fn sound_ways_are_timed() {
    let ways = [way("sound", "shift", &[]), way("sound", "mask", &[MASK])];
    let output = lookup(&[&ways[0], &ways[1]]);
    let text = String::from_utf8_lossy(&output.stdout).into_owned();
    assert_writes(&output, 0, &text);
    let sections = [
        (
            "a chain, each place moved on by the bit before: nanoseconds a look-up",
            false,
        ),
        ("independent look-ups: nanoseconds a look-up", false),
        ("a settle of deep, 64 slices: microseconds a call", true),
        (
            "a settle of irregular, 64 slices: microseconds a call",
            true,
        ),
    ];
    let printed: Vec<Vec<&str>> = text
        .split("\n\n")
        .map(|part| part.lines().collect())
        .collect();
    assert_eq!(printed.len(), 1 + sections.len(), "{text}");
    for (lines, (title, same)) in printed[1..].iter().zip(sections) {
        let &[first, shift, mask, times, ratio] = &lines[..] else {
            panic!("{lines:?}")
        };
        assert_eq!([first, times], [title, "times shift"]);
        assert!(
            shift.starts_with("  shift  ") && mask.starts_with("  mask  "),
            "{lines:?}"
        );
        assert!(ratio.starts_with("  mask  "), "{ratio}");
        assert_eq!(
            ratio.ends_with(" the same code, byte for byte"),
            same,
            "{ratio}"
        );
    }
}

#[test]
fn a_wrong_place_is_named() {
    let wrong = "-DBIT(word,place)=((place)==63?0:(word)>>(place)&1)";
    let said = differs_by("place", wrong);
    let start = "lookup: other, apart: place 63 of 0x";
    assert!(said.starts_with(start), "{said}");
    assert!(
        said.ends_with(" gives 0, by the second program 1\n"),
        "{said}"
    );
}

/// Right at each place alone, it goes wrong after a bit.
#[test]
fn a_chain_that_is_not_one_is_named() {
    let said = differs_by("chain", "-DON(bit)=0");
    let start = "lookup: other, chained: a row of 65536 look-ups gives ";
    assert!(said.starts_with(start), "{said}");
}

#[test]
fn a_wrong_settle_is_named() {
    let [sound, other] = ["shift", "other"].map(|name| way("settle", name, &[]));
    let settle = "unsigned long qm_settle(void) { return 0; }\n";
    replace(&other.join("quagmuffin.so"), settle);
    let start = "lookup: other: the settle with the inputs at place 0 gives 2 for signal 0, ";
    let said = differs(&[&sound, &other]);
    assert!(said.starts_with(start), "{said}");
}

#[test]
fn fails_where_a_way_is_missing() {
    let [sound, other] = ["shift", "other"].map(|name| way("missing", name, &[]));
    for words in [&[][..], &[&sound]] {
        assert_fails(&lookup(words), "lookup: two folders or more,");
    }
    let rows = other.join("lookuprows.so");
    let path = rows.display();
    replace(&rows, "int other;\n");
    let start = format!("lookup: {path}: has no lookups_apart");
    assert_fails(&lookup(&[&sound, &other]), &start);
    fs::write(&rows, "no library").expect("a file");
    let start = format!("lookup: {path}: is no shared library");
    assert_fails(&lookup(&[&sound, &other]), &start);
    fs::remove_file(&rows).expect("a file");
    let start = format!("lookup: {path}: No such file");
    assert_fails(&lookup(&[&sound, &other]), &start);
}

#[test]
fn fails_where_nothing_can_be_written() {
    let ways = ["shift", "other"].map(|name| way("written", name, &[]));
    let mut command = Command::new(env!("CARGO_BIN_EXE_lookup"));
    let full = fs::File::create("/dev/full").expect("a full device");
    let output = command.args(ways).stdout(full).output();
    let output = output.expect("run lookup");
    assert_fails(&output, "lookup: standard output: ");
}

#[test]
fn help() {
    let text = include_str!("../../help/lookup");
    assert_writes(&lookup(&[&PathBuf::from("--help")]), 0, text);
}

/// All that is said of a look-up before its body: the ways of host/lookup say the same, word for word.
#[test]
fn ways_promise_the_same() {
    let promise = |way: &str| {
        let path = repository().join("crates").join(way).join("src/lib.rt");
        let code = fs::read_to_string(path).expect("a way");
        let (_, code) = code.split_once('\n').expect("a line");
        let (promise, _) = code.split_once("\n{\n").expect("a body");
        promise.to_string()
    };
    let script = fs::read_to_string(repository().join("host/lookup")).expect("a script");
    let (_, others) = script.split_once("\nothers=(").expect("a list");
    let (others, _) = others.split_once(')').expect("a list");
    assert!(others.split(' ').any(|way| way == "lookupmask"), "{others}");
    for way in others.split(' ') {
        assert_eq!(promise(way), promise("lookup"), "{way}");
    }
}
