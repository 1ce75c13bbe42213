//! docs/THEOREMS.md names definitions and theorems with the file that each stands in:
//! that they stand there, and that no exported call is left out.

use std::fs::read_to_string;

use testkit::run::repository;

/// The names of a row of a table, and the file that declares them.
struct Row {
    names: Vec<String>,
    file: String,
}

fn read(path: &str) -> String {
    read_to_string(repository().join(path)).unwrap_or_else(|error| panic!("{path}: {error}"))
}

/// The words between backquotes.
fn quoted(cell: &str) -> Vec<String> {
    cell.split('`')
        .skip(1)
        .step_by(2)
        .map(str::to_string)
        .collect()
}

/// The rows of a document's tables: the last cell has the file, the one before it the names. Heads and rules of tables have no names.
fn rows(document: &str) -> Vec<Row> {
    let tables = document.lines().filter(|line| line.starts_with('|'));
    let rows = tables.filter_map(|line| {
        let cells: Vec<&str> = line.trim_matches('|').split('|').collect();
        let [.., names, file] = cells[..] else {
            panic!("too few cells: {line}")
        };
        let [file] = &quoted(file)[..] else {
            return None;
        };
        let (names, file) = (quoted(names), file.clone());
        assert!(!names.is_empty(), "no name: {line}");
        Some(Row { names, file })
    });
    rows.collect()
}

/// Whether a line of a proof or of code declares a name: by its signature, or as a type or function.
fn declares(line: &str, name: &str) -> bool {
    let mut words = line.split_whitespace().peekable();
    let mut kind = "";
    while let Some(word) = words.next_if(|&word| KEYWORDS.contains(&word)) {
        kind = word;
    }
    match (kind, words.next(), words.next()) {
        ("fn", Some(word), _) => word.split('(').next() == Some(name),
        ("record" | "data", Some(word), _) => word == name,
        (_, Some(word), Some(":")) => word == name,
        _ => false,
    }
}

const KEYWORDS: [&str; 8] = [
    "pub",
    "abbrev",
    "unfoldable",
    "record",
    "data",
    "extern",
    "\"C\"",
    "fn",
];

#[test]
fn names_stand_where_they_are_said_to() {
    let rows = rows(&read("docs/THEOREMS.md"));
    assert!(rows.len() > 40, "only {} rows", rows.len());
    for Row { names, file } in rows {
        let text = read(&file);
        for name in names {
            assert!(
                text.lines().any(|line| declares(line, &name)),
                "{file} doesn't declare {name}"
            );
        }
    }
}

#[test]
fn every_exported_call_is_named() {
    let named: Vec<String> = rows(&read("docs/THEOREMS.md"))
        .into_iter()
        .flat_map(|row| row.names)
        .collect();
    let library = read("crates/quagmuffin_c/src/lib.rt");
    let calls = library
        .lines()
        .filter_map(|line| line.strip_prefix("pub extern \"C\" fn "));
    let calls: Vec<&str> = calls.filter_map(|line| line.split('(').next()).collect();
    assert!(calls.contains(&"qm_judge"));
    for call in calls {
        assert!(
            named.iter().any(|name| name == call),
            "docs/THEOREMS.md doesn't name {call}"
        );
    }
}

/// A use, a clause or a longer name is no declaration.
#[test]
fn declarations() {
    assert!(declares(
        "  pub nine-exactly : {v : Verdict} → Judged file v",
        "nine-exactly"
    ));
    assert!(declares(
        "pub record Run (file : List ℕ) (K : ℕ) : Type 0 where",
        "Run"
    ));
    assert!(declares(
        "pub extern \"C\" fn qm_judge(file: &[u8]) -> u64",
        "qm_judge"
    ));
    assert!(declares("pub fn judge(file: &[u8]) -> Verdict", "judge"));
    assert!(!declares(
        "nine-exactly (bad e) = absurd (sound e)",
        "nine-exactly"
    ));
    assert!(!declares("use Rattle·column.specs.Clock.{Run}", "Run"));
    assert!(!declares("pub nine-exactly-not : ℕ", "nine-exactly"));
}
