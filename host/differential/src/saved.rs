//! Cases as text: a line for the call and its numbers, and one for each buffer
//! that isn't empty. Bytes and words are in hexadecimal, words with spaces
//! between them, and so are edits, each as `kind:number:value`. A line that
//! starts with # says something to the reader.

use std::collections::BTreeMap;
use std::fmt::Write;
use std::path::Path;

use ::calls::Change;
use testkit::run::differences_folder;
use workbench::lent::Lent;
use workbench::Workbench;

use crate::calls::{Buffers, Call};
use crate::comparison::{Case, Compared, Difference};

/// What was compared, where nothing differs; a difference is saved, and told in a panic.
pub fn agreed<T>(compared: Compared<T>) -> T {
    match compared {
        Ok(compared) => compared,
        Err(difference) => panic!("{}", save(&difference, &differences_folder())),
    }
}

/// Writes a difference's case to a folder, and says where and what it is.
pub fn save(difference: &Difference, folder: &Path) -> String {
    let path = folder.join(format!("failing-{}.case", difference.name));
    let text = &difference.text;
    let lines = format!("# {text}\n{}", to_text(&difference.case));
    std::fs::create_dir_all(folder).expect("make the folder of failing cases");
    std::fs::write(&path, lines).expect("write a failing case");
    format!("{}: {}: {text}", path.display(), name(difference.case.call))
}

pub fn to_text(case: &Case) -> String {
    let mut text = format!("call {}\n", name(case.call));
    let words = |lent: &Lent<u64>| {
        let words = lent.get().iter().map(|word| format!("{word:016x}"));
        words.collect::<Vec<String>>().join(" ")
    };
    let digits = |lent: &Lent<u8>| {
        let digits = lent.get().iter().map(|byte| format!("{byte:02x}"));
        digits.collect::<String>()
    };
    let of_words = case.buffers.words().map(|(name, lent)| (name, words(lent)));
    let of_bytes = case
        .buffers
        .bytes()
        .map(|(name, lent)| (name, digits(lent)));
    let of_edits = [("edits", edits_text(case.buffers.edits.get()))];
    let lines = of_words.into_iter().chain(of_bytes).chain(of_edits);
    for (name, cells) in lines.filter(|(_, cells)| !cells.is_empty()) {
        let _ = writeln!(text, "{name} {cells}");
    }
    text
}

fn edits_text(edits: &[Change]) -> String {
    let text = |edit: &Change| format!("{:x}:{:x}:{:x}", edit.kind, edit.number, edit.value);
    edits.iter().map(text).collect::<Vec<String>>().join(" ")
}

/// A call as its line has it.
pub fn name(call: Call) -> String {
    match call {
        Call::Judge => "judge".to_string(),
        Call::PowerUp => "power_up".to_string(),
        Call::Settle => "settle".to_string(),
        Call::Clock => "clock".to_string(),
        Call::Edit => "edit".to_string(),
        Call::ReadRecord { n, m } => format!("read_record {n} {m}"),
        Call::WriteRecord { n, m } => format!("write_record {n} {m}"),
        Call::Feed { last } => format!("feed {last}"),
    }
}

/// The case that a text holds, or what is wrong with it.
pub fn from_text(text: &str) -> Result<Case, String> {
    let mut lines = BTreeMap::new();
    for line in text.lines().filter(|line| !line.starts_with('#')) {
        let words = line.split_once(' ');
        let (name, rest) = words.ok_or_else(|| format!("one word: {}", quoted(line)))?;
        if lines.insert(name, rest).is_some() {
            return Err(format!("twice: {}", quoted(name)));
        }
    }
    let call = lines.remove("call").ok_or("no call")?;
    let call = parse_call(call).ok_or_else(|| format!("no such call: {}", quoted(call)))?;
    let buffers = parse_buffers(&mut lines)?;
    match lines.keys().next() {
        Some(name) => Err(format!("no such buffer: {}", quoted(name))),
        None => Ok(Case { call, buffers }),
    }
}

/// A part of a text that may be anything, fit to be shown on one line.
fn quoted(text: &str) -> String {
    const SHOWN: usize = 40;
    let mut rest = text.chars();
    let shown: String = rest.by_ref().take(SHOWN).collect();
    let more = if rest.next().is_some() { ".." } else { "" };
    format!("{shown:?}{more}")
}

fn parse_call(text: &str) -> Option<Call> {
    let mut words = text.split(' ');
    let name = words.next()?;
    let numbers: Option<Vec<usize>> = words.map(|word| word.parse().ok()).collect();
    Some(match (name, &numbers?[..]) {
        ("judge", []) => Call::Judge,
        ("power_up", []) => Call::PowerUp,
        ("settle", []) => Call::Settle,
        ("clock", []) => Call::Clock,
        ("edit", []) => Call::Edit,
        ("read_record", &[n, m]) => Call::ReadRecord { n, m },
        ("write_record", &[n, m]) => Call::WriteRecord { n, m },
        ("feed", &[last]) => {
            let last = u8::try_from(last).ok()?;
            Call::Feed { last }
        }
        _ => return None,
    })
}

/// The buffers; what no line has is empty.
fn parse_buffers(lines: &mut BTreeMap<&str, &str>) -> Result<Buffers, String> {
    let contents = lines.remove("contents").map_or(Ok(vec![]), parse_words)?;
    let state = lines.remove("state").map_or(Ok(vec![]), parse_words)?;
    let edits = lines.remove("edits").map_or(Ok(vec![]), parse_edits)?;
    let mut bytes = |name| {
        let bytes = lines.remove(name).map_or(Ok(vec![]), parse_bytes)?;
        Ok::<Lent<u8>, String>(Lent::bytes(&bytes))
    };
    Ok(Buffers {
        column: Workbench {
            file: bytes("file")?,
            contents: Lent::words(&contents),
            flops: bytes("flops")?,
            inputs: bytes("inputs")?,
            values: bytes("values")?,
        },
        edits: Lent::edits(&edits),
        record: bytes("record")?,
        body: bytes("body")?,
        part: bytes("part")?,
        state: Lent::words(&state),
        store: bytes("store")?,
        run: bytes("run")?,
    })
}

fn parse_words(text: &str) -> Result<Vec<u64>, String> {
    let word =
        |word| u64::from_str_radix(word, 16).map_err(|_| format!("no word: {}", quoted(word)));
    text.split(' ').map(word).collect()
}

fn parse_edits(text: &str) -> Result<Vec<Change>, String> {
    let edit = |text| parse_edit(text).ok_or_else(|| format!("no edit: {}", quoted(text)));
    text.split(' ').map(edit).collect()
}

fn parse_edit(text: &str) -> Option<Change> {
    let numbers = text.split(':').map(|x| u64::from_str_radix(x, 16).ok());
    let &[kind, number, value] = &numbers.collect::<Option<Vec<u64>>>()?[..] else {
        return None;
    };
    Some(Change {
        kind: kind.try_into().ok()?,
        number,
        value,
    })
}

fn parse_bytes(text: &str) -> Result<Vec<u8>, String> {
    let digits: Option<Vec<u32>> = text.chars().map(|digit| digit.to_digit(16)).collect();
    match digits {
        Some(digits) if digits.len() % 2 == 0 => {
            let byte = |pair: &[u32]| (16 * pair[0] + pair[1]) as u8;
            Ok(digits.chunks(2).map(byte).collect())
        }
        _ => Err(format!("no bytes: {}", quoted(text))),
    }
}
