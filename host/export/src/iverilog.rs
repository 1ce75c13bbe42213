//! Runs exported designs in iverilog over yosys's models of the primitives, for tests; where these models are.

use std::io::Write;
use std::path::{Path, PathBuf};
use std::process::{Command, Output};
use std::sync::Mutex;

use model::design::SIGNALS;

/// Where Debian's yosys has its models.
const CELLS: &str = "/usr/share/yosys/xilinx/cells_sim.v";

/// What tests were said to be skipped for.
static SKIPPED: Mutex<Vec<String>> = Mutex::new(vec![]);

/// Says once that tests are skipped, and for what, past the capture of test output, so that it is seen.
pub fn say_skipped(missing: &str) {
    let mut skipped = SKIPPED.lock().expect("no test fails while it says this");
    if !skipped.iter().any(|said| said == missing) {
        writeln!(std::io::stderr(), "\nskipped: {missing}").expect("standard error");
        skipped.push(missing.to_string());
    }
}

/// Where the models should be: `CELLS`, or where Debian has them.
pub fn named_cells() -> PathBuf {
    std::env::var_os("CELLS").map_or(PathBuf::from(CELLS), PathBuf::from)
}

/// The models, where they and iverilog are there; else it says so. `CELLS` names other models, and then they have to be there.
pub fn cells() -> Option<PathBuf> {
    let required = std::env::var_os("CELLS").is_some();
    let cells = named_cells();
    let found = cells.exists() && Command::new("iverilog").arg("-V").output().is_ok();
    if found {
        return Some(cells);
    }
    let missing = format!("iverilog or {} isn't installed", cells.display());
    assert!(!required, "{missing}");
    say_skipped(&missing);
    None
}

/// The signals of each clock of a source, by their numbers. Its files are kept beside `path`, which is without extension.
pub fn run(cells: &Path, path: &Path, source: &str) -> Result<Vec<Vec<u8>>, String> {
    let verilog = path.with_extension("v");
    let compiled = path.with_extension("vvp");
    std::fs::write(&verilog, source).map_err(|error| error.to_string())?;
    let mut compile = Command::new("iverilog");
    compile.args(["-s", "test_bench", "-o"]).arg(&compiled);
    output(compile.arg(&verilog).arg(cells))?;
    rows(&output(Command::new("vvp").arg("-n").arg(&compiled))?)
}

/// What a command writes; it has to succeed without a warning.
fn output(command: &mut Command) -> Result<String, String> {
    let Output {
        status,
        stdout,
        stderr,
    } = command.output().map_err(|error| error.to_string())?;
    if !status.success() || !stderr.is_empty() {
        let errors = String::from_utf8_lossy(&stderr);
        return Err(format!("{command:?}: {status}\n{errors}"));
    }
    Ok(String::from_utf8_lossy(&stdout).into())
}

/// The lines of the test bench as a row of signals for each clock: clocks and, in each, slices ascend from 0.
fn rows(text: &str) -> Result<Vec<Vec<u8>>, String> {
    let mut rows: Vec<Vec<u8>> = vec![];
    for line in text.lines() {
        let (clock, slice, bits) = parsed(line).ok_or(format!("not a line of signals: {line}"))?;
        if slice == 0 {
            rows.push(vec![]);
        }
        match rows.last_mut() {
            Some(row) if row.len() == SIGNALS * slice => row.extend(bits),
            _ => return Err(format!("not the slice due: {line}")),
        }
        if clock + 1 != rows.len() {
            return Err(format!("not the clock due: {line}"));
        }
    }
    Ok(rows)
}

/// A line's clock, slice and signals.
fn parsed(line: &str) -> Option<(usize, usize, Vec<u8>)> {
    let words: Vec<&str> = line.split(' ').collect();
    let ["clock", clock, "slice", slice, signals @ ..] = &words[..] else {
        return None;
    };
    // Every second word is a name.
    let digits = signals.iter().skip(1).step_by(2).flat_map(|x| x.chars());
    let bit = |digit| match digit {
        '0' => Some(0),
        '1' => Some(1),
        _ => None,
    };
    let bits: Vec<u8> = digits.map(bit).collect::<Option<_>>()?;
    let whole = bits.len() == SIGNALS;
    whole.then_some((clock.parse().ok()?, slice.parse().ok()?, bits))
}

#[cfg(test)]
mod tests {
    use super::*;

    const LINE: &str =
        "O6 1000 O5 0100 CARRY 0010 SUM 0001 F7A 1 F7B 0 F8 0 MC31 1 MUX 1100 Q 0110 5Q 0011";

    fn text(lines: &[(usize, usize)]) -> String {
        let line = |(clock, slice)| format!("clock {clock} slice {slice} {LINE}\n");
        lines.iter().copied().map(line).collect()
    }

    #[test]
    fn signals_by_number() {
        let rows = rows(&text(&[(0, 0), (0, 1), (1, 0), (1, 1)])).expect("rows");
        let ones = [0, 5, 10, 15, 16, 19, 20, 21, 25, 26, 30, 31];
        let ones: Vec<usize> = (0..2).flat_map(|s| ones.map(|k| 32 * s + k)).collect();
        assert_eq!(rows.len(), 2);
        for row in rows {
            let found: Vec<usize> = (0..64).filter(|&x| row[x] == 1).collect();
            assert_eq!((row.len(), found), (64, ones.clone()));
        }
    }

    #[test]
    fn other_lines_are_refused() {
        for lines in [
            &[(1, 0)][..],
            &[(0, 1)],
            &[(0, 0), (0, 0)],
            &[(0, 0), (0, 2)],
            &[(0, 0), (1, 1)],
        ] {
            assert!(rows(&text(lines)).is_err(), "{lines:?}");
        }
        for (from, to) in [
            ("1000", "100x"),
            ("1000", "100"),
            ("1000", "10000"),
            ("clock", "clocks"),
            ("slice 0", "slice"),
        ] {
            assert!(rows(&text(&[(0, 0)]).replace(from, to)).is_err(), "{to}");
        }
    }
}
