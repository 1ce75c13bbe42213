//! Writes a slice file as Verilog. `host/verilog` builds and runs it.

use std::ffi::OsString;
use std::io::Write;
use std::process::ExitCode;

use export::{verilog, Netlist, Stimulus};
use model::{input, judge, Design, Rules, Verdict};

/// Why there is no Verilog: the exit status and the line that says it.
struct Failure(u8, String);

fn main() -> ExitCode {
    let mut words = std::env::args_os().skip(1);
    let file = words.next();
    let words: Vec<String> = words.map(|word| word.to_string_lossy().into()).collect();
    if file.as_ref().is_some_and(|word| word == "--help") && words.is_empty() {
        print!("{}", include_str!("../../help/verilog"));
        return ExitCode::SUCCESS;
    }
    match run(file, &words) {
        Ok(()) => ExitCode::SUCCESS,
        Err(Failure(status, line)) => {
            eprintln!("{line}");
            ExitCode::from(status)
        }
    }
}

fn run(file: Option<OsString>, words: &[String]) -> Result<(), Failure> {
    let name = match &file {
        Some(path) => path.to_string_lossy().into_owned(),
        None => "standard input".to_string(),
    };
    let failed = |why: String| Failure(2, format!("verilog: {why}"));
    let bytes = input::read(file.as_deref()).map_err(|error| failed(format!("{name}: {error}")))?;
    let design = design(&bytes)?;
    let stimulus = Stimulus::parse(design.m, words).map_err(failed)?;
    let text = verilog(&Netlist::of(&design), &stimulus);
    let written = std::io::stdout().write_all(text.as_bytes());
    written.map_err(|error| failed(format!("standard output: {error}")))
}

/// The design of an accepted file, or the judge's line.
fn design(file: &[u8]) -> Result<Design, Failure> {
    match judge(file) {
        Verdict::Accepted { n, m } => Ok(Design::decode(&Rules::paper(), file, n, m)),
        refused => Err(Failure(1, refused.to_string())),
    }
}
