//! The second program: reads a file and writes its verdict.

use std::ffi::{OsStr, OsString};
use std::process::ExitCode;

use model::{input, judge, Verdict};

fn main() -> ExitCode {
    let words: Vec<OsString> = std::env::args_os().skip(1).collect();
    match &words[..] {
        [word] if word == "--help" => {
            print!("{}", include_str!("../../help/model"));
            ExitCode::SUCCESS
        }
        [] => judged("standard input", None),
        [name] => judged(&name.to_string_lossy(), Some(name)),
        _ => failed("more than one argument; --help says what there is"),
    }
}

fn judged(name: &str, file: Option<&OsStr>) -> ExitCode {
    let verdict = match input::read(file) {
        Ok(file) => judge(&file),
        Err(error) => return failed(&format!("{name}: {error}")),
    };
    println!("{verdict}");
    ExitCode::from(u8::from(matches!(verdict, Verdict::Refused { .. })))
}

fn failed(why: &str) -> ExitCode {
    eprintln!("model: {why}");
    ExitCode::from(2)
}
