//! Makes the call of a saved case with the library and with the model.

use std::ffi::OsStr;
use std::fs::File;
use std::io::{read_to_string, ErrorKind, Read};
use std::process::ExitCode;

use differential::calls::{by_library, Buffers, Model};
use differential::comparison::{replayed, Case, Sides};
use differential::saved::{from_text, name};

/// Far more than a case has: what is longer is none, and may be endless.
const LONGEST: u64 = 16 << 20;

fn main() -> ExitCode {
    let words: Vec<_> = std::env::args_os().skip(1).collect();
    let [path] = &words[..] else {
        return failed("one argument, the file of a saved case");
    };
    if path == "--help" {
        print!("{}", include_str!("../../../help/replay"));
        return ExitCode::SUCCESS;
    }
    match read(path) {
        Ok(case) => replay(&case),
        Err(why) => failed(&format!("{}: {why}", path.to_string_lossy())),
    }
}

fn failed(why: &str) -> ExitCode {
    eprintln!("replay: {why}");
    ExitCode::from(2)
}

fn read(path: &OsStr) -> Result<Case, String> {
    let text = File::open(path).and_then(|file| read_to_string(file.take(LONGEST)));
    let text = text.map_err(|error| match error.kind() {
        ErrorKind::InvalidData => "no case: not a text".to_string(),
        _ => error.to_string(),
    })?;
    match text.len() as u64 {
        LONGEST => Err("no case: too long".to_string()),
        _ => from_text(&text).map_err(|why| format!("no case: {why}")),
    }
}

fn replay(case: &Case) -> ExitCode {
    let model = Model::of(case.buffers.column.file.get());
    let model = |call, buffers: &mut Buffers| model.call(call, buffers);
    let replay = replayed(case, Sides::new(&by_library, &model));
    println!("call:    {}", name(case.call));
    println!("library: {}", replay.library);
    println!("model:   {}", replay.model);
    match replay.difference {
        Some(text) => {
            println!("{text}");
            ExitCode::FAILURE
        }
        None => {
            println!("no difference");
            ExitCode::SUCCESS
        }
    }
}
