//! The commands that look at a file and don't run it.

use std::path::{Path, PathBuf};

use explain::{Explained, Fault};
use export::Netlist;
use quagmuffin::{judge, Refused, Verdict};

use crate::args::Stimulus;
use crate::failure::{name, Failure, Outcome};
use crate::output::{say, Sink, Used};
use crate::run::inputs::Inputs;
use crate::source;

/// The program's line for a verdict, and the exit status that says it.
pub fn line_of(verdict: Verdict) -> (String, u8) {
    match verdict {
        Ok(accepted) => (accepted.to_string(), 0),
        Err(refused) => (refused.to_string(), 1),
    }
}

/// All files are read before the first line is written.
pub fn judge_files(paths: &[PathBuf]) -> Outcome<u8> {
    let files: Vec<Vec<u8>> = paths
        .iter()
        .map(|path| source::slice_file(path))
        .collect::<Result<_, _>>()?;
    let mut worst = 0;
    let mut text = String::new();
    for (path, file) in paths.iter().zip(&files) {
        let (line, status) = line_of(judge(file));
        worst = worst.max(status);
        text += &match paths.len() {
            1 => format!("{line}\n"),
            _ => format!("{}: {line}\n", name(path)),
        };
    }
    say(text)?;
    Ok(worst)
}

/// The verdict is the library's; the second program words it, and has to agree. Of a text the slice file is explained that it makes.
pub fn explain_file(path: &Path) -> Outcome<u8> {
    let (name, file) = (name(path), source::slice_file(path)?);
    let file = match source::not_of_text(&file) {
        None => source::design_of(name.clone(), file)?.file,
        Some(_) => file,
    };
    let (line, status) = line_of(judge(&file));
    let Explained { faults, note } = explain::explain(&file);
    let (count, worded) = match &faults[..] {
        [] => ("no fault".to_string(), None),
        [first] => ("one fault".to_string(), Some(first)),
        [first, ..] => (format!("{} faults", faults.len()), Some(first)),
    };
    let refused = |fault: &Fault| Refused {
        number: fault.number,
        place: fault.place as u64,
    };
    let worded = worded.map(|fault| refused(fault).to_string());
    if worded.as_ref() != (status == 1).then_some(&line) {
        return Err(Failure::of(format!(
            "{name}: {line}, but the explanation is of something else: please report it with the file"
        )));
    }
    let mut text = format!("{name}: {line}: {count}\n");
    let faults = faults.iter().map(Fault::to_string);
    let blocks = faults.chain(note).chain(rest(&file)).chain(hint(&file));
    blocks.for_each(|block| text += &format!("\n{block}\n"));
    say(text)?;
    Ok(status)
}

/// Bytes of a long file that were left alone: none of them changes the verdict.
fn rest(file: &[u8]) -> Option<String> {
    let most = source::MOST_BYTES;
    (file.len() == most).then(|| format!("Only the first {most} bytes were looked at."))
}

/// Something that begins like a text and is none.
fn hint(file: &[u8]) -> Option<String> {
    let place = source::not_of_text(file).filter(|_| source::begins_like_text(file))?;
    let byte = file[place];
    Some(format!(
        "It begins like a text, but byte {place} is {byte:#x}: a text is UTF-8, and has no zeros."
    ))
}

/// A design is shown whether it is accepted or not.
pub fn show(path: &Path, slice: Option<usize>) -> Outcome<u8> {
    let design = source::design(path)?;
    let records = design.records()?;
    let shown = match slice {
        None => text::show(&records),
        Some(number) => text::show_slice(&records, number).ok_or_else(|| {
            Failure::of(format!(
                "{}: no slice {number}: there are {}, from 0 on",
                design.name, records.n
            ))
        })?,
    };
    say(shown)?;
    Ok(0)
}

pub fn write(text: &Path, output: &Path) -> Outcome<u8> {
    let file = source::text(text)?.records.bytes();
    let (line, status) = line_of(judge(&file));
    let sink = Used::by_reading([text]).open(output)?;
    keep(&file, &line, output, sink)?;
    Ok(status)
}

/// Writes a file, accepted or not, and says the verdict on it, unless it went to standard output itself.
pub fn keep(file: &[u8], line: &str, output: &Path, mut sink: Sink) -> Outcome<()> {
    sink.write(file)?;
    sink.flush()?;
    match output.as_os_str() == "-" {
        true => Ok(()),
        false => say(format!("{}: {line}\n", name(output))),
    }
}

pub fn diff(a: &Path, b: &Path) -> Outcome<u8> {
    let records = |path| source::design(path)?.records();
    let differing = |failure: Failure| Failure {
        status: 2,
        ..failure
    };
    let (a, b) = (
        records(a).map_err(differing)?,
        records(b).map_err(differing)?,
    );
    let changes = text::changes(&a, &b);
    say(&changes)?;
    Ok(u8::from(!changes.is_empty()))
}

pub fn verilog(path: &Path, stimulus: &Stimulus) -> Outcome<u8> {
    let design = source::design(path)?;
    let size = design.column()?.size();
    let inputs = Inputs::read(stimulus, &design.names, size.m)?;
    let decoded = model::Design::decode(&model::Rules::paper(), &design.file, size.n, size.m);
    let stimulus = export::Stimulus {
        clocks: inputs.clocks,
        inputs: inputs.digits(),
    };
    say(export::verilog(&Netlist::of(&decoded), &stimulus))?;
    Ok(0)
}
