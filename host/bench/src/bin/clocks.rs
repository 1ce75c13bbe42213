//! Clocks in a row, by one call and by a call a clock, beside simulators of the same column: all are held to each other and then timed. Times pass or
//! fail nothing.

use bench::clocks::{Clocks, Subject, Way};
use bench::simulators::{Measured, Tool};
use bench::timing::{Spread, Times};
use std::ffi::OsString;
use std::hint::black_box;
use std::io::{stdout, Write};
use std::path::{Path, PathBuf};
use std::process::ExitCode;

/// The columns that are timed, by kind and slices.
const TIMED: [(&str, usize); 4] = [("deep", 1), ("deep", 16), ("deep", 64), ("irregular", 64)];
/// The clocks of a row that is timed, and how often it is.
const CLOCKS: usize = 256;
const ROUNDS: usize = 20;

/// Why the command ends: the exit status and the line that says it.
struct Failure(u8, String);

fn main() -> ExitCode {
    let words: Vec<OsString> = std::env::args_os().skip(1).collect();
    let done = match &words[..] {
        [word] if word == "--help" => {
            print!("{}", include_str!("../../../help/clocks"));
            return ExitCode::SUCCESS;
        }
        [folder] => Clocks::load(Path::new(folder)).map_err(|why| Failure(2, why)),
        _ => Err(Failure(
            2,
            "one folder, which host/clocks makes; --help says more".to_string(),
        )),
    };
    match done.and_then(|clocks| report(&clocks)) {
        Ok(()) => ExitCode::SUCCESS,
        Err(Failure(status, why)) => {
            eprintln!("clocks: {why}");
            ExitCode::from(status)
        }
    }
}

/// Says how far it is.
fn say(subject: &Subject, what: &str) {
    eprintln!("clocks: {}: {what}", subject.name);
}

fn print(line: String) -> Result<(), Failure> {
    let written = writeln!(stdout(), "{line}");
    written.map_err(|error| Failure(2, format!("standard output: {error}")))
}

fn report(clocks: &Clocks) -> Result<(), Failure> {
    let subjects = TIMED.map(|(kind, n)| Subject::new(kind, n));
    for subject in &subjects {
        let held = held(clocks, subject)?;
        say(
            subject,
            &format!("{held} clocks agree with the second program, in a row and one by one"),
        );
    }
    print(format!("Nanoseconds a clock, the inputs changed in each. Ours: median (quartiles) over {ROUNDS} rounds of {CLOCKS} clocks."))?;
    subjects
        .iter()
        .try_for_each(|subject| section(clocks, subject))
}

/// How many clocks agree with the second program, both ways.
fn held(clocks: &Clocks, subject: &Subject) -> Result<usize, Failure> {
    let check = |name: &str, way: Way| {
        let differs = |why| Failure(1, format!("{}: {name}: {why}", subject.name));
        subject.check(clocks, way).map_err(differs)
    };
    check("clocks_in_a_row", Clocks::in_a_row)?;
    check("qm_clock", Clocks::one_by_one)
}

fn section(clocks: &Clocks, subject: &Subject) -> Result<(), Failure> {
    print(format!(
        "\n{:<34}{:>14} {:<22}{:>18}",
        subject.name, "ns a clock", "", "before the first"
    ))?;
    say(subject, "timing the library");
    ours(clocks, subject)?;
    for tool in Tool::ALL {
        if !tool.is_installed() {
            print(format!("  {:<32}{:>14}", tool.name(), "not installed"))?;
            continue;
        }
        say(
            subject,
            &format!("building it with {} and timing that", tool.name()),
        );
        let measured = simulated(tool, subject)?;
        agrees(clocks, subject, tool, &measured)?;
        let (ns, seconds) = (measured.clock.as_nanos(), measured.before.as_secs_f64());
        let count = format!("over {} clocks", measured.clocks);
        let note = "signals equal ours";
        print(format!(
            "  {:<32}{ns:>14} {count:<22}{seconds:>16.2} s  {note}",
            tool.name()
        ))?;
    }
    Ok(())
}

/// Both ways of the library. A row of one clock is what a row takes before its first clock, and that clock.
fn ours(clocks: &Clocks, subject: &Subject) -> Result<(), Failure> {
    let timed = |way: Way, count: usize| {
        let mut bench = subject.bench.clone();
        let inputs = subject.first(count);
        Box::new(move || {
            black_box(way(clocks, &mut bench, inputs));
        }) as Box<dyn FnMut()>
    };
    let calls = vec![
        timed(Clocks::in_a_row, 1),
        timed(Clocks::in_a_row, CLOCKS),
        timed(Clocks::one_by_one, CLOCKS),
    ];
    let times = Times::of_rounds(calls, ROUNDS);
    let row = times.difference(1, 0).scaled(1e3 / (CLOCKS - 1) as f64);
    let single = times.call(2).scaled(1e3 / CLOCKS as f64);
    let before = times.call(0).median - row.median / 1e3;
    line(
        "clocks in a row, one call",
        row,
        &format!("{before:>15.1} us"),
    )?;
    line(
        "qm_clock, a call a clock",
        single,
        &format!("{:>18}", "in each"),
    )
}

fn line(name: &str, spread: Spread, before: &str) -> Result<(), Failure> {
    let quartiles = format!("({:.0} to {:.0})", spread.lower, spread.upper);
    print(format!(
        "  {name:<32}{:>14.0} {quartiles:<22}{before}",
        spread.median
    ))
}

/// What a tool takes, in a folder that is removed unless the tool fails.
fn simulated(tool: Tool, subject: &Subject) -> Result<Measured, Failure> {
    let folder = work_folder(tool);
    let failed = |why| {
        let (name, folder) = (&subject.name, folder.display());
        Failure(2, format!("{name}: {why}; its files are in {folder}"))
    };
    let program = tool.build(subject, &folder).map_err(failed)?;
    let measured = program.measure().map_err(failed)?;
    let _ = std::fs::remove_dir_all(&folder);
    Ok(measured)
}

fn work_folder(tool: Tool) -> PathBuf {
    let name = format!("clocks-{}-{}", std::process::id(), tool.name());
    let folder = std::env::temp_dir().join(name);
    let _ = std::fs::remove_dir_all(&folder);
    folder
}

/// That a tool has the signals that clocks in a row lead to.
fn agrees(
    clocks: &Clocks,
    subject: &Subject,
    tool: Tool,
    measured: &Measured,
) -> Result<(), Failure> {
    let (theirs, count) = (&measured.signals, measured.clocks);
    let ours = subject.signals(clocks, count);
    let why = match (0..ours.len()).find(|&x| theirs.get(x) != Some(&ours[x])) {
        _ if theirs.len() != ours.len() => format!("has {} signals", theirs.len()),
        Some(x) => format!("signal {x} is {}, ours {}", theirs[x], ours[x]),
        None => return Ok(()),
    };
    let (name, tool) = (&subject.name, tool.name());
    Err(Failure(
        1,
        format!("{name}: {tool}: after {count} clocks {why}"),
    ))
}
