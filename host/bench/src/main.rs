//! How long each call of the library takes on columns of 1 to 64 slices, and how much stack. Nothing here passes or fails.
//! Given a call and a column, makes that call once, for a profiler.

use bench::calls::{on_library, on_list, on_model, on_runs, Bench, Call};
use bench::columns::{self, NAMED};
use bench::report::{heading, line};
use bench::stack::depth;
use bench::timing::Times;
use std::hint::black_box;
use std::io::{self, stdout, Write};
use std::process::ExitCode;

const SIZES: [usize; 7] = [1, 2, 4, 8, 16, 32, 64];
/// The lengths of lists of edits.
const LISTS: [usize; 4] = [1, 16, 64, 256];
/// The sizes of columns that are fed byte by byte.
const FED: [usize; 3] = [16, 32, 64];
/// The lengths of runs in which a file is fed.
const RUNS: [usize; 3] = [1, 64, 1024];

fn main() -> ExitCode {
    let words = std::env::args_os().skip(1);
    let words: Vec<String> = words.map(|word| word.to_string_lossy().into()).collect();
    let done = match &words[..] {
        [] => report(&mut stdout()).map_err(|error| format!("standard output: {error}")),
        [word] if word == "--help" => {
            print!("{}", include_str!("../../help/bench"));
            Ok(())
        }
        [call, column] => once(call, column),
        _ => Err("no argument, or a call and a column; --help says more".to_string()),
    };
    match done {
        Ok(()) => ExitCode::SUCCESS,
        Err(why) => {
            eprintln!("bench: {why}");
            ExitCode::from(2)
        }
    }
}

fn report(out: &mut impl Write) -> io::Result<()> {
    heading(out)?;
    full_column(out, "deep")?;
    full_column(out, "irregular")?;
    judged_files(out)?;
    growth(out)?;
    lists(out, "deep")?;
    lists(out, "irregular")?;
    fed(out, "deep")?;
    fed(out, "irregular")?;
    fed_growth(out)?;
    stack(out)
}

/// A call, by its name, once on a column of 64 slices, by its name. Or that there is no such name.
fn once(call: &str, column: &str) -> Result<(), String> {
    let known = Call::ALL.into_iter().find(|known| known.name() == call);
    let names = Call::ALL.map(Call::name).join(", ");
    let known = known.ok_or(format!("no call {call:?}, but {names}"))?;
    let names = NAMED.map(|(name, _)| name).join(", ");
    let bench = Bench::find(column).ok_or(format!("no column {column:?}, but {names}"));
    println!("{:?}", bench?.library(known));
    Ok(())
}

/// The timed calls on a full column: library and second program in the same rounds.
fn full_column(out: &mut impl Write, name: &str) -> io::Result<()> {
    let bench = Bench::named(name);
    let calls = Call::TIMED.iter();
    let library = calls.clone().map(|&call| on_library(bench.clone(), call));
    let model = calls.clone().map(|&call| on_model(bench.clone(), call));
    let times = Times::of(library.chain(model).collect());
    writeln!(out, "\n{name}, 64 slices: microseconds a call")?;
    for (i, call) in calls.clone().enumerate() {
        let signal = 1e3 * times.call(i).median / 2048.0;
        let note = format!("{signal:.1} ns a signal");
        line(out, call.name(), times.call(i), 1, &note)?;
    }
    writeln!(out, "more than the judge, microseconds")?;
    for (i, call) in calls.clone().enumerate().skip(1) {
        line(out, call.name(), times.difference(i, 0), 1, "")?;
    }
    writeln!(out, "the second program, times the library")?;
    for (i, call) in calls.enumerate() {
        let ratio = times.ratio(Call::TIMED.len() + i, i);
        line(out, call.name(), ratio, 2, "")?;
    }
    Ok(())
}

/// The judge on every column, beside the deep one and beside the accepted one of its kind.
fn judged_files(out: &mut impl Write) -> io::Result<()> {
    let judge = |&(name, _): &(&str, _)| on_library(Bench::named(name), Call::Judge);
    let times = Times::of(NAMED.iter().map(judge).collect());
    writeln!(out, "\nthe judge on 64 slices, times the deep column")?;
    for (i, (name, _)) in NAMED.iter().enumerate() {
        let note = match Bench::named(name).library(Call::Judge) {
            Ok(()) => "accepted".to_string(),
            Err(refused) => format!("refused {} {}", refused.number, refused.place),
        };
        line(out, name, times.ratio(i, 0), 2, &note)?;
    }
    writeln!(out, "times the accepted column of its kind")?;
    for (i, (name, _)) in NAMED.iter().enumerate() {
        if let Some((kind, "looped" | "each looped")) = name.split_once(' ') {
            let accepted = NAMED.iter().position(|(name, _)| *name == kind);
            let ratio = times.ratio(i, accepted.expect("its kind"));
            line(out, name, ratio, 2, "")?;
        }
    }
    Ok(())
}

/// Each timed call on the deep column of each size.
fn growth(out: &mut impl Write) -> io::Result<()> {
    let sized = |&n: &usize| Bench::new(columns::deep(n).bytes());
    let benches: Vec<Bench> = SIZES.iter().map(sized).collect();
    let timed = |&call: &Call| benches.iter().map(move |b| on_library(b.clone(), call));
    let times = Times::of(Call::TIMED.iter().flat_map(timed).collect());
    writeln!(out, "\ndeep, by slices: microseconds a slice, fastest")?;
    let names = Call::TIMED
        .iter()
        .map(|call| format!("{:>12}", call.name()));
    writeln!(out, "  slices{}", names.collect::<String>())?;
    for (i, n) in SIZES.into_iter().enumerate() {
        let slice = |k| times.call(SIZES.len() * k + i).fastest / n as f64;
        let line = (0..Call::TIMED.len()).map(|k| format!("{:12.2}", slice(k)));
        writeln!(out, "  {n:>6}{}", line.collect::<String>())?;
    }
    writeln!(out, "a slice of 64, times a slice of 1")?;
    for (k, call) in Call::TIMED.iter().enumerate() {
        let first = SIZES.len() * k;
        let growth = times.ratio(first + SIZES.len() - 1, first);
        line(out, call.name(), growth.scaled(1.0 / 64.0), 2, "")?;
    }
    Ok(())
}

/// Lists of edits on a full column, each in one call, beside a list of one.
fn lists(out: &mut impl Write, name: &str) -> io::Result<()> {
    let bench = Bench::named(name);
    let timed = LISTS.map(|count| on_list(bench.clone(), count));
    let times = Times::of(timed.into_iter().collect());
    let names = LISTS.map(|count| format!("edits in one call: {count}"));
    writeln!(out, "\n{name}, 64 slices: microseconds a list of edits")?;
    for (i, list) in names.iter().enumerate() {
        let edit = times.call(i).median / LISTS[i] as f64;
        let note = format!("{edit:.1} us an edit");
        line(out, list, times.call(i), 1, &note)?;
    }
    writeln!(out, "times one edit")?;
    for (i, list) in names.iter().enumerate().skip(1) {
        line(out, list, times.ratio(i, 0), 2, "")?;
    }
    Ok(())
}

/// A full column fed to a reader in runs, with the end, beside the judge on its file.
fn fed(out: &mut impl Write, name: &str) -> io::Result<()> {
    let bench = Bench::named(name);
    let runs = RUNS.map(|length| on_runs(bench.clone(), length));
    let judge = on_library(bench.clone(), Call::Judge);
    let times = Times::of([judge].into_iter().chain(runs).collect());
    let runs = RUNS.map(|length| format!("feed in runs of {length}"));
    writeln!(out, "\n{name}, 64 slices: nanoseconds a byte")?;
    let byte = 1e3 / bench.length() as f64;
    line(out, "judge", times.call(0).scaled(byte), 2, "")?;
    for (i, run) in runs.iter().enumerate() {
        line(out, run, times.call(i + 1).scaled(byte), 2, "")?;
    }
    writeln!(out, "times the judge")?;
    for (i, run) in runs.iter().enumerate() {
        line(out, run, times.ratio(i + 1, 0), 2, "")?;
    }
    Ok(())
}

/// The deep column of some sizes fed byte by byte.
fn fed_growth(out: &mut impl Write) -> io::Result<()> {
    let benches = FED.map(|n| Bench::new(columns::deep(n).bytes()));
    let timed = benches.clone().map(|bench| on_runs(bench, 1));
    let times = Times::of(timed.into_iter().collect());
    writeln!(
        out,
        "\ndeep, fed byte by byte, by slices: nanoseconds a byte"
    )?;
    for (i, n) in FED.iter().enumerate() {
        let byte = 1e3 / benches[i].length() as f64;
        line(out, &n.to_string(), times.call(i).scaled(byte), 2, "")?;
    }
    Ok(())
}

/// The deepest stack of each call over all columns.
fn stack(out: &mut impl Write) -> io::Result<()> {
    writeln!(
        out,
        "\nbytes of stack, the most over all columns of 64 slices, the wrapper in Rust included"
    )?;
    for call in Call::ALL {
        let depths = NAMED.iter().map(|(name, _)| {
            let mut bench = Bench::named(name);
            depth(move || {
                let _ = black_box(bench.library(call));
            })
        });
        writeln!(out, "  {:<34}{:>8}", call.name(), depths.max().unwrap_or(0))?;
    }
    Ok(())
}
