//! Ways to look a bit up, side by side: each is held to the second program and then timed, in turns. Times pass or fail nothing.

use bench::calls::Bench;
use bench::lookups::Lookups;
use bench::report::{heading, line};
use bench::timing::Times;
use bench::ways::Way;
use std::ffi::OsString;
use std::hint::black_box;
use std::io::{self, stdout, Write};
use std::path::Path;
use std::process::ExitCode;

fn main() -> ExitCode {
    let words: Vec<OsString> = std::env::args_os().skip(1).collect();
    let ways = match &words[..] {
        [word] if word == "--help" => {
            print!("{}", include_str!("../../../help/lookup"));
            return ExitCode::SUCCESS;
        }
        [_, _, ..] => words
            .iter()
            .map(|word| Way::load(Path::new(word)))
            .collect(),
        _ => Err(
            "two folders or more, a way in each, which host/lookup makes; --help says more"
                .to_string(),
        ),
    };
    let ways: Vec<Way> = match ways {
        Ok(ways) => ways,
        Err(why) => return failed(why, 2),
    };
    let mut lookups = Lookups::random();
    if let Err(why) = ways.iter().try_for_each(|way| lookups.check(way)) {
        return failed(why, 1);
    }
    match report(&mut stdout(), &ways, &lookups) {
        Ok(()) => ExitCode::SUCCESS,
        Err(error) => failed(format!("standard output: {error}"), 2),
    }
}

fn failed(why: String, status: u8) -> ExitCode {
    eprintln!("lookup: {why}");
    ExitCode::from(status)
}

fn report(out: &mut impl Write, ways: &[Way], lookups: &Lookups) -> io::Result<()> {
    let (words, picks) = (lookups.words().len(), lookups.picks().len());
    writeln!(out, "All ways agree with the second program: at every place of {words} random words, in a row of {picks} look-ups, in a settle.")?;
    heading(out)?;
    let each = 1e3 / picks as f64;
    let chain = "a chain, each place moved on by the bit before: nanoseconds a look-up";
    section(
        out,
        ways,
        0,
        chain,
        rows(ways, lookups, Way::chained).scaled(each),
    )?;
    let apart = "independent look-ups: nanoseconds a look-up";
    section(
        out,
        ways,
        0,
        apart,
        rows(ways, lookups, Way::apart).scaled(each),
    )?;
    for name in ["deep", "irregular"] {
        let settle = format!("a settle of {name}, 64 slices: microseconds a call");
        section(out, ways, 1, &settle, settles(ways, &Bench::named(name)))?;
    }
    Ok(())
}

/// Times one call of each way, in turns.
fn timed<'a, F: FnMut() + 'a>(ways: &'a [Way], call: impl Fn(&'a Way) -> F) -> Times {
    let boxed = |way| Box::new(call(way)) as Box<dyn FnMut() + 'a>;
    Times::of(ways.iter().map(boxed).collect())
}

fn rows(ways: &[Way], lookups: &Lookups, row: fn(&Way, &[u64], &[u16]) -> u64) -> Times {
    timed(ways, |way| {
        move || {
            black_box(row(way, lookups.words(), lookups.picks()));
        }
    })
}

fn settles(ways: &[Way], bench: &Bench) -> Times {
    timed(ways, |way| {
        let mut bench = bench.clone();
        move || {
            black_box(way.settle(&mut bench));
        }
    })
}

/// Times of all ways, and beside the first; `code` is the library that they are in.
fn section(
    out: &mut impl Write,
    ways: &[Way],
    code: usize,
    title: &str,
    times: Times,
) -> io::Result<()> {
    writeln!(out, "\n{title}")?;
    for (i, way) in ways.iter().enumerate() {
        line(out, &way.name, times.call(i), 2, "")?;
    }
    writeln!(out, "times {}", ways[0].name)?;
    for (i, way) in ways.iter().enumerate().skip(1) {
        let same = way.code[code] == ways[0].code[code];
        let note = if same {
            "the same code, byte for byte"
        } else {
            ""
        };
        line(out, &way.name, times.ratio(i, 0), 3, note)?;
    }
    Ok(())
}
