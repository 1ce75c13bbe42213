//! Compares the program and the library with the model on files, whole and in
//! runs, adder columns and records of fresh seeds, for as many minutes as it is told or up to the first difference.

use std::hash::{BuildHasher, Hasher, RandomState};
use std::io::{IsTerminal, Write};
use std::panic::catch_unwind;
use std::process::ExitCode;
use std::sync::{Mutex, MutexGuard};
use std::thread;
use std::time::{Duration, Instant};

use differential::calls::{by_library, Buffers, Model};
use differential::comparison::Sides;
use differential::saved::save;
use differential::{adders, columns, feeds, records, Counts};
use testkit::compare::{report, Difference};
use testkit::random;
use testkit::run::{differences_folder, find_judge, run};

const BETWEEN_REPORTS: Duration = Duration::from_secs(10);

/// What all workers share.
struct Soak {
    start: Instant,
    length: Duration,
    progress: Mutex<Progress>,
}

#[derive(Default)]
struct Progress {
    seeds: usize,
    counts: Counts,
    /// What differs; workers that find something at the same time both tell it.
    failures: Vec<String>,
}

fn main() -> ExitCode {
    let words = std::env::args_os().skip(1);
    let words: Vec<String> = words.map(|word| word.to_string_lossy().into()).collect();
    if words == ["--help"] {
        print!("{}", include_str!("../../../help/soak"));
        return ExitCode::SUCCESS;
    }
    match minutes(&words).and_then(|minutes| find_judge().map(|_| minutes)) {
        Ok(minutes) => soak(minutes),
        Err(why) => {
            eprintln!("soak: {why}");
            ExitCode::from(2)
        }
    }
}

fn minutes(words: &[String]) -> Result<f64, String> {
    let minutes = match words {
        [minutes] => minutes.parse().ok(),
        _ => None,
    };
    let known = minutes.filter(|minutes| (0.0..=1e6).contains(minutes));
    known.ok_or("one argument, a number of minutes from 0 to 1000000".to_string())
}

fn soak(minutes: f64) -> ExitCode {
    let soak = Soak {
        start: Instant::now(),
        length: Duration::from_secs_f64(60.0 * minutes),
        progress: Mutex::default(),
    };
    thread::scope(|scope| {
        for _ in 0..thread::available_parallelism().map_or(1, usize::from) {
            scope.spawn(|| soak.work());
        }
        soak.report();
    });
    println!("{}", soak.line());
    let failures = &soak.progress().failures;
    for failure in failures {
        println!("{failure}");
    }
    ExitCode::from(u8::from(!failures.is_empty()))
}

impl Soak {
    fn progress(&self) -> MutexGuard<'_, Progress> {
        self.progress.lock().expect("the progress")
    }

    fn is_over(&self) -> bool {
        self.start.elapsed() >= self.length || !self.progress().failures.is_empty()
    }

    /// Takes seed after seed. A panic is a difference that wasn't told well.
    fn work(&self) {
        while !self.is_over() {
            let seed = RandomState::new().build_hasher().finish();
            self.progress().seeds += 1;
            let failure = match catch_unwind(|| self.seed(seed)) {
                Ok(Ok(())) => None,
                Ok(Err(failure)) => Some(failure),
                Err(_) => Some(format!("panicked at seed {seed}")),
            };
            self.progress().failures.extend(failure);
        }
    }

    /// All files, adder columns and records of a seed, as far as there is time.
    fn seed(&self, seed: u64) -> Result<(), String> {
        let saved = |difference: Box<_>| save(&difference, &differences_folder());
        for (number, file) in random::files(seed, 1).into_iter().enumerate() {
            if self.is_over() {
                return Ok(());
            }
            let subject = columns::Subject::new(number, file);
            judge(&subject, seed)?;
            let model = |call, buffers: &mut Buffers| subject.model.call(call, buffers);
            let sides = Sides::new(&by_library, &model);
            let counts = columns::compare(&subject, sides, seed);
            self.progress().counts += counts.map_err(saved)?;
            let counts = feeds::compare(number, &subject.file, sides, seed);
            self.progress().counts += counts.map_err(saved)?;
            adders::compare_chains(number, &subject.file, &by_library, seed).map_err(saved)?;
        }
        for subject in adders::subjects(seed, 1) {
            if self.is_over() {
                return Ok(());
            }
            let added = subject.compare(&by_library, seed).map_err(saved)?;
            self.progress().counts += added.counts;
        }
        let model = Model::of(&[]);
        let model = |call, buffers: &mut Buffers| model.call(call, buffers);
        for subject in records::subjects(seed, 1) {
            if self.is_over() {
                return Ok(());
            }
            let counts = records::compare(&subject, Sides::new(&by_library, &model), seed);
            self.progress().counts += counts.map_err(saved)?;
        }
        Ok(())
    }

    /// Says how far it is, every ten seconds, in place on a terminal.
    fn report(&self) {
        let mut said = Instant::now();
        let in_place = std::io::stdout().is_terminal();
        while !self.is_over() {
            thread::sleep(Duration::from_millis(200));
            if said.elapsed() >= BETWEEN_REPORTS {
                said = Instant::now();
                match in_place {
                    true => print!("\r\x1b[K{}", self.line()),
                    false => println!("{}", self.line()),
                }
                let _ = std::io::stdout().flush();
            }
        }
        if in_place {
            print!("\r\x1b[K");
        }
    }

    fn line(&self) -> String {
        let progress = self.progress();
        let counts = &progress.counts;
        let minutes = self.start.elapsed().as_secs_f64() / 60.0;
        let differences = match progress.failures.is_empty() {
            true => "no difference",
            false => "a difference",
        };
        format!(
            "{minutes:.1} minutes, {} seeds, {} files, {} sessions, {} records, {} calls, {differences}",
            progress.seeds,
            counts.files,
            counts.sessions,
            counts.records,
            counts.calls(),
        )
    }
}

/// Compares the program's line on a file with the model's answer.
fn judge(subject: &columns::Subject, seed: u64) -> Result<(), String> {
    let program = run(&subject.file);
    let model = subject.model.judge().to_string();
    if program == model {
        return Ok(());
    }
    let difference = Difference {
        number: subject.number,
        file: subject.file.clone(),
        program,
        model,
    };
    Err(report(&[difference], &differences_folder(), seed))
}
