//! The carry column as arithmetic: adder columns wired for chosen numbers, and chains of random files.

use std::collections::BTreeMap;
use std::sync::LazyLock;

use differential::adders::{compare_chains, mistake, subjects, unequal, Subject};
use differential::calls::{by_library, Buffers, Call};
use differential::mutants::adders::{of_columns, of_reading};
use differential::saved::agreed;
use differential::Counts;
use model::adders::{Addends, Numbers, Row};
use model::design::{CarryData, Driver, Output, Signal, Slice};
use model::layout::*;
use model::Workings;
use testkit::adders::{HEIGHTS, STARTS};
use testkit::column::Column;
use testkit::random::{files, seed, times};

/// The adder columns that all tests share.
static SUBJECTS: LazyLock<Vec<Subject>> = LazyLock::new(|| subjects(seed(), times()));

/// What adder columns have shown.
#[derive(Debug, Default)]
struct Tried {
    counts: Counts,
    /// Columns by height and carry start.
    columns: BTreeMap<(usize, u8), usize>,
    /// Top carries of 0 and of 1.
    tops: [usize; 2],
    /// Carries of 0 and of 1 from one slice to the next.
    borders: [usize; 2],
    /// Columns of 64 slices where all these are 1.
    ripples: usize,
    /// Letters in logic, memory and shift mode.
    modes: [usize; 3],
    /// Carry data by what it comes from.
    data: BTreeMap<&'static str, usize>,
}

impl Tried {
    fn count(&mut self, subject: &Subject, numbers: &Numbers) {
        let Row { base, height } = subject.column.row;
        let start = subject.column.start;
        *self.columns.entry((height, start)).or_default() += 1;
        self.tops[usize::from(numbers.top)] += 1;
        // A sum is the exclusive-or of a, b and the carry coming in.
        let Addends { a, b, .. } = &numbers.addends;
        let carry = |bit: usize| numbers.sums[bit] ^ a[bit] ^ b[bit];
        let borders: Vec<bool> = (1..height).map(|slice| carry(4 * slice)).collect();
        for &carry in &borders {
            self.borders[usize::from(carry)] += 1;
        }
        self.ripples += usize::from(height == 64 && borders.iter().all(|&carry| carry));
        for slice in &subject.design().slices[base..base + height] {
            for letter in LETTERS {
                self.modes[slice.mode[letter] as usize] += 1;
                *self.data.entry(data(slice, letter)).or_default() += 1;
            }
        }
    }
}

/// What a letter's carry data comes from.
fn data(slice: &Slice, letter: usize) -> &'static str {
    match (slice.carry_data[letter], slice.pins[bypass_pin(letter)]) {
        (CarryData::O5, _) => "O5",
        (_, Driver::Constant(_)) => "constant",
        (_, Driver::Open) => "open",
        (_, Driver::Input(_)) => "input",
        (_, Driver::Output { output, .. }) => match output {
            Output::O6(_) => "O6",
            Output::Mux(_) => "MUX",
            Output::Main(_) => "main flip-flop",
        },
    }
}

/// Every height is tried with every carry start, but 64 slices with none below them; carries are 0 and 1 between slices and at the top, and their data
/// comes from all that has a known bit.
#[test]
fn adder_columns_add() {
    let mut tried = Tried::default();
    for subject in SUBJECTS.iter() {
        let added = agreed(subject.compare(&by_library, seed()));
        tried.counts += added.counts;
        tried.count(subject, &added.numbers);
    }
    println!("seed {}: {tried:?}", seed());
    let all = HEIGHTS.map(|height| STARTS.map(|start| (height, start)));
    let possible = all.into_iter().flatten().filter(|&x| x != (64, 3));
    assert!(tried.columns.keys().copied().eq(possible));
    let (carries, modes) = ([tried.tops, tried.borders].concat(), tried.modes);
    let counts = carries.iter().chain(&modes).chain([&tried.ripples]);
    assert!(counts.chain(tried.data.values()).all(|&count| count >= 10));
    let kinds: Vec<&str> = tried.data.into_keys().collect();
    assert_eq!(
        kinds,
        ["MUX", "O5", "constant", "input", "main flip-flop", "open"]
    );
}

/// Whatever contents, flip-flops and inputs are: of random files, and of adder columns, which have the highest chains.
#[test]
fn chains_of_random_files_add() {
    let seed = seed();
    let mut heights = [0; 65];
    let columns = SUBJECTS.iter().map(|subject| subject.column.file.clone());
    let files = files(seed, times()).into_iter().chain(columns);
    for (number, file) in files.enumerate() {
        let chains = agreed(compare_chains(number, &file, &by_library, seed));
        chains.iter().for_each(|row| heights[row.height] += 1);
    }
    let counts = [&heights[1..2], &heights[2..60], &heights[60..]];
    let counts = counts.map(|heights| heights.iter().sum::<usize>());
    println!("seed {seed}: {counts:?} chains of 1, 2 to 59, 60 to 64 slices");
    assert!(counts.iter().all(|&count| count >= 100));
}

/// A sum that is wrong is told with its chain, and the settle that gave it.
#[test]
fn a_wrong_sum_is_told() {
    let wrong = |call, buffers: &mut Buffers| {
        let answer = by_library(call, buffers);
        if call == Call::Settle {
            buffers.column.values.lend()[Signal::Sum(A).of_slice(2)] ^= 1;
        }
        answer
    };
    let file = Column::zeros(3, 0).set(1, CARRY_START, 3).bytes();
    let difference = compare_chains(5, &file, &wrong, 7).unwrap_err();
    let text = difference.text;
    assert!(text.starts_with("Row { base: 2, height: 1 }: "), "{text}");
    assert_eq!(difference.name, "7-chain-5");
    assert_eq!(difference.case.call, Call::Settle);
    assert_eq!(difference.case.buffers.column.file.get(), file);
}

/// The first column that shows something wrong, and what.
fn caught_by(wrong: impl Fn(&Subject) -> Option<String>) -> Option<String> {
    let mut subjects = SUBJECTS.iter();
    subjects.find_map(|subject| {
        let text = wrong(subject)?;
        let (row, start) = (subject.column.row, subject.column.start);
        Some(format!("{row:?}, start {start}: {text}"))
    })
}

/// All mutants are caught, in the way given.
fn all_are_caught<T>(mutants: Vec<(&str, T)>, caught: impl Fn(T) -> Option<String>) {
    println!("{} mutants", mutants.len());
    let mut missed = vec![];
    for (name, mutant) in mutants {
        match caught(mutant) {
            Some(text) => println!("{name}: {text}"),
            None => missed.push(name),
        }
    }
    assert!(missed.is_empty(), "not caught: {missed:?}");
}

/// By the sums of the chosen numbers.
#[test]
fn wrong_carry_columns_are_caught() {
    all_are_caught(of_columns(), |change| {
        let mut workings = Workings::paper();
        change(&mut workings);
        caught_by(|subject| {
            let model = subject.model.with(workings);
            let model = |call, buffers: &mut Buffers| model.call(call, buffers);
            mistake(&subject.column, &subject.settled_by(&model))
        })
    });
}

/// By the law alone, on what the library settled.
#[test]
fn wrong_readings_are_caught() {
    all_are_caught(of_reading(), |misread| {
        caught_by(|subject| unequal(&misread(subject.settled_by(&by_library))))
    });
}
