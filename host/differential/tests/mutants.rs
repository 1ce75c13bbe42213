//! The comparison can fail: every model that makes one mistake is told from the
//! library by it.

use differential::calls::{by_library, Model};
use differential::columns::{self, Subject};
use differential::comparison::Sides;
use differential::mutants::records::{others, readers, writers, Mutant};
use differential::{feeds, mutants, records};
use model::Workings;
use testkit::random::{files, seed};

/// The same run as with the right model finds a difference for each wrong one.
#[test]
fn every_mutant_of_running_is_caught() {
    let seed = seed();
    let subjects = columns::subjects(seed, 1);
    let run_otherwise = mutants::of_columns().into_iter().map(|(name, change)| {
        let mut workings = Workings::paper();
        change(&mut workings);
        let compared = columns::compare_all(&subjects, &by_library, workings, seed);
        (name, compared)
    });
    let read_otherwise = mutants::of_decoding().into_iter().map(|(name, change)| {
        let wrong = |model: &Model| model.redesigned(change);
        let compared = columns::compare_by(&subjects, &by_library, wrong, seed);
        (name, compared)
    });
    let mutants: Vec<_> = run_otherwise.chain(read_otherwise).collect();
    let mut missed = vec![];
    for (name, compared) in &mutants {
        match compared {
            Ok(_) => missed.push(name),
            Err(difference) => println!("{name}: {}", difference.text),
        }
    }
    println!("{} mutants", mutants.len());
    assert!(missed.is_empty(), "not caught: {missed:?}");
}

/// The same for the record calls.
fn all_are_caught(mutants: Vec<Mutant>) {
    let seed = seed();
    let subjects = records::subjects(seed, 1);
    let mut missed = vec![];
    for mutant in &mutants {
        let sides = Sides::new(&by_library, &mutant.caller);
        match records::compare_all(&subjects, sides, seed) {
            Ok(_) => missed.push(&mutant.name),
            Err(difference) => println!("{}: {}", mutant.name, difference.text),
        }
    }
    println!("{} mutants", mutants.len());
    assert!(missed.is_empty(), "not caught: {missed:?}");
}

#[test]
fn every_wrong_reader_is_caught() {
    all_are_caught(readers());
}

#[test]
fn every_wrong_writer_is_caught() {
    all_are_caught(writers());
}

#[test]
fn every_other_mutant_of_records_is_caught() {
    all_are_caught(others());
}

/// The same for the call that takes a file run by run.
#[test]
fn every_mutant_of_feeding_is_caught() {
    let seed = seed();
    let files = files(seed, 1);
    let mutants = mutants::feeds::all();
    let mut missed = vec![];
    for (name, caller) in &mutants {
        match feeds::compare_all(&files, Sides::new(&by_library, caller), seed) {
            Ok(_) => missed.push(name),
            Err(difference) => println!("{name}: {}", difference.text),
        }
    }
    println!("{} mutants", mutants.len());
    assert!(missed.is_empty(), "not caught: {missed:?}");
}

/// A difference in the place alone is found.
#[test]
fn another_place_is_caught() {
    let looped = |code| testkit::column::z().pin(0, "A1", code).bytes();
    let subject = Subject {
        number: 0,
        file: looped(4096),
        model: Model::of(&looped(4100)),
    };
    let compared = columns::compare_all(&[subject], &by_library, Workings::paper(), 1);
    let difference = compared.unwrap_err();
    assert_eq!(difference.name, "1-0");
    assert_eq!(
        difference.text,
        "the library answers refused 9 0, the model refused 9 4"
    );
}
