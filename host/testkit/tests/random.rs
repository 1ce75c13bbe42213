//! Random files: the program's verdict, number and place against the model's.

use std::collections::BTreeMap;

use testkit::compare::{differences, report, Difference};
use testkit::random::{files, seed, times};
use testkit::run::{differences_folder, run};

/// The comparison ends after so many differences.
const MOST_REPORTED: usize = 20;

#[test]
fn program_and_model_agree() {
    let seed = seed();
    let files = files(seed, times());
    println!("seed {seed}, {} files", files.len());
    let differences = differences(&files, run, model::judge).take(MOST_REPORTED);
    let differences: Vec<Difference> = differences.collect();
    assert!(
        differences.is_empty(),
        "{}",
        report(&differences, &differences_folder(), seed)
    );
}

/// The files are of every kind: each answer is given by many of them.
#[test]
fn every_answer_is_given() {
    let mut counts = BTreeMap::new();
    for file in files(seed(), 1) {
        let line = model::judge(&file).to_string();
        let answer = match line.strip_prefix("refused ") {
            Some(rest) => format!("refused {}", &rest[..1]),
            None => "accepted".to_string(),
        };
        *counts.entry(answer).or_insert(0) += 1;
    }
    println!("{counts:?}");
    assert_eq!(counts.len(), 10);
    assert!(counts.values().all(|&count| count >= 30));
}
