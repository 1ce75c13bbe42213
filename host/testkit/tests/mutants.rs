//! The tests can fail: every wrong model is told from the right one by the
//! test files, and from the program by the comparison.

use std::collections::HashMap;
use std::path::Path;

use model::Verdict;
use testkit::cases::{sizes, truncations, worked};
use testkit::compare::{differences, report, Difference};
use testkit::mutants::{all, Mutant};
use testkit::run::run;
use testkit::{random, traps};

/// A file and the right verdict on it.
type Judged = (Vec<u8>, Verdict);

/// Short files first: they are judged faster.
fn judged(mut files: Vec<Vec<u8>>) -> Vec<Judged> {
    files.sort_by_key(Vec::len);
    let judged = |file: Vec<u8>| {
        let verdict = model::judge(&file);
        (file, verdict)
    };
    files.into_iter().map(judged).collect()
}

fn directed() -> Vec<Vec<u8>> {
    let cases = [worked(), truncations(), sizes(), traps::all()];
    cases.into_iter().flatten().map(|case| case.file).collect()
}

fn caught(mutant: &Mutant, files: &[Judged]) -> bool {
    files
        .iter()
        .any(|(file, verdict)| mutant.judge(file) != *verdict)
}

/// Needs no program. The directed files alone catch every mutant; the random
/// ones are counted beside them.
#[test]
fn every_mutant_is_caught() {
    let directed = judged(directed());
    let random = judged(random::files(random::seed(), 1));
    let mutants = all();
    let mut missed = vec![];
    let mut by_random = 0;
    for mutant in &mutants {
        let by_directed_files = caught(mutant, &directed);
        let by_random_files = caught(mutant, &random);
        by_random += usize::from(by_random_files);
        println!("{by_directed_files:5} {by_random_files:5} {}", mutant.name);
        if !by_directed_files {
            missed.push(&mutant.name);
        }
    }
    println!("columns: caught by directed files, by random files");
    println!(
        "{} mutants; directed files caught {}, random files {by_random}",
        mutants.len(),
        mutants.len() - missed.len()
    );
    assert!(mutants.len() >= 20);
    assert!(missed.is_empty(), "not caught: {missed:?}");
}

/// The comparison with the program finds a difference for every wrong model,
/// and none for the right one.
#[test]
fn comparison_finds_differences() {
    let files = directed();
    let lines: HashMap<&[u8], String> = files.iter().map(|file| (&file[..], run(file))).collect();
    let program = |file: &[u8]| lines[file].clone();
    assert_eq!(differences(&files, program, model::judge).count(), 0);
    for mutant in all() {
        let mut found = differences(&files, program, |file| mutant.judge(file));
        assert!(found.next().is_some(), "{}", mutant.name);
    }
}

/// A difference leaves its file behind and names it.
#[test]
fn differing_files_are_saved() {
    let folder = Path::new(env!("CARGO_TARGET_TMPDIR")).join("saved");
    let files = [vec![], vec![1, 2, 3], vec![9, 9, 9]];
    let wrong = |_: &[u8]| "refused 1 0".to_string();
    let found: Vec<Difference> = differences(&files, wrong, model::judge).collect();
    let text = report(&found, &folder, 5);
    assert_eq!(found.len(), 2);
    for (number, file) in [(1, &files[1]), (2, &files[2])] {
        let path = folder.join(format!("failing-5-{number}.bin"));
        assert_eq!(&std::fs::read(&path).expect("the saved file"), file);
        assert!(text.contains(path.to_str().expect("a path of text")));
    }
    assert!(text.contains("the program says \"refused 1 0\", the model \"refused 3 0\""));
}
