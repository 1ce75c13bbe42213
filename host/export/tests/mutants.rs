//! The comparison can fail: every export with one mistake is told from the library and the model by the run of `outside.rs`.

mod compared;
mod wrong;

use std::path::Path;

use compared::{subjects, Subject};
use export::{iverilog, Netlist};
use testkit::random::seed;
use wrong::{Mistake, ALL};

#[test]
fn every_mutant_is_caught() {
    let Some(cells) = iverilog::cells() else {
        return;
    };
    let mut subjects = subjects(seed(), 1);
    // Small designs run faster.
    subjects.sort_by_key(|subject| subject.design.n);
    let mut missed = vec![];
    for (name, mistake) in &ALL {
        match subjects.iter().find_map(|x| caught(&cells, x, mistake)) {
            Some(difference) => println!("{name}: {difference}"),
            None => missed.push(name),
        }
    }
    println!("{} mutants, {} missed", ALL.len(), missed.len());
    assert!(missed.is_empty(), "not caught: {missed:?}");
}

/// A signal that differs between a wrong export and the right answers. A design that the mistake doesn't touch isn't run, and one that it keeps from
/// running or from settling doesn't count.
fn caught(cells: &Path, subject: &Subject, mistake: &Mistake) -> Option<String> {
    let right = Netlist::of(&subject.design);
    let mut wrong = right.clone();
    wrong.slices.iter_mut().for_each(|x| mistake.make(x));
    if wrong == right {
        return None;
    }
    let compared = subject.compare(cells, "mutant", &subject.source(&wrong));
    let difference = compared.ok()??;
    Some(format!("file {}, {difference}", subject.number))
}

/// A differing design leaves its file and its source behind, and names them.
#[test]
fn differing_designs_are_saved() {
    let folder = Path::new(env!("CARGO_TARGET_TMPDIR")).join("saved");
    let subject = &subjects(seed(), 1)[0];
    let text = subject.save(&folder, 5, "module column;");
    let path = folder.join(format!("differing-5-{}.bin", subject.number));
    let verilog = path.with_extension("v");
    assert_eq!(text, format!("{}, {}", path.display(), verilog.display()));
    assert_eq!(std::fs::read(path).expect("the file"), subject.file);
    assert_eq!(
        std::fs::read(verilog).expect("the source"),
        b"module column;"
    );
}
