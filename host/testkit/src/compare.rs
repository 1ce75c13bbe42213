//! Comparison of two judges over many files.

use std::path::{Path, PathBuf};

use crate::cases::Case;
use crate::run::run;
use model::Verdict;

/// A file that two judges answer differently.
pub struct Difference {
    /// The file's place among those compared.
    pub number: usize,
    pub file: Vec<u8>,
    pub program: String,
    pub model: String,
}

/// The files on which a model's verdict isn't the program's line.
pub fn differences<'a>(
    files: &'a [Vec<u8>],
    program: impl Fn(&[u8]) -> String + 'a,
    model: impl Fn(&[u8]) -> Verdict + 'a,
) -> impl Iterator<Item = Difference> + 'a {
    let difference = move |(number, file): (usize, &Vec<u8>)| {
        let program = program(file);
        let model = model(file).to_string();
        (program != model).then(|| Difference {
            number,
            file: file.clone(),
            program,
            model,
        })
    };
    files.iter().enumerate().filter_map(difference)
}

/// Writes the differing files and says what was answered on each.
pub fn report(differences: &[Difference], folder: &Path, seed: u64) -> String {
    let mut text = format!("seed {seed}: {} files differ\n", differences.len());
    for difference in differences {
        let path = save(difference, folder, seed);
        text += &format!(
            "{}: the program says {:?}, the model {:?}\n",
            path.display(),
            difference.program,
            difference.model
        );
    }
    text
}

fn save(difference: &Difference, folder: &Path, seed: u64) -> PathBuf {
    let path = folder.join(format!("failing-{seed}-{}.bin", difference.number));
    std::fs::create_dir_all(folder).expect("make the folder of failing files");
    std::fs::write(&path, &difference.file).expect("write a failing file");
    path
}

/// Runs the program on files whose lines are known, and the model beside it.
pub fn assert_lines(cases: Vec<Case>) {
    let wrong = |case: &Case| {
        let program = run(&case.file);
        let model = model::judge(&case.file).to_string();
        (program != case.line || model != case.line).then(|| {
            format!(
                "{}: has to be {:?}, the program says {program:?}, the model {model:?}",
                case.name, case.line
            )
        })
    };
    let wrong: Vec<String> = cases.iter().filter_map(wrong).collect();
    assert!(wrong.is_empty(), "{}", wrong.join("\n"));
}
