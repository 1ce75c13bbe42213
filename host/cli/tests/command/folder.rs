//! Runs of the binary, each test in a folder of its own.

use std::path::{Path, PathBuf};
use std::process::{Command, Output, Stdio};

use model::Verdict;
use testkit::cases::worked_file;
use testkit::column::z;
use testkit::random;
use testkit::run::repository;

/// A folder that the binary is run in.
pub struct Folder(PathBuf);

/// Nothing of it stays: `rt ci` takes a link below the repository for a mistake.
impl Drop for Folder {
    fn drop(&mut self) {
        let _ = std::fs::remove_dir_all(&self.0);
    }
}

impl Folder {
    /// A new folder.
    pub fn new(name: &str) -> Folder {
        let folder = Path::new(env!("CARGO_TARGET_TMPDIR")).join("command");
        let folder = folder.join(name);
        let _ = std::fs::remove_dir_all(&folder);
        std::fs::create_dir_all(&folder).expect("a folder");
        Folder(folder)
    }

    /// A new folder with Z, a looped file, one with a pin that has no driver, and an empty one.
    pub fn with_files(name: &str) -> Folder {
        let folder = Folder::new(name);
        folder.put("z", worked_file(1));
        folder.put("looped", worked_file(5));
        folder.put("broken", broken());
        folder.put("empty", b"");
        folder
    }

    pub fn put(&self, name: &str, bytes: impl AsRef<[u8]>) {
        std::fs::write(self.path(name), bytes).expect("a file");
    }

    pub fn get(&self, name: &str) -> Vec<u8> {
        std::fs::read(self.path(name)).expect("the file")
    }

    pub fn path(&self, name: &str) -> PathBuf {
        self.0.join(name)
    }

    /// The binary with words, to be run in the folder.
    pub fn command(&self, words: &[&str]) -> Command {
        let mut command = Command::new(env!("CARGO_BIN_EXE_quagmuffin"));
        command.args(words).current_dir(&self.0);
        command.stdin(Stdio::null());
        command
    }

    pub fn run(&self, words: &[&str]) -> Output {
        self.command(words).output().expect("the binary")
    }

    /// What a run writes that succeeds.
    pub fn text(&self, words: &[&str]) -> String {
        written(&self.run(words), 0)
    }

    /// A shell's line, run in the folder, where the binary is `quagmuffin`.
    pub fn shell(&self, line: &str) -> Output {
        let mut bash = Command::new("bash");
        let binary = env!("CARGO_BIN_EXE_quagmuffin");
        let function = format!("quagmuffin() {{ '{binary}' \"$@\"; }}\n{line}");
        bash.args(["-c", &function]).current_dir(&self.0);
        bash.output().expect("bash")
    }
}

/// What was written by a run that ended with a status and said nothing.
pub fn written(output: &Output, status: i32) -> String {
    let said = String::from_utf8_lossy(&output.stderr);
    assert_eq!((output.status.code(), &*said), (Some(status), ""));
    String::from_utf8_lossy(&output.stdout).into_owned()
}

/// A file with a pin that has no driver.
pub fn broken() -> Vec<u8> {
    z().pin(0, "A1", 3).bytes()
}

/// Of the random files of a seed some that are accepted, of one slice up to 64.
pub fn accepted(seed: u64, one_in: usize) -> Vec<Vec<u8>> {
    let files = random::files(random::seed() + seed, 1).into_iter();
    let is_accepted = |file: &Vec<u8>| matches!(model::judge(file), Verdict::Accepted { .. });
    let accepted: Vec<Vec<u8>> = files.filter(is_accepted).step_by(one_in).collect();
    assert!(accepted.len() >= 5, "{} files", accepted.len());
    accepted
}

/// A file of `examples/`.
pub fn example(name: &str) -> String {
    let path = repository().join("examples").join(name);
    path.to_str().expect("a plain name").to_string()
}

/// The rows of comma-separated values, without their titles.
pub fn rows(csv: &str) -> Vec<Vec<i64>> {
    let number = |cell: &str| cell.parse().expect("a number");
    let row = |line: &str| line.split(',').map(number).collect();
    csv.lines().skip(1).map(row).collect()
}
