//! Runs of the program under test.

use std::io::{ErrorKind, Write};
use std::path::{Path, PathBuf};
use std::process::{Child, ChildStdin, Command, Stdio};

/// The program: `JUDGE`, or target/bin/judge of the repository. Or that there is none.
pub fn find_judge() -> Result<PathBuf, String> {
    let path = match std::env::var_os("JUDGE") {
        Some(path) => PathBuf::from(path),
        None => repository().join("target/bin/judge"),
    };
    match path.exists() {
        true => Ok(path),
        false => Err(format!(
            "no program at {}: run 'host/rt check judge', or name one in JUDGE",
            path.display()
        )),
    }
}

/// The program, which has to be there.
pub fn judge_path() -> PathBuf {
    find_judge().unwrap_or_else(|missing| panic!("{missing}"))
}

/// Where what differs is saved: not in target/, which may be removed.
pub fn differences_folder() -> PathBuf {
    repository().join("differences")
}

/// The root of the repository.
pub fn repository() -> &'static Path {
    let folder = Path::new(env!("CARGO_MANIFEST_DIR"));
    folder.ancestors().nth(2).expect("host/testkit is in it")
}

/// The program's line for a file that is written at once.
pub fn run(file: &[u8]) -> String {
    run_writing(|input| input.write_all(file))
}

/// The program's line for input written by `write` into a pipe.
pub fn run_writing(write: impl FnOnce(&mut ChildStdin) -> std::io::Result<()>) -> String {
    let mut child = start(Command::new(judge_path()).stdin(Stdio::piped()));
    let mut input = child.stdin.take().expect("a piped input");
    match write(&mut input) {
        // The program may stop reading once the verdict is settled.
        Err(error) if error.kind() == ErrorKind::BrokenPipe => {}
        written => written.expect("write to the program"),
    }
    drop(input);
    line_of(child)
}

/// The program's line for input that the command has set up.
pub fn run_command(command: &mut Command) -> String {
    line_of(start(command))
}

fn start(command: &mut Command) -> Child {
    command.stdout(Stdio::piped()).stderr(Stdio::piped());
    command.spawn().expect("start the program")
}

/// What the program wrote, which has to be one line and nothing else.
fn line_of(child: Child) -> String {
    let output = child.wait_with_output().expect("wait for the program");
    let errors = String::from_utf8_lossy(&output.stderr);
    assert!(
        output.status.code().is_some(),
        "the program was killed: {} {errors}",
        output.status
    );
    assert_eq!(errors, "", "the program wrote to standard error");
    let text = String::from_utf8(output.stdout).expect("text from the program");
    match text.strip_suffix('\n') {
        Some(line) if !line.contains('\n') => line.to_string(),
        _ => panic!("not one line: {text:?}"),
    }
}
