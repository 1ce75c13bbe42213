//! The worked cases, sizes and ways of giving input, by their exact lines.

use std::fs::File;
use std::io::Write;
use std::path::Path;
use std::process::{Command, Stdio};
use std::thread::sleep;
use std::time::Duration;

use testkit::cases::{long_files, sizes, truncations, worked};
use testkit::column::{z, Column};
use testkit::compare::assert_lines;
use testkit::run::{judge_path, run_command, run_writing};

#[test]
fn worked_cases() {
    assert_lines(worked());
}

#[test]
fn every_truncation_of_z() {
    assert_lines(truncations());
}

#[test]
fn sizes_at_the_limits() {
    assert_lines(sizes());
}

#[test]
fn files_longer_than_any_accepted() {
    assert_lines(long_files());
}

#[test]
fn closed_standard_input() {
    let mut shell = Command::new("sh");
    shell.args(["-c", "exec \"$0\" <&-"]).arg(judge_path());
    assert_eq!(run_command(&mut shell), "refused 1 0");
}

#[test]
fn empty_standard_input() {
    let mut command = Command::new(judge_path());
    assert_eq!(run_command(command.stdin(Stdio::null())), "refused 1 0");
}

/// A read error counts as the end of the input.
#[test]
fn unreadable_standard_input() {
    let folder = File::open("/").expect("open a folder");
    let mut command = Command::new(judge_path());
    assert_eq!(run_command(command.stdin(folder)), "refused 1 0");
}

#[test]
fn input_from_a_file() {
    let path = Path::new(env!("CARGO_TARGET_TMPDIR")).join("input.bin");
    std::fs::write(&path, Column::zeros(64, 9).bytes()).expect("write a file");
    let mut command = Command::new(judge_path());
    let line = run_command(command.stdin(File::open(&path).expect("open the file")));
    assert_eq!(line, "accepted 64 9");
}

/// A pipe gives what is there, so the program sees short reads.
#[test]
fn input_in_small_pieces() {
    let full = Column::zeros(64, 64).bytes();
    let more = [&full[..], &[0]].concat();
    let cut = full[..8135].to_vec();
    let loops = z().pin(0, "D6", 4099).bytes();
    for (file, piece, line) in [
        (z().bytes(), 1, "accepted 1 0"),
        (loops, 7, "refused 9 3"),
        (full, 127, "accepted 64 64"),
        (more, 113, "refused 8 8136"),
        (cut, 83, "refused 1 8133"),
    ] {
        assert_eq!(run_in_pieces(&file, piece), line);
    }
}

/// The last byte comes long after the others.
#[test]
fn last_byte_late() {
    let full = Column::zeros(64, 0).bytes();
    let line = run_writing(|input| {
        input.write_all(&full)?;
        sleep(Duration::from_millis(200));
        input.write_all(&[0])
    });
    assert_eq!(line, "refused 8 8136");
}

fn run_in_pieces(file: &[u8], piece: usize) -> String {
    run_writing(|input| {
        for part in file.chunks(piece) {
            input.write_all(part)?;
            sleep(Duration::from_millis(2));
        }
        Ok(())
    })
}
