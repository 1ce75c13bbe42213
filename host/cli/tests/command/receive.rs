//! The command `receive`, over a pipe that the test writes to: verdicts before its end and at it, silences, and what is kept.

use std::fs::File;
use std::io::{Read, Write};
use std::process::{Child, ChildStdin, Command, Output, Stdio};
use std::sync::mpsc::{channel, Receiver};
use std::thread::{sleep, spawn};
use std::time::{Duration, Instant};

use testkit::column::Column;
use testkit::command::{assert_fails, assert_writes};
use testkit::random;
use testkit::run::run;

use crate::folder::Folder;

/// A run that takes so long is given up.
const MOST: Duration = Duration::from_secs(60);

/// A run of `receive`, and the other end of its standard input.
struct Sender {
    child: Child,
    pipe: ChildStdin,
}

impl Sender {
    fn to(folder: &Folder, words: &[&str]) -> Sender {
        let mut command = folder.command(&[&["receive"], words].concat());
        command.stdin(Stdio::piped());
        command.stdout(Stdio::piped()).stderr(Stdio::piped());
        let mut child = command.spawn().expect("the binary");
        let pipe = child.stdin.take().expect("a pipe");
        Sender { child, pipe }
    }

    fn send(mut self, piece: &[u8]) -> Sender {
        self.pipe.write_all(piece).expect("a piece");
        self
    }

    /// How it ends while the pipe is open.
    fn listen(self) -> Output {
        let output = ended(self.child);
        drop(self.pipe);
        output
    }

    /// How it ends at the end of the pipe.
    fn close(self) -> Output {
        drop(self.pipe);
        ended(self.child)
    }
}

/// How a run ends, which has to be by itself.
fn ended(mut child: Child) -> Output {
    let start = Instant::now();
    while child.try_wait().expect("the run").is_none() {
        if start.elapsed() > MOST {
            child.kill().expect("the run");
            panic!("it goes on and on");
        }
        sleep(Duration::from_millis(5));
    }
    child.wait_with_output().expect("the run")
}

/// It refuses before the end, and says after how many bytes.
fn assert_certain(output: &Output, text: &[u8], name: &str, count: usize) {
    let said = format!("quagmuffin: {name}: certain after {count} bytes, whatever follows\n");
    assert_eq!(String::from_utf8_lossy(&output.stderr), said);
    assert_eq!(output.stdout, text);
    assert_eq!(output.status.code(), Some(1));
}

/// The file Z.
fn z() -> Vec<u8> {
    let ends = [&[1, 2, 0, 1, 0, 2, 0x7c, 0][..], &[3, 0, 0]];
    ends.join(&[0; 124][..])
}

/// Z with a byte of its slice's body replaced.
fn z_with(at: usize, byte: u8) -> Vec<u8> {
    let mut file = z();
    file[8 + at] = byte;
    file
}

/// Files that are refused before their end: after how many bytes, and how.
fn refused_early() -> [(Vec<u8>, usize, &'static str); 12] {
    let after_size = |header: [u8; 3]| [&z()[..5], &header].concat();
    [
        (vec![7, 0, 0], 3, "refused 2 0\n"),
        (after_size([7, 0, 0]), 8, "refused 2 5\n"),
        (vec![1, 3, 0], 3, "refused 3 0\n"),
        (after_size([2, 0x7d, 0]), 8, "refused 3 5\n"),
        (after_size([3, 0, 0]), 8, "refused 4 5\n"),
        (z_with(0, 1), 132, "refused 4 5\n"),
        (vec![1, 2, 0, 0, 0], 5, "refused 5 0\n"),
        (z_with(1, 2), 132, "refused 5 5\n"),
        // A memory table in a SLICEL.
        (z_with(2, 1), 132, "refused 6 5\n"),
        // Pin A1 by the code 3.
        (z_with(62, 3), 132, "refused 7 5\n"),
        ([z(), vec![0]].concat(), 136, "refused 8 135\n"),
        // A loop is no refusal yet, and 8 comes before 9.
        ([z_with(63, 16), vec![3]].concat(), 136, "refused 8 135\n"),
    ]
}

/// The pipe stays open, and whatever the pieces are the verdict comes by the same byte.
#[test]
fn refused_before_the_end() {
    let folder = Folder::new("receive early");
    for (file, count, line) in refused_early() {
        let file = &file[..count];
        let (last, others) = file.split_last().expect("a byte");
        let two = Sender::to(&folder, &[]).send(others).send(&[*last]);
        let more = Sender::to(&folder, &["-"]).send(&[file, &[0; 300]].concat());
        let bytes = file.chunks(1);
        let single = bytes.fold(Sender::to(&folder, &[]), Sender::send);
        for sender in [two, more, single] {
            let output = sender.listen();
            assert_certain(&output, line.as_bytes(), "standard input", count);
        }
    }
}

#[test]
fn judged_at_the_end() {
    let folder = Folder::new("receive end");
    for (file, status, line) in [
        (z(), 0, "accepted 1 0\n"),
        (vec![], 1, "refused 1 0\n"),
        (vec![7, 0], 1, "refused 1 0\n"),
        (vec![1, 2, 0, 0], 1, "refused 1 0\n"),
        (z()[..131].to_vec(), 1, "refused 1 5\n"),
        // Pin A1 by O6 of its own table, which is code 4096.
        (z_with(63, 16), 1, "refused 9 0\n"),
    ] {
        let (first, second) = file.split_at(file.len() / 2);
        let sender = Sender::to(&folder, &[]).send(first).send(second);
        assert_writes(&sender.close(), status, line);
    }
}

/// The line is that of the proved program.
#[test]
fn receive_is_the_program() {
    let folder = Folder::new("receive program");
    let files = random::files(random::seed() + 4, 1);
    let files: Vec<Vec<u8>> = files.into_iter().step_by(60).collect();
    assert!(files.len() > 30, "{} files", files.len());
    for file in files {
        folder.put("file", &file);
        let output = folder.run(&["receive", "file"]);
        let line = String::from_utf8_lossy(&output.stdout);
        assert_eq!(line, run(&file) + "\n");
    }
}

#[test]
fn from_a_file() {
    let folder = Folder::with_files("receive file");
    assert_writes(&folder.run(&["receive", "z"]), 0, "accepted 1 0\n");
    assert_writes(&folder.run(&["receive", "looped"]), 1, "refused 9 0\n");
    // It has no end.
    let output = folder.run(&["receive", "/dev/zero"]);
    assert_certain(&output, b"refused 2 0\n", "/dev/zero", 3);
    let output = folder.shell("quagmuffin receive 0> written");
    assert_fails(&output, "quagmuffin: standard input: Bad file descriptor\n");
}

/// Accepted or refused, what came up to the verdict is kept, and no more; so the judge says the same of it.
#[test]
fn kept() {
    let folder = Folder::new("receive kept");
    let large = Column::zeros(64, 0).bytes();
    folder.put("kept", [9; 9000]);
    for (file, count, line) in [
        (vec![7, 0, 0, 9], 3, "refused 2 0\n"),
        ([z(), vec![9, 9]].concat(), 136, "refused 8 135\n"),
        ([large, vec![9]].concat(), 8137, "refused 8 8136\n"),
    ] {
        let output = Sender::to(&folder, &["-o", "kept"]).send(&file).listen();
        let text = format!("kept: {line}");
        assert_certain(&output, text.as_bytes(), "standard input", count);
        assert_eq!(folder.get("kept"), file[..count]);
        assert_writes(&folder.run(&["judge", "kept"]), 1, line);
        // Standard output has the bytes and no line.
        let output = Sender::to(&folder, &["-o", "-"]).send(&file).listen();
        assert_certain(&output, &file[..count], "standard input", count);
    }
    let sender = Sender::to(&folder, &["--output", "kept"]).send(&z());
    assert_writes(&sender.close(), 0, "kept: accepted 1 0\n");
    assert_eq!(folder.get("kept"), z());
    let output = Sender::to(&folder, &["--output", "kept"]).close();
    assert_writes(&output, 1, "kept: refused 1 0\n");
    assert_eq!(folder.get("kept"), b"");
}

/// What can't be kept is said before a byte comes, and what can't be read leaves what was there.
#[test]
fn not_kept() {
    let folder = Folder::with_files("receive not kept");
    let output = Sender::to(&folder, &["-o", "no/new"]).listen();
    assert_fails(&output, "quagmuffin: no/new: No such file");
    let output = folder.run(&["receive", "z", "-o", "z"]);
    assert_fails(&output, "quagmuffin: z: is read or written already\n");
    let output = folder.run(&["receive", ".", "-o", "z"]);
    assert_fails(&output, "quagmuffin: .: Is a directory\n");
    assert_eq!(folder.get("z"), z());
    let output = folder.run(&["receive", "none", "-o", "new"]);
    assert_fails(&output, "quagmuffin: none: No such file");
    assert!(!folder.path("new").exists());
}

/// The pipe stays open, and the silence after the last byte is its end. Where there is no terminal nothing is drawn in a second of it.
#[test]
fn silence_ends() {
    let folder = Folder::new("receive idle");
    for (file, idle, status, line) in [
        (&z()[..], "0.05", 0, "accepted 1 0\n"),
        (&z()[..], "1.5", 0, "accepted 1 0\n"),
        (&z()[..60], "0.05", 1, "refused 1 5\n"),
        (&z_with(63, 16)[..], "0.001", 1, "refused 9 0\n"),
    ] {
        let sender = Sender::to(&folder, &["--idle", idle]).send(file);
        assert_writes(&sender.listen(), status, line);
    }
}

/// Neither a verdict nor the end of the pipe is kept waiting; and before the first byte a silence is none, however long.
#[test]
fn what_is_no_silence() {
    let folder = Folder::new("receive no idle");
    let patient = || Sender::to(&folder, &["--idle", "86400"]);
    let output = patient().send(&[7, 0, 0]).listen();
    assert_certain(&output, b"refused 2 0\n", "standard input", 3);
    assert_writes(&patient().send(&z()).close(), 0, "accepted 1 0\n");
    let sender = Sender::to(&folder, &["--idle", "0.001"]);
    sleep(Duration::from_millis(300));
    assert_writes(&sender.send(&z()).listen(), 0, "accepted 1 0\n");
}

/// A run of `receive` in a terminal, and what it has shown there.
struct Screen {
    child: Child,
    pieces: Receiver<Vec<u8>>,
    text: String,
}

impl Screen {
    fn of(folder: &Folder, word: &str) -> Screen {
        let binary = env!("CARGO_BIN_EXE_quagmuffin");
        let mut script = Command::new("script");
        script.args(["-q", "-e", "-c", &format!("'{binary}' receive {word}")]);
        script.arg("/dev/null").current_dir(folder.path(""));
        script.stdin(Stdio::null()).stdout(Stdio::piped());
        let mut child = script.spawn().expect("script, of bsdutils");
        let pieces = pieces_of(child.stdout.take().expect("a pipe"));
        let text = String::new();
        Screen {
            child,
            pieces,
            text,
        }
    }

    /// Waits until it has shown this.
    fn wait_for(&mut self, text: &str) {
        let start = Instant::now();
        while !self.text.contains(text) {
            assert!(start.elapsed() < MOST, "no {text}: {:?}", self.text);
            let piece = self.pieces.recv_timeout(MOST).expect("a piece");
            self.text += &String::from_utf8_lossy(&piece);
        }
    }

    /// All that it has shown to its end.
    fn ended(self) -> String {
        assert!(ended(self.child).status.success());
        let rest: Vec<u8> = self.pieces.iter().flatten().collect();
        self.text + &String::from_utf8_lossy(&rest)
    }
}

/// What comes from a pipe, read by a thread, so that a wait for it has an end.
fn pieces_of(mut pipe: impl Read + Send + 'static) -> Receiver<Vec<u8>> {
    let (send, pieces) = channel();
    spawn(move || {
        let mut piece = [0; 1024];
        while let Ok(count @ 1..) = pipe.read(&mut piece) {
            // A test that has failed takes no more.
            let _ = send.send(piece[..count].to_vec());
        }
    });
    pieces
}

/// On a terminal it says how far it is while it waits, and takes that away before the verdict.
#[test]
fn progress_on_a_terminal() {
    let folder = Folder::new("receive progress");
    let made = Command::new("mkfifo").arg(folder.path("line")).status();
    assert!(made.expect("mkfifo").success());
    // Opened to read as well, it needn't wait for a reader.
    let options = File::options().read(true).write(true).clone();
    let mut line = options.open(folder.path("line")).expect("the pipe");
    let mut screen = Screen::of(&folder, "line");
    for (piece, text) in [
        (&z()[..0], "0 bytes received"),
        (&z()[..60], "60 bytes received"),
        (&z()[60..], "135 bytes received"),
    ] {
        line.write_all(piece).expect("a piece");
        screen.wait_for(text);
    }
    drop(line);
    let text = screen.ended();
    let (_, after) = text.rsplit_once("received").expect("how far it is");
    let cleared = "\x1b[2K";
    assert!(after.contains(cleared), "{text:?}");
    assert!(after.ends_with("accepted 1 0\r\n"), "{text:?}");
}
