//! The words of the command.

use std::path::{Path, PathBuf};
use std::time::Duration;

use clap::{Args, Parser, Subcommand};
use clap_complete::Shell;
use export::bench::MOST_CLOCKS;

/// Judges slice files of paper-pattern cutters, explains what is wrong with one, shows and writes them as text, and runs them.
///
/// FILE is a slice file, or `-` for standard input. But for judge and receive, which take bytes as they are, it may be a text as well.
/// Verdicts, values and states are those of the proved library.
#[derive(Parser)]
#[command(name = "quagmuffin", version, after_help = STATUSES)]
pub struct Cli {
    #[command(subcommand)]
    pub command: Command,
}

const STATUSES: &str =
    "The exit status is 0; or 1 where the file is refused that was judged, received, explained, written, run or exported, and where two files differ; or 2 where the command can't do what it was asked, which it says.

README.md has a tour, docs/TEXT.md the text form.";

#[derive(Subcommand)]
pub enum Command {
    /// Say for each file `accepted N M` (slices, outside inputs) or `refused NUMBER PLACE`
    Judge {
        /// Slice files; where there is more than one, each line begins with the file's name
        #[arg(value_name = "FILE", required = true)]
        files: Vec<PathBuf>,
    },
    /// Judge a file as it comes, over a pipe or a serial line, and refuse it as soon as that is certain
    #[command(after_help = RECEIVE)]
    Receive(Receive),
    /// Say in words what is wrong with a file, and where: every fault, the judge's first
    Explain {
        /// A slice file or a text
        file: PathBuf,
    },
    /// Write a design as text, accepted or not
    Show {
        /// A slice file or a text
        file: PathBuf,
        /// Only this slice
        #[arg(long, value_name = "S")]
        slice: Option<usize>,
    },
    /// Make a slice file of a text, and judge it; it is written also where it is refused
    Write {
        /// A text; docs/TEXT.md has the form
        text: PathBuf,
        /// The slice file to write, or `-` for standard output
        #[arg(short, long, value_name = "FILE")]
        output: PathBuf,
    },
    /// Power a design up and clock it: a table of the watched signals, or waves
    #[command(after_help = RUN)]
    Run(Run),
    /// Say field by field where two designs differ, in the words of the text form
    Diff {
        /// A slice file or a text
        a: PathBuf,
        /// A slice file or a text
        b: PathBuf,
    },
    /// Write a design as Verilog over the vendor's primitives, with a test bench
    Verilog {
        /// A slice file or a text
        file: PathBuf,
        #[command(flatten)]
        stimulus: Stimulus,
    },
    /// Write a script that completes the words of this command
    Completions {
        /// The shell it is for
        #[arg(value_enum)]
        shell: Shell,
    },
}

#[derive(Args)]
pub struct Receive {
    /// Where the file comes from, a device for example; `-` is standard input
    #[arg(value_name = "FILE", default_value = "-")]
    pub file: PathBuf,
    /// Take a silence of so many seconds for the end of the file, once its first byte is there
    #[arg(long, value_name = "SECONDS", value_parser = seconds)]
    pub idle: Option<Duration>,
    /// Write the bytes up to the verdict to a file, or to standard output for `-`, also where they are refused
    #[arg(short, long, value_name = "FILE")]
    pub output: Option<PathBuf>,
}

/// A time in seconds.
fn seconds(word: &str) -> Result<Duration, String> {
    let seconds = word.parse().ok().filter(|x| (0.001..=86400.0).contains(x));
    let time = seconds.map(Duration::from_secs_f64);
    time.ok_or("a number from 0.001 to 86400 is due".to_string())
}

const RECEIVE: &str =
    "A refusal from 2 to 8 is said at the first byte at which it is certain, and no more is waited for; standard error says how many bytes that took. `accepted`, 1 and 9 are said at the end, as one more byte could change them.

A serial line has no end: --idle gives it one. stty sets its speed, and raw, so that no byte is changed or left out. What is typed at a terminal ends with Ctrl-D.

  stty -F /dev/ttyUSB0 9600 raw -echo
  quagmuffin receive /dev/ttyUSB0 --idle 2 -o board.bin
  ssh cutter cat board.bin | quagmuffin receive";

/// What a design is clocked with.
#[derive(Args)]
pub struct Stimulus {
    /// So many clocks, 1 to 1000000 [default: one for each line of inputs, or 10]
    #[arg(long, value_name = "K", value_parser = clocks)]
    pub clocks: Option<usize>,
    /// The outside inputs, a line of digits 0 and 1 for each clock, the last one held; a first line such as `inputs step in3` names those that are given
    #[arg(long, value_name = "FILE")]
    pub inputs: Option<PathBuf>,
}

/// A number of clocks.
fn clocks(word: &str) -> Result<usize, String> {
    let clocks = word
        .parse()
        .ok()
        .filter(|clocks| (1..=MOST_CLOCKS).contains(clocks));
    clocks.ok_or(format!("a number from 1 to {MOST_CLOCKS} is due"))
}

#[derive(Args)]
pub struct Run {
    /// A slice file or a text
    pub file: PathBuf,
    #[command(flatten)]
    pub stimulus: Stimulus,
    /// Signals by name or number, inputs and names of the text, with commas between them; `*` stands for any letters [default: the text's names, or the inputs and main flip-flops]
    #[arg(long, value_name = "SIGNALS", value_delimiter = ',')]
    pub watch: Vec<String>,
    /// Change an input or a table's contents before a clock: `3: in 0 = 1`, `8: s0.A = A1 & A2`
    #[arg(long, value_name = "EDIT")]
    pub edit: Vec<String>,
    /// The same, an edit on each line; made after those of --edit
    #[arg(long, value_name = "FILE")]
    pub edits: Option<PathBuf>,
    /// Write the waves to a file in place of the table; without --watch those of all signals
    #[arg(long, value_name = "OUT")]
    pub vcd: Option<PathBuf>,
    /// Write comma-separated values to a file, or to standard output for `-`, in place of the table
    #[arg(long, value_name = "OUT")]
    pub csv: Option<PathBuf>,
}

impl Run {
    /// The files that it reads.
    pub fn read_files(&self) -> impl Iterator<Item = &Path> {
        let others = [self.stimulus.inputs.as_deref(), self.edits.as_deref()];
        [Some(&*self.file)].into_iter().chain(others).flatten()
    }
}

const RUN: &str =
    "A row has the signals settled before that clock's edge; clock 0 is the first after power-up. At each clock the line of the inputs is taken first, then the edits are made in their order, at most 256 before one clock. An input keeps what it was set to until another line or edit sets it. docs/TEXT.md has the forms of inputs and edits.

  quagmuffin run examples/accumulator.txt --inputs examples/accumulator.inputs
  quagmuffin run FILE --clocks 40 --watch 's0.*Q,in0' --edit '20: in 0 = 1'
  quagmuffin run FILE --clocks 1000 --vcd waves.vcd && gtkwave waves.vcd";
