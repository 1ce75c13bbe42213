//! Columns in iverilog and in Verilator: built, run for so many clocks, and timed. Each prints all signals once, after the last clock.

use crate::clocks::{Subject, ROWS};
use export::{iverilog, text, Netlist};
use model::{Simulator, Workings};
use std::fs;
use std::path::{Path, PathBuf};
use std::process::{Command, Stdio};
use std::time::{Duration, Instant};

/// A run is long enough once it takes this much longer than one without a clock.
const ENOUGH: Duration = Duration::from_secs(1);
/// Or once it has so many clocks, since the library has to run them as well.
const MOST: usize = 1 << 20;
/// So many runs of that length; the median counts.
const RUNS: usize = 3;

#[derive(Clone, Copy, Debug, PartialEq)]
pub enum Tool {
    Iverilog,
    Verilator,
}

impl Tool {
    pub const ALL: [Tool; 2] = [Tool::Iverilog, Tool::Verilator];

    pub fn name(self) -> &'static str {
        match self {
            Tool::Iverilog => "iverilog",
            Tool::Verilator => "Verilator",
        }
    }

    /// Whether it is there, with the models that it needs.
    pub fn is_installed(self) -> bool {
        let answers = |tool: &str, word: &str| Command::new(tool).arg(word).output().is_ok();
        match self {
            Tool::Iverilog => answers("iverilog", "-V") && iverilog::named_cells().exists(),
            Tool::Verilator => answers("verilator", "--version"),
        }
    }

    /// Builds a column's program in a folder, and makes the folder.
    pub fn build(self, subject: &Subject, folder: &Path) -> Result<Program, String> {
        let start = Instant::now();
        let unwritten = |error| format!("{}: {error}", folder.display());
        write_sources(subject, folder).map_err(unwritten)?;
        let (mut build, run) = match self {
            Tool::Iverilog => iverilog_commands(),
            Tool::Verilator => verilator_commands(),
        };
        output(build.current_dir(folder))
            .map_err(|why| format!("{} can't build it: {why}", self.name()))?;
        Ok(Program {
            built: start.elapsed(),
            folder: folder.to_path_buf(),
            run,
        })
    }
}

/// Over yosys's models. Afterwards `vvp` runs it.
fn iverilog_commands() -> (Command, Vec<String>) {
    let mut build = Command::new("iverilog");
    build.args(["-s", "test_bench", "-o", "timed.vvp", "bench.v", "column.v"]);
    build.arg(iverilog::named_cells());
    let run = ["vvp", "-n", "timed.vvp"];
    (build, run.map(str::to_string).into())
}

/// Over models of this crate; one thread. Afterwards the program runs by itself.
fn verilator_commands() -> (Command, Vec<String>) {
    let mut build = Command::new("verilator");
    build.args([
        "--cc",
        "--exe",
        "--build",
        "-O3",
        "-MAKEFLAGS",
        "OPT_FAST=-O3",
    ]);
    build.args(["--x-assign", "fast", "--x-initial", "fast", "-Wno-fatal"]);
    build.args(["--top-module", "timed", "--prefix", "Vtimed", "-o", "timed"]);
    build.args(["top.v", "column.v", "cells.v", "clocks.cpp"]);
    (build, vec!["obj_dir/timed".to_string()])
}

/// The column, what runs it in each tool, and the inputs.
fn write_sources(subject: &Subject, folder: &Path) -> std::io::Result<()> {
    let model = Simulator::new(Workings::paper(), &subject.bench.file);
    let netlist = Netlist::of(model.design().expect("an accepted file"));
    let row = |row: &[u8]| row.iter().map(u8::to_string).collect::<String>() + "\n";
    fs::create_dir_all(folder)?;
    fs::write(folder.join("column.v"), text::column(&netlist))?;
    fs::write(folder.join("bench.v"), test_bench(&netlist))?;
    fs::write(folder.join("top.v"), top(&netlist))?;
    fs::write(folder.join("cells.v"), include_str!("simulated/cells.v"))?;
    let main = include_str!("simulated/clocks.cpp");
    fs::write(folder.join("clocks.cpp"), main)?;
    let inputs: String = subject.rows().map(row).collect();
    fs::write(folder.join("inputs.txt"), inputs)
}

/// The ranges of the inputs and of the signals.
fn ranges(netlist: &Netlist) -> [String; 2] {
    let signals = model::design::SIGNALS * netlist.slices.len();
    [text::range(netlist.m), text::range(signals)]
}

/// For iverilog: clocks of two steps, the inputs changed while the clock is low.
fn test_bench(netlist: &Netlist) -> String {
    let [inputs, signals] = ranges(netlist);
    let last = ROWS - 1;
    format!(
        "module test_bench;
  reg clk = 1'b0;
  reg {inputs} inputs = 0;
  reg {inputs} rows [0:{last}];
  wire {signals} signals;
  integer clocks, i;
  column column (.clk(clk), .inputs(inputs), .signals(signals));
  initial begin
    $readmemb(\"inputs.txt\", rows);
    if (!$value$plusargs(\"clocks=%d\", clocks)) clocks = 0;
    #1;
    for (i = 0; i < clocks; i = i + 1) begin
      inputs = rows[i % {ROWS}];
      #1 clk = 1'b1;
      #1 clk = 1'b0;
    end
    #1 $display(\"%b\", signals);
    $finish(0);
  end
endmodule
"
    )
}

/// For Verilator: the column, driven from outside.
fn top(netlist: &Netlist) -> String {
    let [inputs, signals] = ranges(netlist);
    format!(
        "module timed (input clk, input {inputs} inputs);
  wire {signals} signals;
  column column (.clk(clk), .inputs(inputs), .signals(signals));
  final $display(\"%b\", signals);
endmodule
"
    )
}

/// A column that a tool has built.
pub struct Program {
    folder: PathBuf,
    run: Vec<String>,
    built: Duration,
}

/// What was measured of a program.
pub struct Measured {
    /// What it took until the first clock: building it, and starting it.
    pub before: Duration,
    /// How long a clock took, by the median of the runs.
    pub clock: Duration,
    pub clocks: usize,
    /// All signals after that many clocks.
    pub signals: Vec<u8>,
}

impl Program {
    /// The signals after so many clocks from power-up, settled with the last inputs.
    pub fn signals(&self, clocks: usize) -> Result<Vec<u8>, String> {
        let path = self.folder.join(&self.run[0]);
        let program = if path.exists() {
            path
        } else {
            self.run[0].clone().into()
        };
        let mut command = Command::new(program);
        command
            .args(&self.run[1..])
            .arg(format!("+clocks={clocks}"));
        let text = output(command.current_dir(&self.folder))?;
        let bit = |digit: char| digit.to_digit(2).map(|bit| bit as u8);
        let line = text.lines().next().unwrap_or("");
        let bits: Option<Vec<u8>> = line.chars().map(bit).collect();
        bits.ok_or(format!("not a line of signals: {line}"))
    }

    fn timed(&self, clocks: usize) -> Result<(Duration, Vec<u8>), String> {
        let start = Instant::now();
        let signals = self.signals(clocks)?;
        Ok((start.elapsed(), signals))
    }

    /// Times it over twice as many clocks until they take long enough.
    pub fn measure(&self) -> Result<Measured, String> {
        let (start, _) = self.timed(0)?;
        let mut clocks = 1;
        while clocks < MOST && self.timed(clocks)?.0 < start + ENOUGH {
            clocks *= 2;
        }
        let runs: Result<Vec<_>, String> = (0..RUNS).map(|_| self.timed(clocks)).collect();
        let mut runs = runs?;
        runs.sort();
        let (took, signals) = runs.swap_remove(RUNS / 2);
        Ok(Measured {
            before: self.built + start,
            clock: took.saturating_sub(start).div_f64(clocks as f64),
            clocks,
            signals,
        })
    }
}

/// What a command writes; it has to succeed.
fn output(command: &mut Command) -> Result<String, String> {
    let name = command.get_program().to_string_lossy().into_owned();
    let output = command.stdin(Stdio::null()).output();
    let output = output.map_err(|error| format!("{name}: {error}"))?;
    if !output.status.success() {
        let said = String::from_utf8_lossy(&output.stderr).into_owned();
        let last = said.lines().last().unwrap_or("").to_string();
        return Err(format!("{name}: {}: {last}", output.status));
    }
    Ok(String::from_utf8_lossy(&output.stdout).into())
}
