//! The command `quagmuffin`. The script of that name at the repository's root builds and runs it.

mod args;
mod commands;
mod failure;
mod output;
mod progress;
mod receive;
mod run;
mod source;

use std::io::{stderr, Write};
use std::process::ExitCode;

use args::{Cli, Command};
use clap::error::ErrorKind;
use clap::{CommandFactory, Parser};
use failure::{Failure, Outcome};
use output::say;
use text::lines::plain;

fn main() -> ExitCode {
    let outcome = Cli::try_parse().map_or_else(|error| not_parsed(&error), |cli| run(cli.command));
    match outcome {
        Ok(status) => ExitCode::from(status),
        Err(Failure { status, said }) => {
            if !said.is_empty() {
                // Where it can't be said the status still tells.
                let _ = writeln!(stderr(), "{said}");
            }
            ExitCode::from(status)
        }
    }
}

fn run(command: Command) -> Outcome<u8> {
    match command {
        Command::Judge { files } => commands::judge_files(&files),
        Command::Receive(words) => receive::receive(&words),
        Command::Explain { file } => commands::explain_file(&file),
        Command::Show { file, slice } => commands::show(&file, slice),
        Command::Write { text, output } => commands::write(&text, &output),
        Command::Run(words) => run::run(&words),
        Command::Diff { a, b } => commands::diff(&a, &b),
        Command::Verilog { file, stimulus } => commands::verilog(&file, &stimulus),
        Command::Completions { shell } => {
            let mut script = vec![];
            clap_complete::generate(shell, &mut Cli::command(), "quagmuffin", &mut script);
            say(script)?;
            Ok(0)
        }
    }
}

/// Help and version were asked for, or the words are wrong, which is said in one line.
fn not_parsed(error: &clap::Error) -> Outcome<u8> {
    let text = match error.kind() {
        ErrorKind::DisplayHelp | ErrorKind::DisplayVersion => {
            say(error.to_string().trim_end().to_string() + "\n")?;
            return Ok(0);
        }
        ErrorKind::DisplayHelpOnMissingArgumentOrSubcommand => "no command is named".to_string(),
        _ => error.to_string(),
    };
    // What is wrong stands before the first empty line; after it come usage and hints.
    let lines = text.lines().take_while(|line| !line.is_empty());
    let line = lines.map(str::trim).collect::<Vec<_>>().join(" ");
    let line = plain(line.strip_prefix("error: ").unwrap_or(&line));
    Err(Failure::of(format!("{line}; --help says what there is")))
}
