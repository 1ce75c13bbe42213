//! The command, run as a program.

mod examples;
mod folder;
mod inputs;
mod receive;
mod run;
mod texts;
mod tour;
mod unreadable;
mod verdicts;
mod waves;
mod words;
