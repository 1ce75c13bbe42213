//! Support of the tests in `tests`: slice files written by hand and at random,
//! runs of the program and of the scripts, and wrong models that the files have to
//! tell from the right one.

pub mod adders;
pub mod cases;
pub mod column;
pub mod command;
pub mod compare;
pub mod mutants;
pub mod prng;
pub mod random;
pub mod replica;
pub mod run;
pub mod traps;
