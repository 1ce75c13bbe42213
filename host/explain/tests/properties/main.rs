//! What holds of the explanations of all files: written ones, random ones, damaged ones.

mod files;
mod judged;
mod listed;
mod loops;
mod mended;
mod printed;
