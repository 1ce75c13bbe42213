//! What the benchmarks measure with: columns, calls, ways to look a bit up, clocks in a row, simulators, times and stack.

pub mod calls;
pub mod clocks;
pub mod columns;
pub mod lookups;
pub mod report;
mod shared;
pub mod simulators;
pub mod stack;
pub mod timing;
pub mod ways;
