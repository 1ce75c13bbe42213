//! A file that is run in guarded buffers of its own, for tests.

pub mod lent;

use crate::lent::Lent;
use calls::{Accepted, Answer, Change};

/// A file and the buffers of its calls.
#[derive(Clone, Debug, PartialEq)]
pub struct Workbench {
    pub file: Lent<u8>,
    pub contents: Lent<u64>,
    pub flops: Lent<u8>,
    pub inputs: Lent<u8>,
    pub values: Lent<u8>,
}

impl Workbench {
    /// A file with buffers of the lengths that its size record names. What is only filled holds junk.
    pub fn of(file: Vec<u8>) -> Workbench {
        let size = Accepted {
            n: usize::from(file[3]),
            m: usize::from(file[4]),
        };
        Workbench {
            file: Lent::bytes(&file),
            contents: Lent::words(&vec![0xDEAD; size.tables()]),
            flops: Lent::bytes(&vec![0x5A; size.n]),
            inputs: Lent::bytes(&vec![0; size.m]),
            values: Lent::bytes(&vec![7; size.signals()]),
        }
    }

    /// The same, powered up.
    pub fn up(file: Vec<u8>) -> Workbench {
        let mut bench = Workbench::of(file);
        assert_eq!(bench.power_up(), Ok(()));
        bench
    }

    /// The same, powered up and settled with inputs.
    pub fn settled(file: Vec<u8>, inputs: &[u8]) -> Workbench {
        let mut bench = Workbench::up(file);
        bench.inputs.lend().copy_from_slice(inputs);
        assert_eq!(bench.settle(), Ok(()));
        bench
    }

    pub fn power_up(&mut self) -> Answer {
        calls::power_up(self.file.get(), self.contents.lend(), self.flops.lend())
    }

    pub fn settle(&mut self) -> Answer {
        calls::settle(
            self.file.get(),
            self.contents.get(),
            self.flops.get(),
            self.inputs.get(),
            self.values.lend(),
        )
    }

    pub fn clock(&mut self) -> Answer {
        calls::clock(
            self.file.get(),
            self.contents.lend(),
            self.flops.lend(),
            self.inputs.get(),
            self.values.lend(),
        )
    }

    pub fn edit(&mut self, edits: &[Change]) -> Answer {
        calls::edit(
            self.file.get(),
            self.contents.lend(),
            self.flops.get(),
            self.inputs.lend(),
            self.values.lend(),
            edits,
        )
    }
}
