//! The carry column as arithmetic: the numbers that stand at slices in a row, and whole numbers of any
//! size to add them up.

use std::fmt;

use crate::design::{CarryStart, Design, Signal, Source};
use crate::layout::*;
use crate::values::{number, value};

/// The bits of a limb.
const LIMB: usize = 32;

/// A whole number of any size.
#[derive(Clone, Debug, PartialEq, Eq)]
pub struct BigNumber {
    /// Lowest first; the last isn't zero.
    limbs: Vec<u32>,
}

impl BigNumber {
    /// The number whose bits these are, lowest first.
    pub fn of_bits(bits: &[bool]) -> BigNumber {
        let limbs = bits.chunks(LIMB).map(|bits| number(bits) as u32);
        BigNumber::of_limbs(limbs.collect())
    }

    fn of_limbs(mut limbs: Vec<u32>) -> BigNumber {
        while limbs.last() == Some(&0) {
            limbs.pop();
        }
        BigNumber { limbs }
    }

    /// The sum of two numbers.
    pub fn plus(&self, other: &BigNumber) -> BigNumber {
        let mut limbs = vec![];
        let mut carried = 0;
        for at in 0..self.limbs.len().max(other.limbs.len()) {
            let limb = |of: &BigNumber| u64::from(of.limbs.get(at).copied().unwrap_or(0));
            let sum = limb(self) + limb(other) + carried;
            limbs.push(sum as u32);
            carried = sum >> LIMB;
        }
        limbs.push(carried as u32);
        BigNumber::of_limbs(limbs)
    }
}

/// In hexadecimal.
impl fmt::Display for BigNumber {
    fn fmt(&self, out: &mut fmt::Formatter) -> fmt::Result {
        let (last, lower) = self.limbs.split_last().unwrap_or((&0, &[]));
        write!(out, "{last:x}")?;
        lower
            .iter()
            .rev()
            .try_for_each(|limb| write!(out, "{limb:08x}"))
    }
}

/// Slices in a row.
#[derive(Clone, Copy, Debug, PartialEq, Eq)]
pub struct Row {
    /// The lowest slice.
    pub base: usize,
    /// How many they are, at least one.
    pub height: usize,
}

impl Row {
    /// Whether one carry runs through them: each above the first has carry start 3.
    pub fn is_chain(self, design: &Design) -> bool {
        let above = &design.slices[self.base + 1..self.base + self.height];
        let mut starts = above.iter().map(|slice| slice.carry_start);
        starts.all(|start| start == CarryStart::SliceBelow)
    }

    /// A bit for each letter of each slice, lowest first.
    fn bits(self, of: impl Fn(usize, usize) -> bool) -> Vec<bool> {
        let slices = self.base..self.base + self.height;
        let letters = slices.flat_map(|slice| LETTERS.map(|letter| (slice, letter)));
        letters.map(|(slice, letter)| of(slice, letter)).collect()
    }
}

/// What a row adds; bits lowest first.
#[derive(Clone, Debug, PartialEq, Eq)]
pub struct Addends {
    /// The carry data.
    pub a: Vec<bool>,
    /// What makes each O6 the exclusive-or of its bit and a's.
    pub b: Vec<bool>,
    /// The carry coming into the first slice.
    pub c: bool,
}

impl Addends {
    /// a + b + c.
    pub fn total(&self) -> BigNumber {
        let [a, b, c] = [&self.a[..], &self.b, &[self.c]].map(BigNumber::of_bits);
        a.plus(&b).plus(&c)
    }
}

/// All numbers at a row.
#[derive(Clone, Debug, PartialEq, Eq)]
pub struct Numbers {
    pub addends: Addends,
    /// Bits lowest first.
    pub sums: Vec<bool>,
    /// The D carry of the last slice.
    pub top: bool,
}

impl Numbers {
    /// Reads them from a table of values.
    pub fn read(design: &Design, row: Row, inputs: &[u8], values: &[u8]) -> Numbers {
        let bit = |source| value(source, inputs, values);
        let signal = |signal: Signal, slice| bit(Source::Signal(signal.of_slice(slice)));
        let data = |slice, letter| bit(design.carry_data(slice, letter).source);
        let addends = Addends {
            a: row.bits(data),
            b: row.bits(|slice, letter| signal(Signal::O6(letter), slice) != data(slice, letter)),
            c: bit(design.carry_in(row.base, A).source),
        };
        Numbers {
            addends,
            sums: row.bits(|slice, letter| signal(Signal::Sum(letter), slice)),
            top: signal(Signal::Carry(D), row.base + row.height - 1),
        }
    }

    /// The sums, plus 2 to the count of a's bits times the top carry.
    pub fn result(&self) -> BigNumber {
        let top = [vec![false; self.addends.a.len()], vec![self.top]].concat();
        BigNumber::of_bits(&self.sums).plus(&BigNumber::of_bits(&top))
    }

    /// Whether the row has added.
    pub fn adds(&self) -> bool {
        self.result() == self.addends.total()
    }
}

#[cfg(test)]
mod tests {
    use super::*;

    const ONES: u32 = 0xFFFF_FFFF;

    /// Bits with ones at these places.
    fn with_ones(count: usize, places: &[usize]) -> Vec<bool> {
        (0..count).map(|bit| places.contains(&bit)).collect()
    }

    #[test]
    fn bits_lowest_first() {
        for (count, places, limbs, text) in [
            (0, &[][..], &[][..], "0"),
            (70, &[], &[], "0"),
            (1, &[0], &[1], "1"),
            (4, &[1, 3], &[10], "a"),
            (256, &[31], &[0x8000_0000], "80000000"),
            (256, &[32], &[0, 1], "100000000"),
            (33, &[0, 32], &[1, 1], "100000001"),
            (256, &[63, 68], &[0, 0x8000_0000, 16], "108000000000000000"),
        ] {
            let number = BigNumber::of_bits(&with_ones(count, places));
            assert_eq!(number.limbs, limbs);
            assert_eq!(number.to_string(), text);
        }
    }

    #[test]
    fn carries_over_limbs() {
        for (one, other, sum) in [
            (&[][..], &[][..], &[][..]),
            (&[7], &[8], &[15]),
            (&[ONES], &[1], &[0, 1]),
            (&[ONES], &[ONES], &[0xFFFF_FFFE, 1]),
            (&[ONES, ONES, ONES], &[1], &[0, 0, 0, 1]),
            (&[5, ONES, 7], &[0xFFFF_FFFB], &[0, 0, 8]),
            (&[0, 0, 3], &[9], &[9, 0, 3]),
            (&[0x8000_0000, 5], &[0x8000_0000, 0xFFFF_FFFA], &[0, 0, 1]),
        ] {
            let [one, other] = [one, other].map(|limbs| BigNumber::of_limbs(limbs.to_vec()));
            assert_eq!(one.plus(&other).limbs, sum);
            assert_eq!(other.plus(&one).limbs, sum);
        }
    }

    /// 2^256 - 1 and 1, which comes as a, b or c; and twice 2^256 - 1 and 1.
    #[test]
    fn all_ones_plus_one() {
        let (zero, one, ones) = (vec![false; 256], with_ones(256, &[0]), vec![true; 256]);
        for (a, b, c, low) in [
            (&ones, &one, false, 0),
            (&one, &ones, false, 0),
            (&ones, &zero, true, 0),
            (&ones, &ones, true, ONES),
        ] {
            let (a, b) = (a.clone(), b.clone());
            let limbs = [vec![low; 8], vec![1]].concat();
            assert_eq!(Addends { a, b, c }.total().limbs, limbs);
        }
    }
}
