//! Random adder columns: carry chains wired so that numbers chosen before stand at them.

use crate::column::Column;
use crate::prng::Prng;
use crate::random::{output_code, small_column};
use model::adders::{Addends, Row};
use model::layout::*;

/// The heights of adders that are tried.
pub const HEIGHTS: [usize; 5] = [1, 2, 3, 63, 64];

/// The carry starts, by their numbers in the file.
pub const STARTS: [u8; 4] = [0, 1, 2, 3];

/// The most slices of a column.
const MOST: usize = 64;

/// A column, inputs for it, and the numbers that stand at its adder once it is powered up and settled.
pub struct AdderColumn {
    pub file: Vec<u8>,
    pub inputs: Vec<u8>,
    pub row: Row,
    /// The carry start of the first slice.
    pub start: u8,
    pub addends: Addends,
}

/// All adder columns of a seed: each height with each carry start it can have, at several places, with several numbers.
pub fn columns(seed: u64, times: usize) -> Vec<AdderColumn> {
    let mut rng = Prng::new(seed);
    let mut columns = vec![];
    for _ in 0..times {
        for height in HEIGHTS {
            for start in STARTS {
                for (n, base) in places(&mut rng, height, start) {
                    let row = Row { base, height };
                    for addends in numbers(&mut rng, 4 * height, start) {
                        columns.push(column(&mut rng, n, row, start, addends));
                    }
                }
            }
        }
    }
    columns
}

/// Sizes n and first slices: the lowest in a small column, the highest, and any. Carry start 3 needs a slice below.
fn places(rng: &mut Prng, height: usize, start: u8) -> Vec<(usize, usize)> {
    let lowest = usize::from(start == 3);
    let least = lowest + height;
    if least > MOST {
        return vec![];
    }
    let small = rng.from_to(least, MOST.min(least + 3));
    let any = rng.from_to(least, MOST);
    let base = rng.from_to(lowest, any - height);
    vec![(small, lowest), (any, base), (MOST, MOST - height)]
}

/// Numbers of so many bits. The carry start decides c where it is 0 or 1.
fn numbers(rng: &mut Prng, width: usize, start: u8) -> Vec<Addends> {
    let bits = |is_one: &dyn Fn(usize) -> bool| (0..width).map(is_one).collect::<Vec<bool>>();
    let (zero, ones) = (bits(&|_| false), bits(&|_| true));
    let (lowest, highest) = (bits(&|bit| bit == 0), bits(&|bit| bit == width - 1));
    let (even, odd) = (bits(&|bit| bit % 2 == 0), bits(&|bit| bit % 2 == 1));
    let first = rng.below(width);
    let run = first..=rng.from_to(first, width - 1);
    let (run, foot) = (bits(&|bit| run.contains(&bit)), bits(&|bit| bit == first));
    let mut random = || -> Vec<bool> { (0..width).map(|_| rng.chance(50)).collect() };
    let (one, other, third) = (random(), random(), random());
    let rest = one.iter().map(|bit| !bit).collect();
    let numbers = vec![
        (&zero, &ones, true),
        (&ones, &zero, true),
        (&ones, &ones, true),
        (&lowest, &ones, false),
        (&ones, &lowest, false),
        (&highest, &highest, false),
        (&even, &odd, true),
        (&odd, &even, false),
        (&even, &even, true),
        (&run, &foot, false),
        (&one, &rest, true),
        (&other, &third, rng.chance(50)),
    ];
    let addends = |(a, b, free): (&Vec<bool>, &Vec<bool>, bool)| Addends {
        a: a.clone(),
        b: b.clone(),
        c: match start {
            0 | 1 => start == 1,
            _ => free,
        },
    };
    numbers.into_iter().map(addends).collect()
}

/// A column of n slices with an adder of these numbers.
fn column(rng: &mut Prng, n: usize, row: Row, start: u8, addends: Addends) -> AdderColumn {
    let column = small_column(rng, n);
    let inputs: Vec<u8> = (0..column.m).map(|_| rng.below(2) as u8).collect();
    let mut wiring = Wiring {
        known: [false, true].map(|bit| known(&column, &inputs, bit)),
        rng,
        column,
    };
    let Addends { a, b, c } = &addends;
    wiring.start(row.base, start, *c);
    for bit in 0..4 * row.height {
        let (slice, letter) = (row.base + bit / 4, bit % 4);
        // AX has the carry coming in.
        let taken = (start == 2 && bit == 0).then_some(*c);
        wiring.letter(slice, letter, a[bit], b[bit], taken);
    }
    for slice in row.base + 1..row.base + row.height {
        wiring.column.slices[slice][CARRY_START] = 3;
    }
    AdderColumn {
        file: wiring.column.bytes(),
        inputs,
        row,
        start,
        addends,
    }
}

/// The codes of all that has a known bit before anything settles, by kind: constants and open pins, inputs, main flip-flops, and MUX
/// outputs that show a second one. Kinds that have none are left out.
fn known(column: &Column, inputs: &[u8], bit: bool) -> Vec<Vec<u16>> {
    let mut kinds = vec![vec![u16::from(bit)], vec![], vec![], vec![]];
    if bit {
        kinds[0].push(OPEN_CODE);
    }
    for (input, &byte) in inputs.iter().enumerate() {
        if (byte == 1) == bit {
            kinds[1].push(INPUT_CODES + input as u16);
        }
    }
    for (slice, body) in column.slices.iter().enumerate() {
        let stored = |flop: usize| (body[POWER_UP] >> flop & 1 == 1) == bit;
        for letter in LETTERS {
            if stored(letter) {
                kinds[2].push(output_code(slice, 8 + letter));
            }
            if stored(4 + letter) && body[MUX + letter] == 4 {
                kinds[3].push(output_code(slice, 4 + letter));
            }
        }
    }
    kinds.retain(|codes| !codes.is_empty());
    kinds
}

/// A column that is being wired.
struct Wiring<'a> {
    rng: &'a mut Prng,
    column: Column,
    /// What has a 0, and what has a 1.
    known: [Vec<Vec<u16>>; 2],
}

impl Wiring<'_> {
    /// Drives a pin by something that has this bit.
    fn drive(&mut self, slice: usize, pin: usize, bit: bool) {
        let codes = self.rng.pick(&self.known[usize::from(bit)]);
        self.column.drive(slice, pin, *self.rng.pick(codes));
    }

    /// Makes c the carry coming into a slice.
    fn start(&mut self, slice: usize, start: u8, c: bool) {
        self.column.slices[slice][CARRY_START] = start;
        match start {
            2 => {
                self.drive(slice, bypass_pin(A), c);
                // In shift mode A's O5 couldn't give another carry data than AX.
                self.column.slices[slice][MODE..CONTENTS].fill(0);
            }
            // With an O6 of 0 the carry is its data.
            3 => self.letter(slice - 1, D, c, c, None),
            _ => {}
        }
    }

    /// Makes a the carry data of a letter and a ^ b its O6. Its bypass pin may be taken for a bit already.
    fn letter(&mut self, slice: usize, letter: usize, a: bool, b: bool, taken: Option<bool>) {
        let shifts = self.shifts(slice, letter);
        let by_o5 = match taken {
            Some(bit) if bit != a => true,
            // O5 is 0 in shift mode.
            _ => !(shifts && a) && self.rng.chance(50),
        };
        self.column.slices[slice][CARRY_DATA + letter] = u8::from(!by_o5);
        if !by_o5 && taken.is_none() {
            self.drive(slice, bypass_pin(letter), a);
        }
        self.table(slice, letter, a, b, by_o5 && !shifts);
    }

    /// Makes a ^ b the O6 of a letter, by two pins or by constant contents, and with `halves` also a its O5: then pin 6 is at 1, so that the upper half
    /// of the contents is for O6 and the lower one for O5.
    fn table(&mut self, slice: usize, letter: usize, a: bool, b: bool, halves: bool) {
        let first = 1 + usize::from(self.shifts(slice, letter));
        let [of_a, of_b] = self.two_pins(first, 6 - usize::from(halves));
        let constant = self.rng.chance(25);
        if !constant {
            self.drive(slice, table_pin(letter, of_a), a);
            self.drive(slice, table_pin(letter, of_b), b);
        }
        if halves {
            self.drive(slice, table_pin(letter, 6), true);
        }
        let word = word(7 - first, |address| {
            let pin = |pin: usize| address >> (pin - first) & 1 == 1;
            let (a, b) = match constant {
                true => (a, b),
                false => (pin(of_a), pin(of_b)),
            };
            match halves && !pin(6) {
                true => a,
                false => a != b,
            }
        });
        self.column.fill(slice, letter, word);
    }

    fn shifts(&self, slice: usize, letter: usize) -> bool {
        self.column.slices[slice][MODE + letter] == 2
    }

    /// Two of a table's pins.
    fn two_pins(&mut self, first: usize, last: usize) -> [usize; 2] {
        let one = self.rng.from_to(first, last);
        let other = self.rng.from_to(first, last - 1);
        [one, other + usize::from(other >= one)]
    }
}

/// Contents by what they give at each address of so many bits.
fn word(bits: usize, at: impl Fn(usize) -> bool) -> u64 {
    let addresses = 0..1 << bits;
    addresses.fold(0, |word, address| word | u64::from(at(address)) << address)
}
