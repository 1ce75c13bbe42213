//! Clocks in a row: a column with inputs for each clock, run by one call or by a call a clock, and held to the second program.

use crate::calls::{Bench, Call};
use crate::columns::NAMED;
use crate::shared::Library;
use model::{Simulator, Workings};
use std::ffi::c_void;
use std::path::Path;
use testkit::prng::Prng;

/// The same inputs in every run.
const SEED: u64 = 20_261_118;
/// The rows of inputs; after the last clocks take the first again.
pub const ROWS: usize = 1024;
/// How many clocks are held to the second program: single ones, then in tens, then a hundred in a row.
const HELD: [(usize, usize); 3] = [(100, 1), (10, 10), (1, 100)];

/// `qm_clock` of include/quagmuffin.h; `clocks_in_a_row` has the same type, and as inputs a row of m bytes for each clock.
type Clock = unsafe extern "C" fn(
    file: *const u8,
    file_len: usize,
    contents: *mut u64,
    contents_len: usize,
    flops: *mut u8,
    flops_len: usize,
    inputs: *const u8,
    inputs_len: usize,
    values: *mut u8,
    values_len: usize,
) -> u64;

/// Both ways to run clocks.
pub struct Clocks {
    in_a_row: Clock,
    clock: Clock,
}

impl Clocks {
    /// Those of a folder with the shared libraries of both.
    pub fn load(folder: &Path) -> Result<Clocks, String> {
        let runs = Library::load(folder.join("clockruns.so"))?;
        let library = Library::load(folder.join("quagmuffin.so"))?;
        // SAFETY: this is the type of the functions of these names.
        unsafe {
            Ok(Clocks {
                in_a_row: std::mem::transmute::<*mut c_void, Clock>(runs.find(c"clocks_in_a_row")?),
                clock: std::mem::transmute::<*mut c_void, Clock>(library.find(c"qm_clock")?),
            })
        }
    }

    /// A clock for each row of the inputs, by one call. The answer is packed as that of `qm_clock`.
    pub fn in_a_row(&self, bench: &mut Bench, inputs: &[u8]) -> u64 {
        call(self.in_a_row, bench, inputs)
    }

    /// The same by a call of `qm_clock` a clock; the answer is the first refusal.
    pub fn one_by_one(&self, bench: &mut Bench, inputs: &[u8]) -> u64 {
        let rows = inputs.chunks(bench.inputs.len());
        let mut answers = rows.map(|row| call(self.clock, bench, row));
        answers.find(|&answer| answer != 0).unwrap_or(0)
    }
}

fn call(clock: Clock, bench: &mut Bench, inputs: &[u8]) -> u64 {
    let (file, contents) = (&bench.file, &mut bench.contents);
    let (flops, values) = (&mut bench.flops, &mut bench.values);
    // SAFETY: each is lent with its length.
    unsafe {
        clock(
            file.as_ptr(),
            file.len(),
            contents.as_mut_ptr(),
            contents.len(),
            flops.as_mut_ptr(),
            flops.len(),
            inputs.as_ptr(),
            inputs.len(),
            values.as_mut_ptr(),
            values.len(),
        )
    }
}

/// One of the ways to run clocks.
pub type Way = fn(&Clocks, &mut Bench, &[u8]) -> u64;

/// A column at power-up, with the inputs of its clocks.
pub struct Subject {
    pub name: String,
    pub bench: Bench,
    inputs: Vec<u8>,
}

impl Subject {
    /// A column of a kind that there is, of n slices.
    pub fn new(kind: &str, n: usize) -> Subject {
        let column = NAMED.iter().find(|(name, _)| *name == kind);
        let (_, column) = column.expect("a column's name");
        let bench = Bench::new(column(n).bytes());
        let mut rng = Prng::new(SEED);
        let bits = ROWS * bench.inputs.len();
        Subject {
            name: format!("{kind}, {n} slice{}", if n == 1 { "" } else { "s" }),
            inputs: (0..bits).map(|_| rng.below(2) as u8).collect(),
            bench,
        }
    }

    /// The inputs of each clock until they come again.
    pub fn rows(&self) -> impl Iterator<Item = &[u8]> {
        self.inputs.chunks(self.bench.inputs.len())
    }

    /// The inputs of the first clocks, at most as many as there are rows.
    pub fn first(&self, clocks: usize) -> &[u8] {
        &self.inputs[..clocks * self.bench.inputs.len()]
    }

    /// Where clocks first differ from the second program, if they do: the state, the values, or that they are refused. Else how many were compared.
    pub fn check(&self, clocks: &Clocks, way: Way) -> Result<usize, String> {
        let model = Simulator::new(Workings::paper(), &self.bench.file);
        let (mut ours, mut expected) = (self.bench.clone(), self.bench.clone());
        let mut done = 0;
        for length in HELD.iter().flat_map(|&(times, length)| vec![length; times]) {
            let m = self.bench.inputs.len();
            let inputs = &self.inputs[done * m..][..length * m];
            let answer = way(clocks, &mut ours, inputs);
            for row in inputs.chunks(m) {
                let Bench {
                    contents,
                    flops,
                    values,
                    ..
                } = &mut expected;
                let answer = model.clock(contents, flops, row, values);
                answer.expect("the second program takes it");
            }
            done += length;
            if answer as u8 != 0 {
                let (number, place) = (answer as u8, answer >> 8);
                return Err(format!("clock {done} is refused {number} {place}"));
            }
            let differs = difference(&ours, &expected);
            differs.map_or(Ok(()), |what| Err(format!("after clock {done} {what}")))?;
        }
        Ok(done)
    }

    /// The signals after so many clocks in a row from power-up, settled with the last inputs.
    pub fn signals(&self, clocks: &Clocks, count: usize) -> Vec<u8> {
        let mut bench = self.bench.clone();
        let mut left = count;
        while left > 0 {
            let length = left.min(ROWS);
            clocks.in_a_row(&mut bench, self.first(length));
            left -= length;
        }
        let last = count.checked_sub(1).map(|last| last % ROWS);
        let held = last.and_then(|row| self.rows().nth(row));
        bench.inputs = held.map_or(vec![0; bench.inputs.len()], <[u8]>::to_vec);
        assert!(bench.model(Call::Settle), "the second program settles it");
        bench.values
    }
}

/// The first word or byte that is not the second program's.
fn difference(ours: &Bench, expected: &Bench) -> Option<String> {
    let found = |what: &str, ours: &[u64], expected: &[u64]| {
        let at = (0..ours.len()).find(|&at| ours[at] != expected[at])?;
        let (ours, expected) = (ours[at], expected[at]);
        Some(format!(
            "{what} {at} is {ours}, by the second program {expected}"
        ))
    };
    let wide = |bytes: &[u8]| bytes.iter().copied().map(u64::from).collect::<Vec<u64>>();
    let of_bytes = |what, ours: &[u8], expected: &[u8]| found(what, &wide(ours), &wide(expected));
    found("the word of table", &ours.contents, &expected.contents)
        .or_else(|| of_bytes("the flip-flop byte of slice", &ours.flops, &expected.flops))
        .or_else(|| of_bytes("the value of signal", &ours.values, &expected.values))
}
