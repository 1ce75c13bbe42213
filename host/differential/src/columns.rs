//! The calls on one file, random but the same for a seed and a file.

use ::calls::{Change, MOST_EDITS};
use model::design::{Design, SIGNALS};
use model::Workings;
use testkit::prng::Prng;
use testkit::random;
use workbench::lent::Lent;
use workbench::Workbench;

use crate::calls::{Buffers, Call, Caller, Model};
use crate::comparison::{Compared, Comparison, Sides};
use crate::lists::{for_refused, of_length, random_word, MAKERS};
use crate::Counts;

/// A file, its place among those of the seed, and the model of it.
pub struct Subject {
    pub number: usize,
    pub file: Vec<u8>,
    pub model: Model,
}

impl Subject {
    pub fn new(number: usize, file: Vec<u8>) -> Subject {
        let model = Model::of(&file);
        Subject {
            number,
            file,
            model,
        }
    }
}

/// The random files of a seed.
pub fn subjects(seed: u64, times: usize) -> Vec<Subject> {
    subjects_of(random::files(seed, times))
}

pub fn subjects_of(files: Vec<Vec<u8>>) -> Vec<Subject> {
    let files = files.into_iter().enumerate();
    files.map(|(at, file)| Subject::new(at, file)).collect()
}

/// Makes all calls on every file, with a model that works in the given way.
pub fn compare_all(
    subjects: &[Subject],
    library: &Caller,
    workings: Workings,
    seed: u64,
) -> Compared<Counts> {
    compare_by(subjects, library, |model| model.with(workings), seed)
}

/// Makes all calls on every file, with another model than the subject's.
pub fn compare_by(
    subjects: &[Subject],
    library: &Caller,
    other: impl Fn(&Model) -> Model,
    seed: u64,
) -> Compared<Counts> {
    let mut counts = Counts::default();
    for subject in subjects {
        let model = other(&subject.model);
        let model = |call, buffers: &mut Buffers| model.call(call, buffers);
        counts += compare(subject, Sides::new(library, &model), seed)?;
    }
    Ok(counts)
}

/// Makes all calls on a file.
pub fn compare(subject: &Subject, sides: Sides, seed: u64) -> Compared<Counts> {
    let number = subject.number;
    let mut rng = Prng::new(seed ^ (number as u64) << 32);
    let buffers = Buffers::of_column(lent(&mut rng, &subject.file));
    let mut pair = Comparison::new(format!("{seed}-{number}"), sides, buffers);
    pair.call(Call::Judge)?;
    match subject.model.simulator.design() {
        Err(_) => each_call(&mut pair, &for_refused(&mut rng))?,
        Ok(design) => accepted(&mut pair, &mut rng, design)?,
    }
    pair.counts.files = 1;
    Ok(pair.counts)
}

/// Lists with as many edits as one may have, one less and one more, on the stale table of an accepted file.
pub fn compare_long_lists(subject: &Subject, sides: Sides, seed: u64) -> Compared<Counts> {
    let design = subject.model.simulator.design();
    let design = design.expect("an accepted file");
    let mut rng = Prng::new(seed ^ subject.number as u64);
    let buffers = Buffers::of_column(lent(&mut rng, &subject.file));
    let name = format!("{seed}-list-{}", subject.number);
    let mut pair = Comparison::new(name, sides, buffers);
    for length in MOST_EDITS - 1..=MOST_EDITS + 1 {
        scramble(&mut rng, design, &mut pair.buffers.column);
        pair.buffers.column.values = Lent::bytes(&bits(&mut rng, SIGNALS * design.n));
        let list = of_length(&mut rng, design, &pair.buffers.column, length);
        edit(&mut pair, &list)?;
    }
    Ok(pair.counts)
}

/// The calls on a file that is accepted.
fn accepted(pair: &mut Comparison, rng: &mut Prng, design: &Design) -> Compared {
    clocks(pair, rng)?;
    edits(pair, rng, design)?;
    any_state(pair, rng, design)?;
    stale_edits(pair, rng, design)?;
    spoiled(pair, rng, design)
}

/// Buffers of junk, with the lengths that the file names if it is whole.
pub(crate) fn lent(rng: &mut Prng, file: &[u8]) -> Workbench {
    let n = usize::from(file.get(3).copied().unwrap_or(1));
    let m = usize::from(file.get(4).copied().unwrap_or(0));
    let mut bytes = |count| Lent::bytes(&junk(rng, count));
    Workbench {
        file: Lent::bytes(file),
        flops: bytes(n),
        inputs: bytes(m),
        values: bytes(SIGNALS * n),
        contents: Lent::words(&vec![0xDEAD_BEEF_DEAD_BEEF; 4 * n]),
    }
}

pub fn junk(rng: &mut Prng, count: usize) -> Vec<u8> {
    (0..count).map(|_| rng.number() as u8).collect()
}

fn bits(rng: &mut Prng, count: usize) -> Vec<u8> {
    (0..count).map(|_| rng.below(2) as u8).collect()
}

/// Each call once, all from the same buffers.
fn each_call(pair: &mut Comparison, edits: &[Change]) -> Compared {
    let before = pair.buffers.column.clone();
    for call in [Call::PowerUp, Call::Settle, Call::Clock] {
        pair.buffers.column = before.clone();
        pair.call(call)?;
    }
    pair.buffers.column = before;
    edit(pair, edits)
}

fn edit(pair: &mut Comparison, edits: &[Change]) -> Compared {
    pair.buffers.edits = Lent::edits(edits);
    pair.call(Call::Edit)
}

/// Power up, then clocks and a settle with inputs that change.
fn clocks(pair: &mut Comparison, rng: &mut Prng) -> Compared {
    pair.call(Call::PowerUp)?;
    for call in [Call::Clock, Call::Clock, Call::Clock, Call::Settle] {
        let m = pair.buffers.column.inputs.get().len();
        pair.buffers.column.inputs = Lent::bytes(&bits(rng, m));
        pair.call(call)?;
    }
    Ok(())
}

/// Edits from a settled table, list after list.
fn edits(pair: &mut Comparison, rng: &mut Prng, design: &Design) -> Compared {
    for list in MAKERS.repeat(3) {
        let list = list(rng, design, &pair.buffers.column);
        edit(pair, &list)?;
    }
    Ok(())
}

/// Clocks from a state that has nothing to do with the file's.
fn any_state(pair: &mut Comparison, rng: &mut Prng, design: &Design) -> Compared {
    scramble(rng, design, &mut pair.buffers.column);
    pair.call(Call::Settle)?;
    pair.buffers.column.values = Lent::bytes(&junk(rng, SIGNALS * design.n));
    pair.call(Call::Clock)?;
    pair.call(Call::Clock)
}

/// Leaves a random state, with junk for values.
pub(crate) fn scramble(rng: &mut Prng, design: &Design, bench: &mut Workbench) {
    let word = |table| random_word(rng, design, table);
    let contents: Vec<u64> = (0..4 * design.n).map(word).collect();
    bench.contents = Lent::words(&contents);
    bench.flops = Lent::bytes(&junk(rng, design.n));
    bench.inputs = Lent::bytes(&bits(rng, design.m));
    bench.values = Lent::bytes(&junk(rng, SIGNALS * design.n));
}

/// Edits of tables of random bits, which aren't settled.
fn stale_edits(pair: &mut Comparison, rng: &mut Prng, design: &Design) -> Compared {
    for list in MAKERS.repeat(2) {
        pair.buffers.column.values = Lent::bytes(&bits(rng, SIGNALS * design.n));
        let list = list(rng, design, &pair.buffers.column);
        edit(pair, &list)?;
    }
    Ok(())
}

/// A number that is the given one to whoever drops its high bits, or a large one.
pub fn far_number(rng: &mut Prng, number: usize) -> usize {
    *rng.pick(&[
        number + 256,
        number + (1 << 16),
        number + (1 << 32),
        number + (1 << 63),
        usize::MAX - number,
        usize::MAX,
    ])
}

/// Buffers that have to be refused by some calls or all, made from good ones.
fn spoiled(pair: &mut Comparison, rng: &mut Prng, design: &Design) -> Compared {
    pair.buffers.column.values = Lent::bytes(&bits(rng, SIGNALS * design.n));
    let good = pair.buffers.column.clone();
    for _ in 0..3 {
        pair.buffers.column = good.clone();
        for _ in 0..rng.from_to(1, 2) {
            spoil(rng, design, &mut pair.buffers.column);
        }
        let list = rng.pick(&MAKERS);
        let list = list(rng, design, &pair.buffers.column);
        each_call(pair, &list)?;
    }
    Ok(())
}

fn spoil(rng: &mut Prng, design: &Design, bench: &mut Workbench) {
    match rng.below(7) {
        0 => bench.contents = resized(rng, &bench.contents),
        1 => bench.flops = resized(rng, &bench.flops),
        2 => bench.inputs = resized(rng, &bench.inputs),
        3 => bench.values = resized(rng, &bench.values),
        4 => put(rng, bench.inputs.lend()),
        5 => put(rng, bench.values.lend()),
        _ => {
            let table = rng.below(4 * design.n);
            if let Some(word) = bench.contents.lend().get_mut(table) {
                *word |= 1 << rng.from_to(32, 63);
            }
        }
    }
}

/// A length that is hardly ever the right one, near it or not.
pub fn other_length(rng: &mut Prng, length: usize) -> usize {
    match rng.below(5) {
        0 => length.saturating_sub(1),
        1 => length + 1,
        2 => 2 * length,
        3 => 0,
        _ => rng.below(300),
    }
}

fn resized<T: Copy + PartialEq + Default>(rng: &mut Prng, buffer: &Lent<T>) -> Lent<T> {
    let length = other_length(rng, buffer.get().len());
    buffer.resized(length, T::default())
}

/// A byte that isn't 0 or 1, anywhere.
fn put(rng: &mut Prng, bytes: &mut [u8]) {
    if !bytes.is_empty() {
        let at = rng.below(bytes.len());
        bytes[at] = *rng.pick(&[2, 3, 128, 254, 255]);
    }
}
