//! A file fed to a reader run by run, random but the same for a seed and a file.

use ::calls::{STATE, STORE};
use testkit::prng::Prng;
use workbench::lent::Lent;

use crate::calls::{Buffers, Call};
use crate::columns::{far_number, junk, other_length};
use crate::comparison::{Compared, Comparison, Sides};
use crate::Counts;

/// The most slices a file has: the state's second word counts them.
const MOST_SLICES: usize = 64;

/// Feeds every file to a reader.
pub fn compare_all(files: &[Vec<u8>], sides: Sides, seed: u64) -> Compared<Counts> {
    let mut counts = Counts::default();
    for (number, file) in files.iter().enumerate() {
        counts += compare(number, file, sides, seed)?;
    }
    Ok(counts)
}

/// Feeds a file, its place among those of the seed given, to a reader that then is fed more and scribbled on.
pub fn compare(number: usize, file: &[u8], sides: Sides, seed: u64) -> Compared<Counts> {
    let mut rng = Prng::new(seed.swap_bytes() ^ (number as u64) << 32);
    let reader = Buffers::of_reader(&[0; STATE], &junk(&mut rng, STORE), &[]);
    let mut pair = Comparison::new(format!("{seed}-reader-{number}"), sides, reader);
    session(&mut pair, &mut rng, file)?;
    after_the_verdict(&mut pair, &mut rng)?;
    scribbled_on(&mut pair, &mut rng, file)?;
    pair.counts.sessions = 1;
    Ok(pair.counts)
}

fn feed(pair: &mut Comparison, run: &[u8], last: u8) -> Compared {
    pair.buffers.run = Lent::bytes(run);
    pair.call(Call::Feed { last })
}

/// A byte that says that there is no more.
fn end(rng: &mut Prng) -> u8 {
    *rng.pick(&[1, 2, 128, 255])
}

/// A file in random runs, some of them empty, often the end with the last one. Some files are followed by junk, also by more than the store
/// can hold.
fn session(pair: &mut Comparison, rng: &mut Prng, file: &[u8]) -> Compared {
    let after = *rng.pick(&[0, 0, 0, 0, 0, 0, 1, 3, 200, 9_000]);
    let bytes = [file, &junk(rng, after)].concat();
    let longest = *rng.pick(&[bytes.len() / 20 + 1, 200, 1_000, 20_000]);
    let mut rest = &bytes[..];
    while !rest.is_empty() {
        let length = if rng.chance(15) {
            0
        } else {
            rng.from_to(1, longest)
        };
        let (run, after) = rest.split_at(length.min(rest.len()));
        rest = after;
        let is_last = rest.is_empty() && rng.chance(50);
        feed(pair, run, if is_last { end(rng) } else { 0 })?;
        if rng.chance(5) {
            other_lengths(pair, rng)?;
        }
    }
    feed(pair, &[], end(rng))
}

/// A call with a state or a store of another length, after which the reader goes on as if it hadn't been made.
fn other_lengths(pair: &mut Comparison, rng: &mut Prng) -> Compared {
    let before = pair.buffers.clone();
    if rng.chance(50) {
        let length = other_length(rng, STATE);
        pair.buffers.state = before.state.resized(length, 0);
    } else {
        let length = other_length(rng, STORE);
        pair.buffers.store = before.store.resized(length, 0);
    }
    feed(pair, &junk(rng, 3), rng.below(2) as u8)?;
    pair.buffers = before;
    Ok(())
}

/// The verdict is given again, whatever comes.
fn after_the_verdict(pair: &mut Comparison, rng: &mut Prng) -> Compared {
    feed(pair, &[], 0)?;
    other_lengths(pair, rng)?;
    let length = *rng.pick(&[0, 1, 300, 9_000]);
    feed(pair, &junk(rng, length), rng.below(3) as u8)
}

/// Calls on states that no call left, where it is settled what they do.
fn scribbled_on(pair: &mut Comparison, rng: &mut Prng, file: &[u8]) -> Compared {
    for _ in 0..3 {
        pair.buffers = scribbled(rng, file);
        let last = match is_free(&pair.buffers) {
            true => end(rng),
            false => rng.below(2) as u8,
        };
        pair.call(Call::Feed { last })?;
    }
    Ok(())
}

/// A reader with the file in its store, whose words may be anything, and a run of junk.
pub fn scribbled(rng: &mut Prng, file: &[u8]) -> Buffers {
    let mut store = junk(rng, STORE);
    let length = file.len().min(STORE);
    store[..length].copy_from_slice(&file[..length]);
    let kept = match rng.below(4) {
        0 => length,
        1 => *rng.pick(&[STORE - 1, STORE, STORE + 1]),
        2 => far_number(rng, length),
        _ => rng.below(STORE),
    };
    let passed = match rng.below(4) {
        0 => *rng.pick(&[MOST_SLICES, MOST_SLICES + 1]),
        1 => far_number(rng, 0),
        _ => rng.below(MOST_SLICES),
    };
    let given = match rng.below(8) {
        0 => rng.number() << 8 | rng.below(12) as u64,
        1 => 1 << rng.from_to(8, 63),
        _ => 0,
    };
    let run = *rng.pick(&[0, 1, 3, 127, 300, 9_000]);
    let state = [kept as u64, passed as u64, given];
    Buffers::of_reader(&state, &store, &junk(rng, run))
}

/// Whether the answer is free, without an end and on a state that no call left.
pub fn is_free(buffers: &Buffers) -> bool {
    let (kept, run) = (buffers.state.get()[0], buffers.run.get().len());
    let in_range = kept <= STORE as u64 && buffers.state.get()[1] <= MOST_SLICES as u64;
    in_range && buffers.state.get()[2] == 0 && kept as usize + run <= STORE
}

/// Two fresh readers, with a store that holds something else already.
fn fresh<'a>(name: &str, sides: Sides<'a>) -> Comparison<'a> {
    let reader = Buffers::of_reader(&[0; STATE], &[7; STORE], &[]);
    Comparison::new(name.to_string(), sides, reader)
}

/// A file in two runs, cut at each place; the end comes with the second run, or after it.
pub fn compare_cuts(file: &[u8], sides: Sides) -> Compared<Counts> {
    let mut counts = Counts::default();
    for at in 0..=file.len() {
        let mut pair = fresh(&format!("cut-{at}"), sides);
        let (first, second) = file.split_at(at);
        feed(&mut pair, first, 0)?;
        feed(&mut pair, second, (at % 2) as u8)?;
        feed(&mut pair, &[], 1)?;
        pair.counts.sessions = 1;
        counts += pair.counts;
    }
    Ok(counts)
}

/// A file byte by byte up to its verdict, with some empty runs before each byte; the end comes after it.
pub fn compare_bytes(file: &[u8], empty: usize, sides: Sides) -> Compared<Counts> {
    let mut pair = fresh("bytes", sides);
    let runs = |byte| [&[][..]].repeat(empty).into_iter().chain([byte]);
    for run in file.chunks(1).flat_map(runs) {
        feed(&mut pair, run, 0)?;
        if pair.buffers.state.get()[2] != 0 {
            break;
        }
    }
    feed(&mut pair, &[], 1)?;
    pair.counts.sessions = 1;
    Ok(pair.counts)
}
