//! Random slice files: sound ones, looped ones and damaged ones.

use crate::column::Column;
use crate::prng::Prng;
use model::layout::*;

/// The seed of the files, the same in every run; `SEED` replaces it.
pub fn seed() -> u64 {
    from_environment("SEED").unwrap_or(20_240_607)
}

/// How many times the usual number of random files; `TIMES` replaces it.
pub fn times() -> usize {
    from_environment("TIMES").unwrap_or(1)
}

fn from_environment<T: std::str::FromStr>(name: &str) -> Option<T> {
    let text = std::env::var(name).ok()?;
    match text.parse() {
        Ok(number) => Some(number),
        Err(_) => panic!("{name} has to be a number, not {text:?}"),
    }
}

/// All random files of a seed.
pub fn files(seed: u64, times: usize) -> Vec<Vec<u8>> {
    let mut rng = Prng::new(seed);
    let mut files = vec![];
    for _ in 0..times {
        files.extend((0..400).map(|_| sound_file(&mut rng)));
        files.extend((0..300).map(|_| rewired_file(&mut rng)));
        files.extend((0..300).map(|_| wild_file(&mut rng)));
        files.extend((0..500).map(|_| local_file(&mut rng)));
        files.extend((0..600).map(|_| damaged_file(&mut rng)));
        files.extend((0..200).map(|_| miscombined_file(&mut rng)));
        files.extend((0..50).map(|_| lengthened_file(&mut rng)));
        files.extend(headers_replaced(&mut rng));
        files.extend(choices_replaced(&mut rng));
        files.extend(pins_replaced(&mut rng));
        files.extend(bits_set(&mut rng));
        files.extend((0..30).map(|_| chained_file(&mut rng)));
        files.extend(cut_files(&mut rng));
    }
    files
}

/// A column without loops: every slice reads only slices before it in a fixed
/// direction, flip-flops, inputs, constants, and its own lower letters.
fn sound_file(rng: &mut Prng) -> Vec<u8> {
    sound_column(rng).bytes()
}

/// A sound column with some pins driven by anything there is, most of them near.
fn rewired_file(rng: &mut Prng) -> Vec<u8> {
    rewired_column(rng).bytes()
}

/// A column where pins are driven by anything there is, few or many of them.
fn wild_file(rng: &mut Prng) -> Vec<u8> {
    let (n, m) = random_sizes(rng);
    let mut column = settings(rng, n, m);
    let wired = *rng.pick(&[1, 3, 10, 30, 100]);
    for slice in 0..n {
        for pin in 0..PIN_COUNT {
            let code = if rng.chance(wired) {
                any_output(rng, n)
            } else {
                constant_or_input(rng, m)
            };
            column.drive(slice, pin, code);
        }
    }
    column.bytes()
}

/// A small column with a few wires inside slices or to the next one, so that
/// what one signal reads decides.
fn local_file(rng: &mut Prng) -> Vec<u8> {
    let n = rng.from_to(1, 3);
    let mut column = settings(rng, n, 0);
    for _ in 0..rng.from_to(1, 5) {
        let slice = rng.below(n);
        let from = if rng.chance(70) { slice } else { rng.below(n) };
        let output = if rng.chance(70) {
            rng.from_to(4, 7)
        } else {
            rng.below(12)
        };
        let pin = if rng.chance(50) {
            bypass_pin(rng.below(4))
        } else {
            rng.below(PIN_COUNT)
        };
        column.drive(slice, pin, output_code(from, output));
    }
    column.bytes()
}

/// A file, sound but for what follows it, often of 64 slices.
fn lengthened_file(rng: &mut Prng) -> Vec<u8> {
    let column = if rng.chance(50) {
        settings(rng, 64, 0)
    } else {
        rewired_column(rng)
    };
    let mut file = column.bytes();
    file.extend((0..rng.from_to(1, 300)).map(|_| rng.number() as u8));
    file
}

/// A sound column with one slice that rule 6 may forbid in one part, and
/// sometimes a driver there that may not exist.
fn miscombined_file(rng: &mut Prng) -> Vec<u8> {
    let mut column = sound_column(rng);
    let n = column.slices.len();
    let slice = rng.below(n);
    let letter = rng.below(4);
    if rng.chance(30) {
        let code = *rng.pick(&edge_codes(n, usize::from(column.m)));
        column.drive(slice, rng.below(PIN_COUNT), code);
    }
    let body = &mut column.slices[slice];
    match rng.below(8) {
        0 => body[KIND] = 0,
        1 => body[MODE + letter] = 1,
        2 => body[MODE + letter] = 2,
        3 => body[MODE + D] = 0,
        4 => body[SHIFT_DATA + letter] = 1,
        5 => body[SHIFT_DATA + D] = 1,
        6 => body[CONTENTS + 8 * letter + rng.from_to(4, 7)] = 1 << rng.below(8),
        _ => column.slices[0][CARRY_START] = 3,
    }
    column.bytes()
}

fn sound_column(rng: &mut Prng) -> Column {
    let (n, m) = random_sizes(rng);
    let mut column = settings(rng, n, m);
    let upward = rng.chance(70);
    if !upward {
        forget_slices_below(&mut column);
    }
    let wired = *rng.pick(&[20, 60, 95]);
    for slice in 0..n {
        for pin in 0..PIN_COUNT {
            let code = if rng.chance(wired) {
                sound_output(rng, n, slice, pin, upward)
            } else {
                constant_or_input(rng, m)
            };
            column.drive(slice, pin, code);
        }
    }
    column
}

fn rewired_column(rng: &mut Prng) -> Column {
    let mut column = sound_column(rng);
    let n = column.slices.len();
    for _ in 0..rng.from_to(1, 4) {
        let slice = rng.below(n);
        let from = if rng.chance(60) { slice } else { rng.below(n) };
        column.drive(
            slice,
            rng.below(PIN_COUNT),
            output_code(from, rng.below(12)),
        );
    }
    column
}

fn random_sizes(rng: &mut Prng) -> (usize, usize) {
    let n = match rng.below(20) {
        0..=12 => rng.from_to(1, 4),
        13..=17 => rng.from_to(5, 20),
        18 => rng.from_to(1, 64),
        _ => *rng.pick(&[63, 64]),
    };
    let m = match rng.below(4) {
        0 => 0,
        1 => rng.from_to(1, 4),
        2 => rng.from_to(0, 64),
        _ => 64,
    };
    (n, m)
}

/// Random choices and contents that rules 5 and 6 allow, pins still at 0.
fn settings(rng: &mut Prng, n: usize, m: usize) -> Column {
    let mut column = Column::zeros(n, m as u8);
    for slice in 0..n {
        for letter in LETTERS {
            column.fill(slice, letter, random_word(rng));
        }
        let body = &mut column.slices[slice];
        match rng.below(4) {
            0 => {}
            1 => body[KIND] = 1,
            2 => set_memory(rng, body),
            _ => set_shift(rng, body),
        }
        for letter in LETTERS {
            body[CARRY_DATA + letter] = rng.below(2) as u8;
            body[MUX + letter] = rng.below(5) as u8;
            body[MAIN + letter] = rng.below(6) as u8;
            body[SECOND + letter] = rng.below(2) as u8;
        }
        body[CARRY_START] = rng.below(if slice == 0 { 3 } else { 4 }) as u8;
        body[POWER_UP] = rng.number() as u8;
        body[SET_RESET_VALUES] = rng.number() as u8;
        body[SET_RESET_PIN] = rng.below(2) as u8;
    }
    column
}

/// Contents that ignore all pins, some or none.
fn random_word(rng: &mut Prng) -> u64 {
    match rng.below(4) {
        0 => 0,
        1 => u64::MAX,
        2 => 0x6996_9669_9669_6996,
        _ => rng.number(),
    }
}

fn set_memory(rng: &mut Prng, body: &mut [u8; SLICE_BODY]) {
    body[KIND] = 1;
    for letter in [A, B, C] {
        body[MODE + letter] = rng.below(2) as u8;
    }
    body[MODE + D] = 1;
}

fn set_shift(rng: &mut Prng, body: &mut [u8; SLICE_BODY]) {
    body[KIND] = 1;
    for letter in LETTERS {
        if rng.chance(70) {
            body[MODE + letter] = 2;
            body[CONTENTS + 8 * letter + 4..][..4].fill(0);
        }
    }
    for letter in [A, B, C] {
        if body[MODE + letter] == 2 && body[MODE + letter + 1] == 2 {
            body[SHIFT_DATA + letter] = rng.below(2) as u8;
        }
    }
}

/// Carry starts that read the slice below become others.
fn forget_slices_below(column: &mut Column) {
    for body in &mut column.slices {
        body[CARRY_START] %= 3;
    }
}

pub(crate) fn output_code(slice: usize, output: usize) -> u16 {
    (4096 + 16 * slice + output) as u16
}

fn constant_or_input(rng: &mut Prng, m: usize) -> u16 {
    if m > 0 && rng.chance(50) {
        256 + rng.below(m) as u16
    } else {
        constant_or_open(rng)
    }
}

fn constant_or_open(rng: &mut Prng) -> u16 {
    rng.below(3) as u16
}

fn any_output(rng: &mut Prng, n: usize) -> u16 {
    output_code(rng.below(n), rng.below(12))
}

/// A driver that closes no loop: a main flip-flop, an output of a slice further
/// down (or up), or a lower letter's O6 of the own slice. What is read at the
/// edge only may be driven by anything.
fn sound_output(rng: &mut Prng, n: usize, slice: usize, pin: usize, upward: bool) -> u16 {
    if pin >= CE {
        return any_output(rng, n);
    }
    let (first, count) = if upward {
        (0, slice)
    } else {
        (slice + 1, n - slice - 1)
    };
    // Bypass pins may read all four letters: no table reads them.
    let lower_letters = if pin < bypass_pin(A) { pin / 6 } else { 4 };
    match rng.below(4) {
        0 if lower_letters > 0 => output_code(slice, rng.below(lower_letters)),
        1 => output_code(rng.below(n), rng.from_to(8, 11)),
        _ if count > 0 => {
            // Near slices make deep chains.
            let near = rng.below(count.min(2));
            let far = rng.below(count);
            let back = if rng.chance(70) { near } else { far };
            let from = if upward {
                slice - 1 - back
            } else {
                first + back
            };
            output_code(from, rng.below(12))
        }
        _ => constant_or_open(rng),
    }
}

/// A file with one to three damages, of kinds that may hide each other.
fn damaged_file(rng: &mut Prng) -> Vec<u8> {
    let column = if rng.chance(70) {
        sound_column(rng)
    } else {
        rewired_column(rng)
    };
    let n = column.slices.len();
    let m = usize::from(column.m);
    let mut file = column.bytes();
    let damages = *rng.pick(&[1, 1, 2, 2, 3]);
    // Damages to one slice meet each other more often.
    let same = rng.chance(50).then(|| rng.below(n));
    for _ in 0..damages {
        let slice = same.unwrap_or_else(|| rng.below(n));
        damage(rng, &mut file, n, m, slice);
    }
    file
}

fn damage(rng: &mut Prng, file: &mut Vec<u8>, n: usize, m: usize, slice: usize) {
    let record = record_start(slice);
    let body = record + HEADER;
    match rng.below(12) {
        0 => put(file, rng.below(SIZE_RECORD), edge_byte(rng)),
        1 => put(file, record + rng.below(HEADER), edge_byte(rng)),
        2 => put(
            file,
            record_start(n) + rng.below(END_RECORD),
            edge_byte(rng),
        ),
        3 => put(file, body + NUMBER, edge_byte(rng)),
        4 => put(file, body + rng.from_to(KIND, CONTENTS - 1), edge_byte(rng)),
        5 => put(
            file,
            body + rng.from_to(CARRY_DATA, POWER_UP - 1),
            edge_byte(rng),
        ),
        6 => put(file, body + rng.below(SLICE_BODY), rng.number() as u8),
        7 => put(
            file,
            body + rng.from_to(CONTENTS, CARRY_DATA - 1),
            1 << rng.below(8),
        ),
        8 => {
            let code = *rng.pick(&edge_codes(n, m));
            let at = body + PINS + 2 * rng.below(PIN_COUNT);
            put(file, at, code as u8);
            put(file, at + 1, (code >> 8) as u8);
        }
        9 => file.truncate(rng.below(file.len() + 1)),
        10 => file.extend((0..rng.from_to(1, 200)).map(|i| i as u8)),
        _ => move_record(rng, file, record),
    }
}

/// Replaces a byte, if an earlier damage left it there.
fn put(file: &mut [u8], at: usize, byte: u8) {
    if let Some(place) = file.get_mut(at) {
        *place = byte;
    }
}

/// Takes a slice record out, or doubles it.
fn move_record(rng: &mut Prng, file: &mut Vec<u8>, record: usize) {
    if file.len() < record + SLICE_RECORD {
        return;
    }
    let bytes: Vec<u8> = file[record..record + SLICE_RECORD].to_vec();
    if rng.chance(50) {
        file.drain(record..record + SLICE_RECORD);
    } else {
        file.splice(record..record, bytes);
    }
}

fn edge_byte(rng: &mut Prng) -> u8 {
    *rng.pick(&[0, 1, 2, 3, 4, 5, 6, 7, 63, 64, 65, 123, 124, 125, 128, 255])
}

/// Pin codes at the edges of what exists in a column of n slices and m inputs.
fn edge_codes(n: usize, m: usize) -> Vec<u16> {
    let last = 4096 + 16 * (n - 1);
    let mut codes = vec![0, 1, 2, 3, 128, 255, 256, 319, 320, 4095, 4096];
    codes.extend([4107, 4108, 4111, 5115, 5116, 5120, 8192, 32768, 65535]);
    codes.extend([255 + m, 256 + m, 257 + m]);
    codes.extend([last, last + 11, last + 12, last + 15, last + 16]);
    codes.into_iter().map(|code| code as u16).collect()
}

/// Every byte of the headers, the size record's body and the slice numbers of a
/// file, replaced by values at their edges.
fn headers_replaced(rng: &mut Prng) -> Vec<Vec<u8>> {
    let n = 3;
    let file = small_column(rng, n).bytes();
    let records = [0, record_start(0), record_start(1), record_start(2)];
    let mut places: Vec<usize> = records.into_iter().flat_map(|at| at..at + 4).collect();
    places.push(HEADER + 1);
    places.extend(record_start(n)..file.len());
    let values = [0, 1, 2, 3, 4, 64, 65, 123, 124, 125, 255];
    let mut files = vec![];
    for place in places {
        for value in values {
            let mut file = file.clone();
            file[place] = value;
            files.push(file);
        }
    }
    files
}

/// Every choice byte of a slice, replaced by each value from 0 to 6 and by 255.
fn choices_replaced(rng: &mut Prng) -> Vec<Vec<u8>> {
    let column = small_column(rng, 2);
    let choices = (KIND..CONTENTS).chain(CARRY_DATA..POWER_UP);
    let mut files = vec![];
    for at in choices.chain([SET_RESET_PIN]) {
        for value in [0, 1, 2, 3, 4, 5, 6, 255] {
            files.push(column.clone().set(1, at, value).bytes());
        }
    }
    files
}

/// Each of the 31 pins driven by codes at their edges, in a slice that shifts
/// or in another.
fn pins_replaced(rng: &mut Prng) -> Vec<Vec<u8>> {
    let mut column = small_column(rng, 3);
    set_all_shift(&mut column.slices[1]);
    let mut files = vec![];
    for pin in 0..PIN_COUNT {
        for code in edge_codes(3, usize::from(column.m)) {
            let mut column = column.clone();
            column.drive(rng.below(3), pin, code);
            files.push(column.bytes());
        }
    }
    files
}

/// Each of bits 32 to 63 of each letter set in a slice whose letters all shift.
fn bits_set(rng: &mut Prng) -> Vec<Vec<u8>> {
    let mut files = vec![];
    for letter in LETTERS {
        for bit in 32..64 {
            let mut column = small_column(rng, 2);
            set_all_shift(&mut column.slices[1]);
            column.fill(1, letter, rng.number() >> 32 | 1 << bit);
            files.push(column.bytes());
        }
    }
    files
}

/// A sound column through which carries run, from slice to slice.
fn chained_file(rng: &mut Prng) -> Vec<u8> {
    let n = *rng.pick(&[2, 3, 8, 63, 64]);
    let mut column = small_column(rng, n);
    for slice in 1..n {
        if rng.chance(95) {
            column.slices[slice][CARRY_START] = 3;
        }
        for letter in LETTERS {
            // Such a table passes the carry on.
            if column.slices[slice][MODE + letter] == 0 && rng.chance(80) {
                column.fill(slice, letter, u64::MAX);
            }
        }
    }
    column.bytes()
}

/// A sound file cut at every length.
fn cut_files(rng: &mut Prng) -> Vec<Vec<u8>> {
    let file = small_column(rng, 2).bytes();
    (0..file.len())
        .map(|length| file[..length].to_vec())
        .collect()
}

/// All four letters shift, from their bypass pins, with contents of zeros.
fn set_all_shift(body: &mut [u8; SLICE_BODY]) {
    body[KIND] = 1;
    body[MODE..CARRY_DATA].fill(0);
    body[MODE..MODE + 4].fill(2);
}

/// A sound column of n slices, wired upward.
pub(crate) fn small_column(rng: &mut Prng, n: usize) -> Column {
    let m = rng.from_to(1, 63);
    let mut column = settings(rng, n, m);
    for slice in 0..n {
        for pin in 0..PIN_COUNT {
            let code = if rng.chance(50) {
                sound_output(rng, n, slice, pin, true)
            } else {
                constant_or_input(rng, m)
            };
            column.drive(slice, pin, code);
        }
    }
    column
}
