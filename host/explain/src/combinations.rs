//! Choices that don't go together: refusal 6, each part of its rule for each letter that breaks it.

use model::layout::*;
use model::rules::Combination;
use model::Rules;

use crate::fault::Fault;
use crate::slice::{choice_name, values, Slice};
use crate::words::list;

pub fn faults(rules: &Rules, slice: &Slice) -> Vec<Fault> {
    let broken = |part: &&Combination| part.found_in(&slice.body);
    let parts = rules.combinations.iter().filter(broken);
    parts.flat_map(|&part| of_part(part, slice)).collect()
}

/// The faults of a part that is broken: one for each letter that breaks it, or one for the slice.
fn of_part(part: Combination, slice: &Slice) -> Vec<Fault> {
    let letters = LETTERS
        .into_iter()
        .filter(|&letter| breaks(part, slice, letter));
    letters.map(|letter| fault(part, slice, letter)).collect()
}

/// Whether a letter is one of those that break a part.
fn breaks(part: Combination, slice: &Slice, letter: usize) -> bool {
    let mode = |letter: usize| slice.body[MODE + letter];
    let cascade = slice.body[SHIFT_DATA + letter] == 1;
    match part {
        Combination::SliceLWithMode => mode(letter) != 0,
        Combination::MemoryWithoutD => mode(letter) == 1,
        Combination::CascadeAtD => letter == D,
        Combination::CascadeIntoNoShift => cascade && mode(letter) != 2,
        Combination::CascadeFromNoShift => letter != D && cascade && mode(letter + 1) != 2,
        Combination::ShiftWithHighBits => mode(letter) == 2 && high_bits(slice, letter) != 0,
        // These are about the slice, and are listed once.
        Combination::MemoryAndShift | Combination::StartBelowSliceZero => letter == A,
    }
}

/// Bits 32 to 63 of a letter's contents.
fn high_bits(slice: &Slice, letter: usize) -> u64 {
    contents(&slice.body, letter) >> 32 << 32
}

fn fault(part: Combination, slice: &Slice, letter: usize) -> Fault {
    let name = LETTER_NAMES[letter];
    let mode = MODE + letter;
    match part {
        Combination::SliceLWithMode => {
            let stands = format!("{} in a SLICEL", slice.choice(mode));
            let may = format!("{} in a SLICEL; the others in a SLICEM", values(mode)[0]);
            at_choice(slice, mode, stands, may)
        }
        Combination::MemoryAndShift => memory_and_shift(slice),
        Combination::MemoryWithoutD => {
            let stands = format!("letter {name} is in memory mode and D is not");
            let may = "memory mode where D is in it too: D's pins are the write address";
            at_choice(slice, mode, stands, may.to_string())
        }
        Combination::CascadeAtD
        | Combination::CascadeIntoNoShift
        | Combination::CascadeFromNoShift => cascade(part, slice, letter),
        Combination::ShiftWithHighBits => shift_with_high_bits(slice, letter),
        Combination::StartBelowSliceZero => {
            let others = values(CARRY_START)[..3].join(", ");
            let may = format!("{others}; no slice is below slice 0");
            at_choice(slice, CARRY_START, slice.choice(CARRY_START), may)
        }
    }
}

fn at_choice(slice: &Slice, at: usize, stands: String, may: String) -> Fault {
    slice.fault(6, &choice_name(at), at..at + 1, stands, may)
}

fn memory_and_shift(slice: &Slice) -> Fault {
    let letters_in = |mode: u8| {
        let letters = LETTERS.into_iter().filter(|x| slice.body[MODE + x] == mode);
        let names: Vec<String> = letters.map(|x| LETTER_NAMES[x].to_string()).collect();
        list(&names)
    };
    let (memory, shift) = (letters_in(1), letters_in(2));
    let stands = format!("memory mode at {memory}, shift mode at {shift}");
    let may = "memory mode or shift mode in one slice, not both".to_string();
    slice.fault(6, "modes of letters A to D", MODE..MODE + 4, stands, may)
}

/// Cascade at a letter that may not have it, by itself or by the next letter.
fn cascade(part: Combination, slice: &Slice, letter: usize) -> Fault {
    let at = SHIFT_DATA + letter;
    let [bypass, cascade] = &values(at)[..] else {
        panic!("shift data is one of two");
    };
    let mode = |letter: usize| {
        let mode = slice.choice(MODE + letter);
        format!("the mode of {} is {mode}", LETTER_NAMES[letter])
    };
    let (stands, may) = match part {
        Combination::CascadeAtD => {
            let why = "no letter follows D whose bit 31 it could take";
            (cascade.clone(), format!("{bypass}: {why}"))
        }
        Combination::CascadeIntoNoShift => {
            let name = LETTER_NAMES[letter];
            let may = format!("{bypass}; {cascade} where {name} is in shift mode");
            (format!("{cascade}, and {}", mode(letter)), may)
        }
        _ => {
            let next = format!("{}, whose bit 31 it takes,", LETTER_NAMES[letter + 1]);
            let may = format!("{bypass}; {cascade} where {next} is in shift mode");
            (format!("{cascade}, and {}", mode(letter + 1)), may)
        }
    };
    at_choice(slice, at, stands, may)
}

fn shift_with_high_bits(slice: &Slice, letter: usize) -> Fault {
    let word = contents(&slice.body, letter);
    let bits = set_bits(high_bits(slice, letter));
    let stands = format!("{word:#x} in shift mode: {bits} set");
    let what = format!("contents of {}", LETTER_NAMES[letter]);
    let may = "bits 32 to 63 all 0 in shift mode".to_string();
    slice.fault(6, &what, contents_bytes(letter), stands, may)
}

/// `bit 40 is`, `bits 32 to 35 and 63 are`.
fn set_bits(word: u64) -> String {
    let is_set = |bit: &u32| word >> bit & 1 == 1;
    let mut runs: Vec<(u32, u32)> = vec![];
    for bit in (0..u64::BITS).filter(is_set) {
        match runs.last_mut() {
            Some((_, last)) if *last + 1 == bit => *last = bit,
            _ => runs.push((bit, bit)),
        }
    }
    let run = |&(first, last): &(u32, u32)| match first == last {
        true => first.to_string(),
        false => format!("{first} to {last}"),
    };
    let runs: Vec<String> = runs.iter().map(run).collect();
    match word.count_ones() {
        1 => format!("bit {} is", list(&runs)),
        _ => format!("bits {} are", list(&runs)),
    }
}
