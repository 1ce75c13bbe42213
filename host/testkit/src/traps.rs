//! Directed files, one group for each way to misread the paper about judging,
//! with the lines they have to give, derived by hand. Slices start at byte 5,
//! 132, 259; the end record of Z is at 132.

use crate::cases::{case, column_case, Case};
use crate::column::{z, z_slicem, Column};
use model::layout::*;

/// All groups.
pub fn all() -> Vec<Case> {
    [
        cut_headers(),
        unknown_tags(),
        tags_not_due(),
        wrong_lengths(),
        cut_bodies(),
        sizes_outside(),
        slice_numbers(),
        choices(),
        slicel_modes(),
        memory(),
        cascades(),
        shift_contents(),
        carry_starts(),
        drivers(),
        open_pins(),
        order_of_rules(),
        first_bad_record(),
        bytes_after(),
        read_at_the_edge(),
        table_pins(),
        outputs(),
        carry_data(),
        carry_start_ax(),
        carry_selects(),
        slice_below(),
        wide_loops(),
        mux_choices(),
        on_a_loop(),
    ]
    .into_iter()
    .flatten()
    .collect()
}

/// A file that begins like Z and goes on with other bytes.
fn z_then(kept: usize, rest: &[u8]) -> Vec<u8> {
    [&z().bytes()[..kept], rest].concat()
}

/// One or two bytes of a header are 1, whatever the tag.
pub fn cut_headers() -> Vec<Case> {
    let mut cases = vec![];
    for place in [0, 5, 132] {
        let line = format!("refused 1 {place}");
        for tag in [0, 1, 2, 3, 4, 255] {
            let name = format!("one byte {tag} at {place}");
            cases.push(case(name, z_then(place, &[tag]), &line));
            for second in [0, 2, 124, 255] {
                let name = format!("two bytes {tag} {second} at {place}");
                cases.push(case(name, z_then(place, &[tag, second]), &line));
            }
        }
    }
    cases
}

/// A whole header of an unknown tag is 2, whatever its length and however cut.
pub fn unknown_tags() -> Vec<Case> {
    let mut cases = vec![];
    for place in [0, 5, 132] {
        let line = format!("refused 2 {place}");
        for tag in [0, 4, 5, 130, 255] {
            for length in [0u16, 2, 124, 65535] {
                let [low, high] = length.to_le_bytes();
                let header = [tag, low, high];
                let name = format!("tag {tag} with length {length} at {place}");
                cases.push(case(&name, z_then(place, &header), &line));
                let whole = [&header[..], &[0; 124]].concat();
                cases.push(case(name + ", whole", z_then(place, &whole), &line));
            }
        }
    }
    cases
}

/// A known tag that isn't due is 4, whatever its length and however cut.
pub fn tags_not_due() -> Vec<Case> {
    let mut cases = vec![];
    for (place, tags) in [(0, [2, 3]), (5, [1, 3]), (132, [1, 2])] {
        let line = format!("refused 4 {place}");
        for tag in tags {
            for length in [0u16, 2, 124, 256, 65535] {
                let [low, high] = length.to_le_bytes();
                let header = [tag, low, high];
                let name = format!("tag {tag} with length {length} at {place}");
                cases.push(case(&name, z_then(place, &header), &line));
                let whole = [&header[..], &[1; 124], &[3, 0, 0]].concat();
                cases.push(case(name + ", whole", z_then(place, &whole), &line));
            }
        }
    }
    let one_slice_of_two = [&[1, 2, 0, 2, 0], &z().bytes()[5..]].concat();
    cases.push(case("n = 2, one slice", one_slice_of_two, "refused 4 132"));
    let two_slices_of_one = Column::zeros(2, 0).bytes();
    let two_slices_of_one = [&[1, 2, 0, 1, 0], &two_slices_of_one[5..]].concat();
    cases.push(case(
        "n = 1, two slices",
        two_slices_of_one,
        "refused 4 132",
    ));
    cases
}

/// A wrong length of a tag that is due is 3, on a cut record too.
pub fn wrong_lengths() -> Vec<Case> {
    let mut cases = vec![];
    let wrong: [(usize, u8, &[u16]); 3] = [
        (0, 1, &[0, 1, 3, 124, 258, 512, 514, 32770]),
        (5, 2, &[0, 2, 123, 125, 380, 31744, 32892]),
        (132, 3, &[1, 2, 124, 256, 32768, 65535]),
    ];
    for (place, tag, lengths) in wrong {
        let line = format!("refused 3 {place}");
        for length in lengths {
            let [low, high] = length.to_le_bytes();
            let header = [tag, low, high];
            let name = format!("tag {tag} with length {length} at {place}");
            cases.push(case(&name, z_then(place, &header), &line));
            let replaced = [&z().bytes()[..place], &header, &z().bytes()[place + 3..]].concat();
            cases.push(case(name + ", whole", replaced, &line));
        }
    }
    cases
}

/// A header in order with its body cut is 1, whatever the body holds.
pub fn cut_bodies() -> Vec<Case> {
    let wrong_number = [2, 124, 0, 7];
    let wrong_choice = [2, 124, 0, 0, 9, 9];
    let wrong_driver = [&[2, 124, 0][..], &[0; 62], &[3, 0]].concat();
    vec![
        case("size record without m", vec![1, 2, 0, 1], "refused 1 0"),
        case(
            "size record, n = 0, without m",
            vec![1, 2, 0, 0],
            "refused 1 0",
        ),
        case(
            "size record, n = 65, without m",
            vec![1, 2, 0, 65],
            "refused 1 0",
        ),
        case(
            "cut slice, wrong number",
            z_then(5, &wrong_number),
            "refused 1 5",
        ),
        case(
            "cut slice, wrong choices",
            z_then(5, &wrong_choice),
            "refused 1 5",
        ),
        case(
            "cut slice, wrong driver",
            z_then(5, &wrong_driver),
            "refused 1 5",
        ),
        case(
            "cut slice 1 without its number",
            Column::zeros(2, 0).bytes()[..135].to_vec(),
            "refused 1 132",
        ),
        case(
            "looped slice, no end record",
            z().pin(0, "A1", 4096).bytes()[..132].to_vec(),
            "refused 1 132",
        ),
    ]
}

/// n and m outside their lists.
pub fn sizes_outside() -> Vec<Case> {
    let mut cases = vec![
        case(
            "n = 0 and the end",
            vec![1, 2, 0, 0, 0, 3, 0, 0],
            "refused 5 0",
        ),
        column_case("65 slices", Column::zeros(65, 0), "refused 5 0"),
        column_case("m = 64", Column::zeros(1, 64), "accepted 1 64"),
        column_case("m = 65", Column::zeros(1, 65), "refused 5 0"),
        column_case("n = 63", Column::zeros(63, 1), "accepted 63 1"),
        column_case("n = 64, m = 64", Column::zeros(64, 64), "accepted 64 64"),
    ];
    for (n, m) in [
        (0, 0),
        (65, 0),
        (128, 0),
        (255, 0),
        (1, 65),
        (1, 128),
        (1, 255),
        (0, 65),
    ] {
        let cut = vec![1, 2, 0, n, m];
        cases.push(case(
            format!("n = {n}, m = {m}, no slice"),
            cut,
            "refused 5 0",
        ));
        let whole = [&[1, 2, 0, n, m], &z().bytes()[5..]].concat();
        cases.push(case(
            format!("n = {n}, m = {m}, one slice"),
            whole,
            "refused 5 0",
        ));
    }
    cases
}

/// Slice numbers other than the one due are 4, over 5, 6 and 7.
pub fn slice_numbers() -> Vec<Case> {
    let two = || Column::zeros(2, 0);
    let three = || Column::zeros(3, 0);
    vec![
        column_case("slice 0 has number 1", z().set(0, NUMBER, 1), "refused 4 5"),
        column_case(
            "slice 0 has number 255",
            z().set(0, NUMBER, 255),
            "refused 4 5",
        ),
        column_case("number 0 twice", two().set(1, NUMBER, 0), "refused 4 132"),
        column_case(
            "number 0 twice, then with carry start 3",
            two().set(1, NUMBER, 0).set(1, CARRY_START, 3),
            "refused 4 132",
        ),
        column_case(
            "descending",
            two().set(0, NUMBER, 1).set(1, NUMBER, 0),
            "refused 4 5",
        ),
        column_case("number 2 for 1", three().set(1, NUMBER, 2), "refused 4 132"),
        column_case("number 1 for 2", three().set(2, NUMBER, 1), "refused 4 259"),
        column_case("number 3 for 2", three().set(2, NUMBER, 3), "refused 4 259"),
    ]
}

/// Every choice byte with the greatest value on its list.
fn choice_bytes() -> Vec<(usize, u8)> {
    let of_letters = [
        (MODE, 2),
        (SHIFT_DATA, 1),
        (CARRY_DATA, 1),
        (MUX, 4),
        (MAIN, 5),
        (SECOND, 1),
    ];
    let each_letter = |(at, greatest)| LETTERS.map(|letter| (at + letter, greatest));
    let others = [(KIND, 1), (CARRY_START, 3), (SET_RESET_PIN, 1)];
    of_letters
        .into_iter()
        .flat_map(each_letter)
        .chain(others)
        .collect()
}

/// Choices at the ends of their lists and past them. Modes and cascades on
/// their lists are left to the groups below, carry start 3 is in slice 1.
pub fn choices() -> Vec<Case> {
    let mut cases = vec![];
    for (at, greatest) in choice_bytes() {
        for value in 0..=greatest {
            if !(MODE..CONTENTS).contains(&at) {
                let column = Column::zeros(2, 0).set(1, at, value);
                cases.push(column_case(
                    format!("byte {at} is {value}"),
                    column,
                    "accepted 2 0",
                ));
            }
        }
        for value in [greatest + 1, 128, 255] {
            let name = format!("byte {at} is {value}");
            let column = Column::zeros(2, 0).set(0, at, value);
            cases.push(column_case(&name, column, "refused 5 5"));
            let column = Column::zeros(2, 0).set(1, KIND, 1).set(1, at, value);
            cases.push(column_case(name + " in slice 1", column, "refused 5 132"));
        }
    }
    for value in [1, 128, 255] {
        for at in [POWER_UP, SET_RESET_VALUES] {
            let column = z().set(0, at, value);
            cases.push(column_case(
                format!("byte {at} is {value}"),
                column,
                "accepted 1 0",
            ));
        }
    }
    cases
}

/// A SLICEL with a mode not 0, alone: D in memory, any letter shifting.
pub fn slicel_modes() -> Vec<Case> {
    let mut cases = vec![
        column_case("SLICEL, D memory", z().set(0, MODE + D, 1), "refused 6 5"),
        column_case(
            "SLICEL, all memory",
            z().set_letters(0, MODE, 1),
            "refused 6 5",
        ),
        column_case(
            "SLICEL, all shift",
            z().set_letters(0, MODE, 2),
            "refused 6 5",
        ),
        column_case("SLICEM, all logic", z_slicem(), "accepted 1 0"),
    ];
    for letter in LETTERS {
        let name = format!("letter {letter} shifts");
        let column = z().set(0, MODE + letter, 2);
        cases.push(column_case(
            format!("SLICEL, {name}"),
            column,
            "refused 6 5",
        ));
        let column = z_slicem().set(0, MODE + letter, 2);
        cases.push(column_case(
            format!("SLICEM, {name}"),
            column,
            "accepted 1 0",
        ));
    }
    cases
}

/// All modes of a SLICEM: memory needs D in memory and nothing shifting.
pub fn memory() -> Vec<Case> {
    let mut cases = vec![];
    for modes in 0..81 {
        let modes = [modes / 27, modes / 9 % 3, modes / 3 % 3, modes % 3];
        let set = |column: Column, letter: usize| column.set(0, MODE + letter, modes[letter]);
        let column = LETTERS.into_iter().fold(z_slicem(), set);
        let memory = modes.contains(&1);
        let fits = !memory || (modes[D] == 1 && !modes.contains(&2));
        let line = if fits { "accepted 1 0" } else { "refused 6 5" };
        cases.push(column_case(format!("modes {modes:?}"), column, line));
    }
    cases
}

/// A slice whose letters of `shifting` shift.
fn shifting(letters: &[usize]) -> Column {
    let set = |column: Column, &letter: &usize| column.set(0, MODE + letter, 2);
    letters.iter().fold(z_slicem(), set)
}

/// Cascades: choice 1 is on the list everywhere, but only A to C may take it,
/// where they and the next letter shift.
pub fn cascades() -> Vec<Case> {
    let mut cases = vec![];
    for letter in [A, B, C] {
        let at = SHIFT_DATA + letter;
        let both = shifting(&[letter, letter + 1]).set(0, at, 1);
        cases.push(column_case(
            format!("cascade at {letter}"),
            both,
            "accepted 1 0",
        ));
        let into_logic = shifting(&[letter + 1]).set(0, at, 1);
        let name = format!("cascade at {letter} in logic");
        cases.push(column_case(name, into_logic, "refused 6 5"));
        let from_logic = shifting(&[letter]).set(0, at, 1);
        let name = format!("cascade at {letter} from logic");
        cases.push(column_case(name, from_logic, "refused 6 5"));
    }
    for letter in LETTERS {
        let at = SHIFT_DATA + letter;
        for (name, column) in [
            ("SLICEL", z()),
            ("SLICEM in logic", z_slicem()),
            ("SLICEM in memory", z_slicem().set_letters(0, MODE, 1)),
        ] {
            let name = format!("cascade at {letter}, {name}");
            cases.push(column_case(name, column.set(0, at, 1), "refused 6 5"));
        }
    }
    let all_shift = || shifting(&LETTERS);
    let chain = all_shift()
        .set_letters(0, SHIFT_DATA, 1)
        .set(0, SHIFT_DATA + D, 0);
    cases.extend([
        column_case(
            "cascade at D",
            all_shift().set(0, SHIFT_DATA + D, 1),
            "refused 6 5",
        ),
        column_case("cascade at A to C", chain, "accepted 1 0"),
        column_case(
            "cascade at A to D",
            all_shift().set_letters(0, SHIFT_DATA, 1),
            "refused 6 5",
        ),
    ]);
    cases
}

/// Bits 32 to 63 of a shifting table, each of them in every letter.
pub fn shift_contents() -> Vec<Case> {
    let mut cases = vec![];
    for letter in LETTERS {
        for bit in 0..64 {
            let line = if bit < 32 {
                "accepted 1 0"
            } else {
                "refused 6 5"
            };
            let column = shifting(&[letter]).contents(0, letter, 1 << bit);
            cases.push(column_case(
                format!("bit {bit} of shifting {letter}"),
                column,
                line,
            ));
        }
        let full = u64::from(u32::MAX);
        let column = shifting(&LETTERS).contents(0, letter, full);
        cases.push(column_case(
            format!("bits 0 to 31 of {letter}"),
            column,
            "accepted 1 0",
        ));
        let next = (letter + 1) % 4;
        let column = shifting(&[letter]).contents(0, next, u64::MAX);
        let name = format!("all bits of {next} in logic, {letter} shifting");
        cases.push(column_case(name, column, "accepted 1 0"));
        let column = z_slicem()
            .set_letters(0, MODE, 1)
            .contents(0, letter, u64::MAX);
        cases.push(column_case(
            format!("all bits of memory {letter}"),
            column,
            "accepted 1 0",
        ));
    }
    cases
}

/// Carry start 3 is refused in slice 0 only.
pub fn carry_starts() -> Vec<Case> {
    let two = || Column::zeros(2, 0);
    let last = Column::zeros(64, 0).set(63, CARRY_START, 3);
    let every = (1..64).fold(Column::zeros(64, 0), |column, slice| {
        column.set(slice, CARRY_START, 3)
    });
    vec![
        column_case(
            "start 3 in slice 0",
            two().set(0, CARRY_START, 3),
            "refused 6 5",
        ),
        column_case(
            "start 3 in slice 0 of 1",
            z().set(0, CARRY_START, 3),
            "refused 6 5",
        ),
        column_case(
            "start 3 in slice 1",
            two().set(1, CARRY_START, 3),
            "accepted 2 0",
        ),
        column_case("start 3 in slice 63", last, "accepted 64 0"),
        column_case("start 3 in slices 1 to 63", every, "accepted 64 0"),
    ]
}

/// Codes at their edges on all 31 pins, read or not.
pub fn drivers() -> Vec<Case> {
    // With n = 3, m = 2, on pins of slice 1.
    let exist = [0, 1, 2, 256, 257, 4107, 4112 + 11, 4128 + 8, 4128 + 11];
    let missing = [
        3,
        255,
        258,
        320,
        511,
        514,
        4095,
        4096 + 12,
        4096 + 15,
        4112 + 12,
        4128 + 12,
        4128 + 15,
        4144,
        4144 + 11,
        4096 + 16 * 64,
        8192,
        8192 + 257,
        32768,
        32769,
        65535,
    ];
    let mut cases = vec![];
    for pin in PIN_NAMES {
        let column = || Column::zeros(3, 2);
        for code in exist {
            let driven = column().pin(1, pin, code);
            cases.push(column_case(
                format!("{pin} by {code}"),
                driven,
                "accepted 3 2",
            ));
        }
        for code in missing {
            let driven = column().pin(1, pin, code);
            cases.push(column_case(
                format!("{pin} by {code}"),
                driven,
                "refused 7 132",
            ));
        }
    }
    for letter in LETTERS {
        let pin = PIN_NAMES[table_pin(letter, 1)];
        for (code, line) in [(2, "accepted 1 0"), (3, "refused 7 5")] {
            let column = shifting(&[letter]).pin(0, pin, code);
            cases.push(column_case(format!("unread {pin} by {code}"), column, line));
        }
    }
    let limits = || Column::zeros(64, 64);
    cases.extend([
        column_case(
            "input 63 of 64",
            limits().pin(0, "A1", 319),
            "accepted 64 64",
        ),
        column_case("input 64 of 64", limits().pin(0, "A1", 320), "refused 7 5"),
        column_case(
            "DQ of slice 63",
            limits().pin(0, "A1", 5115),
            "accepted 64 64",
        ),
        column_case(
            "output 12 of slice 63",
            limits().pin(63, "A1", 5116),
            "refused 7 8006",
        ),
        column_case(
            "slice 64 of 64",
            limits().pin(63, "WE", 5120),
            "refused 7 8006",
        ),
    ]);
    cases
}

/// Through pins left open nothing depends on anything, in every mode.
pub fn open_pins() -> Vec<Case> {
    let modes = [
        ("logic", z()),
        (
            "bypass carries",
            z().set_letters(0, CARRY_DATA, 1).set(0, CARRY_START, 2),
        ),
        ("memory", z_slicem().set_letters(0, MODE, 1)),
        ("shift", shifting(&LETTERS)),
    ];
    let mut cases = vec![];
    for (mode, column) in modes {
        let open = column.opened();
        let looped = open.clone().pin(0, "A2", 4096);
        let missing = open.clone().pin(0, "WE", 3);
        cases.extend([
            column_case(format!("{mode}: all open"), open, "accepted 1 0"),
            column_case(format!("{mode}: open, a loop"), looped, "refused 9 0"),
            column_case(format!("{mode}: open, WE by 3"), missing, "refused 7 5"),
        ]);
    }
    let most = Column::zeros(64, 64).opened();
    cases.push(column_case("64 slices, all open", most, "accepted 64 64"));
    cases
}

/// In one record 4 goes before 5, 5 before 6, 6 before 7.
pub fn order_of_rules() -> Vec<Case> {
    let wrong_number = |column: Column| column.set(0, NUMBER, 1);
    let wrong_choice = |column: Column| column.set(0, SET_RESET_PIN, 2);
    let wrong_start = |column: Column| column.set(0, CARRY_START, 3);
    let wrong_driver = |column: Column| column.pin(0, "A1", 3);
    let mut cases = vec![
        column_case("4 over 5", wrong_choice(wrong_number(z())), "refused 4 5"),
        column_case("4 over 7", wrong_driver(wrong_number(z())), "refused 4 5"),
        column_case(
            "4 over 6",
            wrong_number(z()).set(0, MODE + D, 1),
            "refused 4 5",
        ),
        column_case("5 over 6", wrong_start(wrong_choice(z())), "refused 5 5"),
        column_case("5 over 7", wrong_driver(wrong_choice(z())), "refused 5 5"),
        column_case("SLICEL with mode 3", z().set(0, MODE + D, 3), "refused 5 5"),
        column_case(
            "SLICEL with modes 1 and 3",
            z().set(0, MODE + A, 1).set(0, MODE + D, 3),
            "refused 5 5",
        ),
    ];
    let part_of_rule_6 = [
        ("SLICEL with a mode", z().set(0, MODE + D, 1)),
        (
            "memory and shift",
            z_slicem().set(0, MODE + D, 1).set(0, MODE + A, 2),
        ),
        ("memory without D", z_slicem().set(0, MODE + A, 1)),
        ("cascade at D", shifting(&[D]).set(0, SHIFT_DATA + D, 1)),
        (
            "cascade into logic",
            shifting(&[B]).set(0, SHIFT_DATA + A, 1),
        ),
        (
            "cascade from logic",
            shifting(&[A]).set(0, SHIFT_DATA + A, 1),
        ),
        ("bit 32 in shift", shifting(&[A]).contents(0, A, 1 << 32)),
        ("start 3", wrong_start(z())),
    ];
    for (name, column) in part_of_rule_6 {
        cases.push(column_case(name, column.clone(), "refused 6 5"));
        let name = format!("{name} over 7");
        cases.push(column_case(name, wrong_driver(column), "refused 6 5"));
    }
    for (at, greatest) in choice_bytes() {
        let broken = wrong_start(shifting(&[D]).contents(0, D, u64::MAX));
        let column = wrong_driver(broken.set(0, at, greatest + 1));
        let name = format!("byte {at} over 6 and 7");
        cases.push(column_case(name, column, "refused 5 5"));
    }
    cases
}

/// The first bad record decides, whatever the later ones hold.
pub fn first_bad_record() -> Vec<Case> {
    let two = || Column::zeros(2, 0);
    let bad_driver_first = || two().pin(0, "WE", 3);
    let cut_after_bad = bad_driver_first().bytes()[..140].to_vec();
    let mut bad_tag_after_bad = bad_driver_first().bytes();
    bad_tag_after_bad[132] = 9;
    let mut bad_length_after_bad = bad_driver_first().bytes();
    bad_length_after_bad[133] = 9;
    let mut bad_end_after_bad = bad_driver_first().bytes();
    bad_end_after_bad[259] = 9;
    let mut more_after_bad = bad_driver_first().bytes();
    more_after_bad.push(0);
    let bad_slice_after_bad_size = [&[1, 2, 0, 0, 0], &bad_driver_first().bytes()[5..]].concat();
    vec![
        case("7, then cut", cut_after_bad, "refused 7 5"),
        case("7, then 2", bad_tag_after_bad, "refused 7 5"),
        case("7, then 3", bad_length_after_bad, "refused 7 5"),
        case("7, then 2 for the end", bad_end_after_bad, "refused 7 5"),
        case("7, then 8", more_after_bad, "refused 7 5"),
        case("5, then 7", bad_slice_after_bad_size, "refused 5 0"),
        column_case(
            "7, then 4",
            bad_driver_first().set(1, NUMBER, 7),
            "refused 7 5",
        ),
        column_case(
            "7, then 5",
            bad_driver_first().set(1, KIND, 2),
            "refused 7 5",
        ),
        column_case(
            "7, then 6",
            bad_driver_first().set(1, MODE, 1),
            "refused 7 5",
        ),
        column_case("7 twice", bad_driver_first().pin(1, "A1", 3), "refused 7 5"),
        column_case(
            "6, then 5",
            two().set(0, CARRY_START, 3).set(1, KIND, 2),
            "refused 6 5",
        ),
        column_case(
            "a loop, then 7",
            two().pin(0, "A1", 4096).pin(1, "WE", 3),
            "refused 7 132",
        ),
    ]
}

/// Bytes after the end record are 8, at the first of them, also over a loop.
pub fn bytes_after() -> Vec<Case> {
    let mut cases = vec![];
    let tails: [&[u8]; 6] = [&[0], &[3], &[3, 0, 0], &[1, 2, 0], &[9, 9, 9], &[255; 127]];
    for tail in tails {
        let name = format!("Z and {} bytes from {}", tail.len(), tail[0]);
        cases.push(case(name, z_then(135, tail), "refused 8 135"));
        let name = format!("a loop and {} bytes from {}", tail.len(), tail[0]);
        let looped = [&z().pin(0, "A1", 4096).bytes(), tail].concat();
        cases.push(case(name, looped, "refused 8 135"));
    }
    let z_twice = [z().bytes(), z().bytes()].concat();
    cases.push(case("Z twice", z_twice, "refused 8 135"));
    let three = [&Column::zeros(3, 5).bytes()[..], &[0]].concat();
    cases.push(case("three slices and a byte", three, "refused 8 389"));
    cases
}

/// What is read at the edge only closes no loop.
pub fn read_at_the_edge() -> Vec<Case> {
    let mut cases = vec![];
    // CE, SR and WE by any output of the own slice, with pin A1 by AQ.
    for pin in ["CE", "SR", "WE"] {
        for code in 4096..4108 {
            let column = z_slicem().set(0, SET_RESET_PIN, 1).set(0, MODE + D, 1);
            let column = column.pin(0, "A1", 4104).pin(0, pin, code);
            cases.push(column_case(
                format!("{pin} by {code}"),
                column,
                "accepted 1 0",
            ));
        }
    }
    for letter in LETTERS {
        let first_pin = PIN_NAMES[table_pin(letter, 1)];
        let bypass = PIN_NAMES[bypass_pin(letter)];
        let o6 = 4096 + letter as u16;
        let mux = 4100 + letter as u16;
        let main = 4104 + letter as u16;
        // A main flip-flop that takes anything, read by its own letter's table and bypass pin.
        for taken in 0..=5 {
            let column = z().set(0, MAIN + letter, taken).set(0, CARRY_START, 2);
            let column = column.pin(0, first_pin, main).pin(0, bypass, main);
            let name = format!("main {letter} takes {taken}");
            cases.push(column_case(name, column, "accepted 1 0"));
        }
        // A second flip-flop, read by its own letter through the MUX.
        for taken in 0..=1 {
            let column = z().set(0, SECOND + letter, taken).set(0, MUX + letter, 4);
            let column = column.set(0, CARRY_START, 2);
            let column = column.pin(0, first_pin, mux).pin(0, bypass, mux);
            let name = format!("second {letter} takes {taken}");
            cases.push(column_case(name, column, "accepted 1 0"));
        }
        // Memory data and shift data by the table's own O6.
        let memory = z_slicem().set(0, MODE + D, 1).set(0, MODE + letter, 1);
        let name = format!("memory {letter} writes its O6");
        cases.push(column_case(name, memory.pin(0, bypass, o6), "accepted 1 0"));
        let column = shifting(&[letter]).pin(0, bypass, o6);
        cases.push(column_case(
            format!("{letter} shifts its O6 in"),
            column,
            "accepted 1 0",
        ));
        // The address of all writes, D1 to D6, by the table's own O6.
        if letter != D {
            let column = z_slicem().set_letters(0, MODE, 1).pin(0, "D1", o6);
            let name = format!("memory {letter} addresses its own write");
            cases.push(column_case(name, column, "accepted 1 0"));
        }
    }
    // A cascade is no reading: A's data is D's bit 31, and D's pins are A's O6.
    let chain = shifting(&LETTERS)
        .set_letters(0, SHIFT_DATA, 1)
        .set(0, SHIFT_DATA + D, 0);
    let column = chain
        .pin(0, "B2", 4096)
        .pin(0, "C2", 4097)
        .pin(0, "D2", 4098);
    cases.push(column_case("against the cascade", column, "accepted 1 0"));
    cases
}

/// Which table pins O6 and O5 read in each mode.
pub fn table_pins() -> Vec<Case> {
    let mut cases = vec![];
    for letter in LETTERS {
        let modes = [
            ("logic", z()),
            (
                "memory",
                z_slicem().set(0, MODE + D, 1).set(0, MODE + letter, 1),
            ),
        ];
        for i in 1..=6 {
            let pin = PIN_NAMES[table_pin(letter, i)];
            let o6 = 4096 + letter as u16;
            let o5_mux = 4100 + letter as u16;
            let o6_loop = format!("refused 9 {letter}");
            let o5_loop = format!("refused 9 {}", 4 + letter);
            for (mode, column) in &modes {
                let column = column.clone();
                let name = format!("{mode}: {pin} by O6");
                cases.push(column_case(name, column.clone().pin(0, pin, o6), &o6_loop));
                let name = format!("{mode}: {pin} by O6, all contents ones");
                let ones = column.clone().contents(0, letter, u64::MAX);
                cases.push(column_case(name, ones.pin(0, pin, o6), &o6_loop));
                let line = if i == 6 { "accepted 1 0" } else { &o5_loop };
                let name = format!("{mode}: {pin} by O5");
                cases.push(column_case(name, column.pin(0, pin, o5_mux), line));
            }
            let line = if i == 1 { "accepted 1 0" } else { &o6_loop };
            let column = shifting(&[letter]).pin(0, pin, o6);
            cases.push(column_case(format!("shift: {pin} by O6"), column, line));
            let column = shifting(&[letter]).pin(0, pin, o5_mux);
            cases.push(column_case(
                format!("shift: {pin} by O5"),
                column,
                "accepted 1 0",
            ));
        }
    }
    cases
}

/// Outputs 0-3 are O6, 4-7 the MUX outputs, 8-11 the main flip-flops.
pub fn outputs() -> Vec<Case> {
    let mut cases = vec![];
    for letter in LETTERS {
        let pin = PIN_NAMES[table_pin(letter, 1)];
        for k in 0..16 {
            let line = match k {
                12..=15 => "refused 7 5".to_string(),
                _ if k == letter => format!("refused 9 {letter}"),
                _ if k == 4 + letter => format!("refused 9 {k}"),
                _ => "accepted 1 0".to_string(),
            };
            let column = z().pin(0, pin, 4096 + k as u16);
            cases.push(column_case(format!("{pin} by output {k}"), column, line));
        }
    }
    // The same outputs of another slice: A1 of both slices by the other's.
    for (k, line) in [(0, "refused 9 0"), (4, "refused 9 4"), (8, "accepted 2 0")] {
        let column = Column::zeros(2, 0)
            .pin(0, "A1", 4112 + k)
            .pin(1, "A1", 4096 + k);
        cases.push(column_case(
            format!("two slices by outputs {k}"),
            column,
            line,
        ));
    }
    cases
}

/// Carry data: the bypass pin is read only if chosen, by the letter's carry and
/// by what comes after it, never by the letter's sum.
pub fn carry_data() -> Vec<Case> {
    let mut cases = vec![];
    for letter in LETTERS {
        let bypass = PIN_NAMES[bypass_pin(letter)];
        let driven_by = |choice| {
            let column = z().set(0, MUX + letter, choice);
            column.pin(0, bypass, 4100 + letter as u16)
        };
        let data = CARRY_DATA + letter;
        let carry = format!("refused 9 {}", 8 + letter);
        cases.extend([
            column_case(
                format!("{bypass} by carry, no data"),
                driven_by(2),
                "accepted 1 0",
            ),
            column_case(
                format!("{bypass} by carry, data"),
                driven_by(2).set(0, data, 1),
                carry,
            ),
            column_case(
                format!("{bypass} by sum, data"),
                driven_by(1).set(0, data, 1),
                "accepted 1 0",
            ),
        ]);
    }
    for (letter, choice, line) in [
        (A, 1, "accepted 1 0"),
        (A, 2, "accepted 1 0"),
        (B, 1, "accepted 1 0"),
        (B, 2, "refused 9 9"),
        (C, 1, "refused 9 9"),
        (C, 2, "refused 9 9"),
        (D, 1, "refused 9 9"),
        (D, 2, "refused 9 9"),
    ] {
        let column = z().set(0, CARRY_DATA + B, 1).set(0, MUX + letter, choice);
        let column = column.pin(0, "BX", 4100 + letter as u16);
        cases.push(column_case(
            format!("data BX by MUX {letter} of choice {choice}"),
            column,
            line,
        ));
    }
    cases
}

/// Carry start AX, driven by a sum or a carry: the loop goes through the
/// carries below it. Starts 0 and 1 read nothing.
pub fn carry_start_ax() -> Vec<Case> {
    let mut cases = vec![];
    for letter in LETTERS {
        for (choice, what) in [(1, "sum"), (2, "carry")] {
            let started = |start| {
                let column = z().set(0, MUX + letter, choice).set(0, CARRY_START, start);
                column.pin(0, "AX", 4100 + letter as u16)
            };
            let line = match (what, letter) {
                ("sum", A) => "refused 9 12",
                _ => "refused 9 8",
            };
            let name = format!("start AX by {what} {letter}");
            cases.push(column_case(name, started(2), line));
            for start in [0, 1] {
                let name = format!("start {start}, AX by {what} {letter}");
                cases.push(column_case(name, started(start), "accepted 1 0"));
            }
        }
    }
    cases
}

/// Carry and sum read O6, and so the table's pins.
pub fn carry_selects() -> Vec<Case> {
    let mut cases = vec![];
    for letter in LETTERS {
        let mux = 4100 + letter as u16;
        for choice in [1, 2] {
            for pin in [1, 6] {
                let pin = PIN_NAMES[table_pin(letter, pin)];
                let column = z().set(0, MUX + letter, choice).pin(0, pin, mux);
                let name = format!("{pin} by MUX of choice {choice}");
                cases.push(column_case(name, column, format!("refused 9 {letter}")));
            }
        }
        // In shift mode pin 1 is read by neither O6 nor O5.
        let pin = PIN_NAMES[table_pin(letter, 1)];
        let column = shifting(&[letter]).set(0, MUX + letter, 2).pin(0, pin, mux);
        cases.push(column_case(
            format!("shift: {pin} by carry"),
            column,
            "accepted 1 0",
        ));
    }
    cases
}

/// Carry start 3 reads the D carry of the slice below, and of no other.
pub fn slice_below() -> Vec<Case> {
    // AX of slice 0, its carry start, is driven by a MUX of slice 1.
    let back_from = |letter: usize, choice, start| {
        let column = Column::zeros(2, 0)
            .set(0, CARRY_START, 2)
            .set(1, CARRY_START, start);
        let column = column.set(1, MUX + letter, choice);
        column.pin(0, "AX", 4116 + letter as u16)
    };
    // DX of slice 0, its carry data, is driven by the A sum of another slice.
    let data_from = |slice: usize| {
        let column = Column::zeros(3, 0).set(0, CARRY_DATA + D, 1);
        let column = column.set(slice, CARRY_START, 3).set(slice, MUX + A, 1);
        column.pin(0, "DX", 4100 + 16 * slice as u16)
    };
    // DMUX of slice 0 gives the D sum, which slice 1 doesn't read.
    let beside_sum = {
        let column = Column::zeros(2, 0)
            .set(1, CARRY_START, 3)
            .set(1, MUX + A, 1);
        column.set(0, MUX + D, 1).pin(0, "DX", 4116)
    };
    let chain = (1..64).fold(Column::zeros(64, 0), |column, slice| {
        column.set(slice, CARRY_START, 3)
    });
    let chain = chain.set(0, CARRY_START, 2).set(63, MUX + D, 2);
    let looped_chain = chain.pin(0, "AX", 5111);
    let cut_chain = looped_chain.clone().set(40, CARRY_START, 1);
    vec![
        column_case("back from sum A", back_from(A, 1, 3), "refused 9 8"),
        column_case("back from carry D", back_from(D, 2, 3), "refused 9 8"),
        column_case("back from O5", back_from(D, 0, 3), "accepted 2 0"),
        column_case(
            "back from sum A, start AX",
            back_from(A, 1, 2),
            "accepted 2 0",
        ),
        column_case(
            "back from carry D, start 0",
            back_from(D, 2, 0),
            "accepted 2 0",
        ),
        column_case("D carry of the slice below", data_from(1), "refused 9 11"),
        column_case("not of the slice below that", data_from(2), "accepted 3 0"),
        column_case("not the D sum", beside_sum, "accepted 2 0"),
        column_case("a carry loop of 64 slices", looped_chain, "refused 9 8"),
        column_case("the same with a start in it", cut_chain, "accepted 64 0"),
    ]
}

/// "Wide" is F7A, F8, F7B, MC31 for A to D; what each of them reads.
pub fn wide_loops() -> Vec<Case> {
    // For each pin, the smallest signal on the loop if it is read.
    let read_by: [(usize, &[(&str, usize)]); 4] = [
        (A, &[("A1", 0), ("A6", 0), ("B1", 1), ("B6", 1), ("AX", 16)]),
        (
            B,
            &[
                ("A1", 0),
                ("A6", 0),
                ("B1", 1),
                ("B6", 1),
                ("C1", 2),
                ("C6", 2),
                ("D1", 3),
                ("D6", 3),
                ("AX", 16),
                ("BX", 18),
                ("CX", 17),
            ],
        ),
        (C, &[("C1", 2), ("C6", 2), ("D1", 3), ("D6", 3), ("CX", 17)]),
        (D, &[]),
    ];
    let pins = [
        "A1", "A6", "B1", "B6", "C1", "C6", "D1", "D6", "AX", "BX", "CX", "DX", "CE", "SR", "WE",
    ];
    let mut cases = vec![];
    for (letter, read) in read_by {
        for pin in pins {
            let line = match read.iter().find(|(name, _)| *name == pin) {
                Some((_, signal)) => format!("refused 9 {signal}"),
                None => "accepted 1 0".to_string(),
            };
            let column = z()
                .set(0, MUX + letter, 3)
                .pin(0, pin, 4100 + letter as u16);
            let name = format!("{pin} by wide {letter}");
            cases.push(column_case(&name, column.clone(), &line));
            let kept = column.set(0, MAIN + letter, 4);
            cases.push(column_case(name + ", kept", kept, &line));
        }
    }
    // MC31 reads no pin in shift mode either.
    for pin in ["A2", "A6", "D2", "AX", "BX"] {
        let column = shifting(&LETTERS).set(0, MUX + D, 3).pin(0, pin, 4103);
        cases.push(column_case(
            format!("shift: {pin} by MC31"),
            column,
            "accepted 1 0",
        ));
    }
    // A main flip-flop takes "wide" at the edge only.
    for letter in LETTERS {
        let pin = PIN_NAMES[table_pin(letter, 1)];
        let column = z()
            .set(0, MAIN + letter, 4)
            .pin(0, pin, 4104 + letter as u16);
        let name = format!("{pin} by a main flip-flop that takes wide");
        cases.push(column_case(name, column, "accepted 1 0"));
    }
    cases
}

/// A MUX reads only what was chosen: for each letter and choice, which pins of
/// the slice, driven by that MUX, close a loop.
pub fn mux_choices() -> Vec<Case> {
    let mut cases = vec![];
    for letter in LETTERS {
        let mux = 4100 + letter as u16;
        let pin_6 = PIN_NAMES[table_pin(letter, 6)];
        let bypass = PIN_NAMES[bypass_pin(letter)];
        // Pin 6 is read by O6 and what comes from it, the bypass pin as carry
        // data by the carry alone.
        for (choice, by_pin_6, by_bypass) in [
            (0, None, None),
            (1, Some(letter), None),
            (2, Some(letter), Some(8 + letter)),
            (4, None, None),
        ] {
            let line = |signal: Option<usize>| match signal {
                Some(signal) => format!("refused 9 {signal}"),
                None => "accepted 1 0".to_string(),
            };
            let column = || {
                z().set(0, MUX + letter, choice)
                    .set(0, CARRY_DATA + letter, 1)
            };
            let name = format!("MUX {letter} of choice {choice} drives {pin_6}");
            cases.push(column_case(
                name,
                column().pin(0, pin_6, mux),
                line(by_pin_6),
            ));
            let name = format!("MUX {letter} of choice {choice} drives {bypass}");
            cases.push(column_case(
                name,
                column().pin(0, bypass, mux),
                line(by_bypass),
            ));
        }
    }
    cases
}

/// On a loop is not leading into one, nor being reached from one.
pub fn on_a_loop() -> Vec<Case> {
    let two = || Column::zeros(2, 0);
    let sum_start = z().set(0, CARRY_START, 2).set(0, MUX, 1).pin(0, "AX", 4100);
    let reads_a_loop = two().pin(0, "A1", 4112).pin(1, "A1", 4112);
    let feeds_a_loop = two().pin(1, "A1", 4112).pin(1, "A2", 4096);
    let two_loops = two().pin(0, "D1", 4099).pin(1, "A1", 4112);
    let later_loop_first = two()
        .pin(0, "A1", 4115)
        .pin(0, "C1", 4098)
        .pin(1, "D1", 4115);
    let through_both = two().pin(0, "C3", 4115).pin(1, "D5", 4098);
    let two_pairs = z().pin(0, "A1", 4100).pin(0, "B1", 4101);
    let pair_reads_pair = two()
        .pin(0, "B1", 4101)
        .pin(0, "B2", 4116)
        .pin(1, "A1", 4116);
    let pair_feeds_pair = two()
        .pin(0, "B1", 4101)
        .pin(1, "A1", 4116)
        .pin(1, "A2", 4101);
    let self_and_round = two()
        .pin(0, "B1", 4112)
        .pin(1, "A1", 4097)
        .pin(1, "A2", 4112);
    let ring = |first: usize, last: usize| {
        (first..=last).fold(Column::zeros(64, 0), |column, slice| {
            let next = if slice == last { first } else { slice + 1 };
            column.pin(slice, "A1", 4096 + 16 * next as u16)
        })
    };
    let all_lead_in = (0..20).fold(ring(20, 30), |column, slice| {
        column.pin(slice, "A1", 4096 + 16 * (slice as u16 + 1))
    });
    let all_lead_out = (31..64).fold(all_lead_in.clone(), |column, slice| {
        column.pin(slice, "A1", 4096 + 16 * (slice as u16 - 1))
    });
    let chain = (0..63).fold(Column::zeros(64, 0), |column, slice| {
        column.pin(slice, "A1", 4096 + 16 * (slice as u16 + 1))
    });
    let looped_top = chain.clone().pin(63, "A1", 4096 + 16 * 63);
    vec![
        column_case("carry start by the sum", sum_start, "refused 9 12"),
        column_case("slice 0 reads a loop in 1", reads_a_loop, "refused 9 32"),
        column_case("slice 0 feeds a loop in 1", feeds_a_loop, "refused 9 32"),
        column_case("a loop in each slice", two_loops, "refused 9 3"),
        column_case(
            "the smaller loop is met later",
            later_loop_first,
            "refused 9 2",
        ),
        column_case("a loop through both slices", through_both, "refused 9 2"),
        column_case("two loops of two signals", two_pairs, "refused 9 4"),
        column_case("a loop that reads another", pair_reads_pair, "refused 9 5"),
        column_case("a loop that feeds another", pair_feeds_pair, "refused 9 5"),
        column_case("one loop inside another", self_and_round, "refused 9 1"),
        column_case("a ring of 64", ring(0, 63), "refused 9 0"),
        column_case("a ring of slices 20 to 30", ring(20, 30), "refused 9 640"),
        column_case("a ring that others lead into", all_lead_in, "refused 9 640"),
        column_case("a ring that others read", all_lead_out, "refused 9 640"),
        column_case("a chain of 64", chain, "accepted 64 0"),
        column_case("a chain into a loop at 63", looped_top, "refused 9 2016"),
    ]
}
