//! The designs of `examples/`, built and run, against plain arithmetic written by hand.

use testkit::prng::Prng;

use crate::folder::{example, rows, Folder};

/// Builds an example, and gives the rows of a run of the slice file that has it: the watched values after the clock's number.
fn run(name: &str, inputs: &[String], watch: &str) -> Vec<Vec<i64>> {
    let folder = Folder::new(&format!("example {name}"));
    folder.put(
        "inputs",
        inputs.join(
            "
",
        ),
    );
    let text = example(&format!("{name}.txt"));
    folder.text(&["write", &text, "-o", "file"]);
    let csv = folder.text(&[
        "run", "file", "--inputs", "inputs", "--watch", watch, "--csv", "-",
    ]);
    // The text runs as its slice file does.
    let by_text = folder.text(&[
        "run", &text, "--inputs", "inputs", "--watch", watch, "--csv", "-",
    ]);
    assert_eq!(csv, by_text);
    rows(&csv)
}

/// Digits of a number, the lowest bit first.
fn digits(number: i64, count: usize) -> String {
    (0..count)
        .map(|bit| if number >> bit & 1 == 1 { '1' } else { '0' })
        .collect()
}

/// The number on some columns of a row, the lowest bit first.
fn number(row: &[i64]) -> i64 {
    row.iter().rev().fold(0, |number, bit| 2 * number + bit)
}

#[test]
fn divider_gives_every_fifth_pulse() {
    let mut rng = Prng::new(1);
    let steps: Vec<i64> = (0..200).map(|_| i64::from(rng.chance(60))).collect();
    let inputs: Vec<String> = steps.iter().map(|&step| digits(step, 1)).collect();
    let mut pulses = 0;
    let rows = run("divider", &inputs, "s0.AQ,s0.BQ,s0.CQ,s0.D.O6");
    assert_eq!(rows.len(), steps.len());
    for (row, step) in rows.iter().zip(steps) {
        let fifth = step == 1 && pulses % 5 == 4;
        assert_eq!((number(&row[1..4]), row[4]), (pulses % 5, i64::from(fifth)));
        pulses += step;
    }
    assert!(pulses > 100);
}

#[test]
fn accumulator_adds_up() {
    let mut rng = Prng::new(2);
    // Forward for a while, then back, so that both ends are passed.
    let mut step = |clock: usize| (rng.below(8) as i64, i64::from(clock % 300 >= 150));
    let steps: Vec<(i64, i64)> = (0..600).map(&mut step).collect();
    let inputs: Vec<String> = steps
        .iter()
        .map(|&(size, back)| digits(size, 3) + &digits(back, 1))
        .collect();
    let mut position: i64 = 0;
    let (mut lowest, mut highest, mut wraps) = (0, 0, 0);
    let rows = run(
        "accumulator",
        &inputs,
        "s0.AQ,s0.BQ,s0.CQ,s0.DQ,s1.AQ,s1.BQ,s1.CQ,s1.DQ",
    );
    assert_eq!(rows.len(), steps.len());
    for (row, (size, back)) in rows.iter().zip(steps) {
        assert_eq!(
            number(&row[1..9]),
            position.rem_euclid(256),
            "clock {}",
            row[0]
        );
        let before = position.rem_euclid(256);
        position += if back == 1 { -size } else { size };
        wraps += i64::from((before - position.rem_euclid(256)).abs() > 128);
        lowest = lowest.min(position);
        highest = highest.max(position);
    }
    assert!(
        highest - lowest > 256 && wraps > 0,
        "{lowest} to {highest}, {wraps} wraps"
    );
}

/// By its own name it is shown with its sign.
#[test]
fn accumulator_by_its_name() {
    let folder = Folder::new("example signed");
    let (text, inputs) = (example("accumulator.txt"), example("accumulator.inputs"));
    let csv = folder.text(&[
        "run", &text, "--inputs", &inputs, "--watch", "position", "--csv", "-",
    ]);
    let positions: Vec<i64> = rows(&csv).iter().map(|row| row[1]).collect();
    let steps = [1, 7, 7, 4, -7, -7, -7, 5, 0, 3];
    let sums: Vec<i64> = (0..=steps.len())
        .map(|count| steps[..count].iter().sum())
        .collect();
    assert_eq!(positions, sums);
    assert!(sums.contains(&-2));
}

#[test]
fn delay_line_is_32_late() {
    let mut rng = Prng::new(3);
    let bits: Vec<i64> = (0..150).map(|_| rng.below(2) as i64).collect();
    let inputs: Vec<String> = bits.iter().map(|&bit| digits(bit, 1)).collect();
    let rows = run("delay", &inputs, "s0.D.O6");
    assert_eq!(rows.len(), bits.len());
    for (clock, row) in rows.iter().enumerate() {
        let late = clock.checked_sub(32).map_or(0, |before| bits[before]);
        assert_eq!(row[1], late, "clock {clock}");
    }
    assert!(bits.contains(&0) && bits.contains(&1));
}

#[test]
fn memory_keeps_what_was_written() {
    let mut rng = Prng::new(4);
    let mut ask = |_| [64, 4, 2].map(|count| rng.below(count) as i64);
    let asked: Vec<[i64; 3]> = (0..500).map(&mut ask).collect();
    let inputs: Vec<String> = asked
        .iter()
        .map(|&[address, data, write]| digits(address, 6) + &digits(data, 2) + &digits(write, 1))
        .collect();
    let mut words = [0; 64];
    words[3] = 2;
    let rows = run("memory", &inputs, "s0.D.O6,s0.C.O6");
    assert_eq!(rows.len(), asked.len());
    for (row, [address, data, write]) in rows.iter().zip(asked) {
        let word = &mut words[address as usize];
        assert_eq!(number(&row[1..3]), *word, "clock {}", row[0]);
        if write == 1 {
            *word = data;
        }
    }
    assert!(words.contains(&3));
}

/// Each runs as its own comment says, and shows its names.
#[test]
fn examples_run_as_they_say() {
    let folder = Folder::new("example comments");
    for (name, titles, clocks) in [
        ("divider", "clock,step,count,pulse", 16),
        ("accumulator", "clock,size,back,position", 11),
        ("delay", "clock,in_bit,late_bit", 40),
        ("memory", "clock,address,data,write,word", 12),
    ] {
        let (text, inputs) = (
            example(&format!("{name}.txt")),
            example(&format!("{name}.inputs")),
        );
        let comment = std::fs::read_to_string(&text).expect("the example");
        let line = comment
            .lines()
            .find_map(|line| line.strip_prefix("#   quagmuffin run "));
        let line = line.expect("how it is run").replace("examples/", "");
        let words: Vec<&str> = line.split(' ').collect();
        assert_eq!(
            words[..3],
            [
                &format!("{name}.txt"),
                "--inputs",
                &format!("{name}.inputs")
            ]
        );
        let csv = folder.text(
            &[
                &["run", &text, "--inputs", &inputs, "--csv", "-"],
                &words[3..],
            ]
            .concat(),
        );
        assert_eq!(
            (csv.lines().next(), rows(&csv).len()),
            (Some(titles), clocks)
        );
    }
}

/// The loop is explained as its comment says, and is mended as it says.
#[test]
fn loop_is_explained_and_mended() {
    let folder = Folder::new("example loop");
    let text = std::fs::read_to_string(example("loop.txt")).expect("the example");
    let written = folder.run(&["write", &example("loop.txt"), "-o", "loop.bin"]);
    assert_eq!(
        (written.status.code(), &written.stdout[..]),
        (Some(1), &b"loop.bin: refused 9 32\n"[..])
    );
    let way = "s1.A.O6 <- A1 <- s2.A.O6 <- A1 <- s3.B.O6 <- B1 <- s1.A.O6";
    assert!(text.contains(&format!("#   {way}\n")));
    let explained = folder.run(&["explain", "loop.bin"]);
    assert!(String::from_utf8_lossy(&explained.stdout).contains(&format!("{way}\n")));
    assert!(text.contains("in slice 3, B1 = s1.AQ."));
    folder.put(
        "mended.txt",
        text.replace(
            "  B1 = s1.A.O6
",
            "  B1 = s1.AQ
",
        ),
    );
    assert_eq!(
        folder.text(&["write", "mended.txt", "-o", "mended"]),
        "mended: accepted 4 1\n"
    );
}
