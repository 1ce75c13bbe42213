//! Mistakes about what each signal reads.

use super::{with_bodies, with_graph, with_reads, Mutant};
use model::design::{
    CarryData, CarryStart, Design, Driver, Mode, MuxOutput, Output, ShiftData, Signal, Source,
    SIGNALS,
};
use model::layout::*;

pub fn all() -> Vec<Mutant> {
    let families = [decoding(), tables(), carries(), wides(), muxes(), edges()];
    families.into_iter().flatten().collect()
}

/// Bytes taken for others.
fn decoding() -> Vec<Mutant> {
    let output = |name: &str, output: fn(Output) -> Signal| {
        with_reads(name, move |design, own, signal, sources| {
            for (source, pin) in sources.iter_mut().zip(table_pins_read(design, own, signal)) {
                if let Driver::Output { slice, output: k } = design.slices[own].pins[pin] {
                    *source = Source::Signal(output(k).of_slice(slice));
                }
            }
        })
    };
    let pins_moved = |name: &str, from: fn(usize) -> usize| {
        with_bodies(name, move |body| {
            let old = body.to_vec();
            for pin in 0..PIN_COUNT {
                let code = pin_code(&old, from(pin));
                body[PINS + 2 * pin..][..2].copy_from_slice(&code.to_le_bytes());
            }
        })
    };
    vec![
        output("outputs 4-7 taken for O5", |output| match output {
            Output::O6(letter) => Signal::O6(letter),
            Output::Mux(letter) => Signal::O5(letter),
            Output::Main(letter) => Signal::Main(letter),
        }),
        output("outputs 8-11 taken for carries", |output| match output {
            Output::O6(letter) => Signal::O6(letter),
            Output::Mux(letter) => Signal::Mux(letter),
            Output::Main(letter) => Signal::Carry(letter),
        }),
        output("outputs 4-7 and 8-11 exchanged", |output| match output {
            Output::O6(letter) => Signal::O6(letter),
            Output::Mux(letter) => Signal::Main(letter),
            Output::Main(letter) => Signal::Mux(letter),
        }),
        with_reads(
            "open pins taken for output 2",
            |design, own, signal, sources| {
                for (source, pin) in sources.iter_mut().zip(table_pins_read(design, own, signal)) {
                    if design.slices[own].pins[pin] == Driver::Open {
                        *source = Source::Signal(Signal::O6(C).of_slice(0));
                    }
                }
            },
        ),
        pins_moved("pins ordered A1, B1, C1, D1, A2 ..", |pin| match pin {
            0..=23 => pin % 6 * 4 + pin / 6,
            _ => pin,
        }),
        pins_moved("pins 6 first", |pin| match pin {
            0..=23 => pin / 6 * 6 + 5 - pin % 6,
            _ => pin,
        }),
        pins_moved("bypass pins from DX to AX", |pin| match pin {
            24..=27 => 51 - pin,
            _ => pin,
        }),
        pins_moved("CE, SR, WE before AX", |pin| match pin {
            24..=27 => pin + 3,
            28..=30 => pin - 4,
            _ => pin,
        }),
        with_bodies("contents high byte first", |body| {
            for letter in LETTERS {
                body[CONTENTS + 8 * letter..][..8].reverse();
            }
        }),
        with_bodies("pin codes high byte first", |body| {
            for pin in 0..PIN_COUNT {
                body[PINS + 2 * pin..][..2].reverse();
            }
        }),
        with_bodies("letters from D to A", |body| {
            for at in [MODE, SHIFT_DATA, CARRY_DATA, MUX, MAIN, SECOND] {
                body[at..at + 4].reverse();
            }
        }),
    ]
}

/// The table pins that a signal reads, in the order of its sources.
fn table_pins_read(design: &Design, slice: usize, signal: Signal) -> Vec<usize> {
    let shift = |letter: usize| design.slices[slice].mode[letter] == Mode::Shift;
    match signal {
        Signal::O6(letter) if shift(letter) => table_pins(letter, 2, 6),
        Signal::O6(letter) => table_pins(letter, 1, 6),
        Signal::O5(letter) if !shift(letter) => table_pins(letter, 1, 5),
        _ => vec![],
    }
}

fn table_pins(letter: usize, first: usize, last: usize) -> Vec<usize> {
    (first..=last).map(|pin| table_pin(letter, pin)).collect()
}

/// Mistakes about what tables read.
fn tables() -> Vec<Mutant> {
    let mut mutants = vec![
        with_reads("pin 6 read by O5", |design, slice, signal, sources| {
            if let Signal::O5(letter) = signal {
                if design.slices[slice].mode[letter] != Mode::Shift {
                    sources.push(design.pin(slice, table_pin(letter, 6)));
                }
            }
        }),
        with_reads(
            "pin 1 read in shift mode",
            |design, slice, signal, sources| {
                if let Signal::O6(letter) = signal {
                    if design.slices[slice].mode[letter] == Mode::Shift {
                        sources.push(design.pin(slice, table_pin(letter, 1)));
                    }
                }
            },
        ),
        with_reads(
            "O5 reads pins in shift mode",
            |design, slice, signal, sources| {
                if let Signal::O5(letter) = signal {
                    if design.slices[slice].mode[letter] == Mode::Shift {
                        let pins = table_pins(letter, 2, 5).into_iter();
                        sources.extend(pins.map(|pin| design.pin(slice, pin)));
                    }
                }
            },
        ),
        with_reads(
            "pin 6 unread in shift mode",
            |design, slice, signal, sources| {
                if let Signal::O6(letter) = signal {
                    if design.slices[slice].mode[letter] == Mode::Shift {
                        sources.pop();
                    }
                }
            },
        ),
        with_reads(
            "pin 1 unread in memory mode",
            |design, slice, signal, sources| {
                if let Signal::O6(letter) = signal {
                    if design.slices[slice].mode[letter] == Mode::Memory {
                        sources.remove(0);
                    }
                }
            },
        ),
        with_reads("pins skipped that the contents ignore", skip_ignored_pins),
        with_reads(
            "pins skipped where all contents are equal",
            skip_constant_tables,
        ),
        with_reads(
            "memory read at the address on D1-D6",
            |design, slice, signal, sources| {
                if let Signal::O6(letter) = signal {
                    if design.slices[slice].mode[letter] == Mode::Memory {
                        let pins = table_pins(D, 1, 6).into_iter();
                        *sources = pins.map(|pin| design.pin(slice, pin)).collect();
                    }
                }
            },
        ),
        with_graph("slice as one box", slice_as_one_box),
    ];
    for pin in 1..=6 {
        let name = format!("pin {pin} unread by O6");
        mutants.push(with_reads(name, move |design, slice, signal, sources| {
            if let Signal::O6(letter) = signal {
                let shift = design.slices[slice].mode[letter] == Mode::Shift;
                if !(shift && pin == 1) {
                    sources.remove(if shift { pin - 2 } else { pin - 1 });
                }
            }
        }));
    }
    for pin in 1..=5 {
        let name = format!("pin {pin} unread by O5");
        mutants.push(with_reads(name, move |_, _, signal, sources| {
            if matches!(signal, Signal::O5(_)) && !sources.is_empty() {
                sources.remove(pin - 1);
            }
        }));
    }
    mutants
}

/// Drops the pins whose value never matters to a table's contents.
fn skip_ignored_pins(design: &Design, slice: usize, signal: Signal, sources: &mut Vec<Source>) {
    let (Signal::O6(letter) | Signal::O5(letter)) = signal else {
        return;
    };
    let word = design.slices[slice].contents[letter];
    let bit = |number: usize| word >> number & 1;
    // The sources are the bits of the number at which the contents are read.
    let numbers = 1 << sources.len();
    let mut place = 0;
    sources.retain(|_| {
        let flip = 1 << place;
        place += 1;
        (0..numbers).any(|number: usize| bit(number) != bit(number ^ flip))
    });
}

/// Drops all pins of a table whose contents are all zeros or all ones.
fn skip_constant_tables(design: &Design, slice: usize, signal: Signal, sources: &mut Vec<Source>) {
    if let Signal::O6(letter) | Signal::O5(letter) = signal {
        if [0, u64::MAX].contains(&design.slices[slice].contents[letter]) {
            sources.clear();
        }
    }
}

/// Every signal but the flip-flops reads what any signal of its slice reads.
fn slice_as_one_box(design: &Design) -> Vec<Vec<usize>> {
    let right = design.graph();
    let mut graph = vec![vec![]; right.len()];
    for slice in 0..design.n {
        let signals = SIGNALS * slice..SIGNALS * (slice + 1);
        let outside = |&x: &usize| x / SIGNALS != slice || matches!(x % SIGNALS, 0..=3 | 20..=27);
        let read: Vec<usize> = right[signals.clone()].concat();
        let read: Vec<usize> = read.into_iter().filter(outside).collect();
        for signal in signals.start..signals.start + 24 {
            graph[signal] = [&right[signal][..], &read].concat();
        }
    }
    graph
}

/// Mistakes about the carry chain.
fn carries() -> Vec<Mutant> {
    vec![
        with_reads("carry doesn't read its select", |_, _, signal, sources| {
            if matches!(signal, Signal::Carry(_)) {
                sources.remove(0);
            }
        }),
        with_reads(
            "carry doesn't read the carry in",
            |_, _, signal, sources| {
                if matches!(signal, Signal::Carry(_)) {
                    sources.remove(1);
                }
            },
        ),
        with_reads("carry doesn't read its data", |_, _, signal, sources| {
            if matches!(signal, Signal::Carry(_)) {
                sources.remove(2);
            }
        }),
        with_reads(
            "carry reads the bypass pin always",
            |design, slice, signal, sources| {
                if let Signal::Carry(letter) = signal {
                    sources.push(design.pin(slice, bypass_pin(letter)));
                }
            },
        ),
        with_reads(
            "carry data choice inverted",
            |design, slice, signal, sources| {
                if let Signal::Carry(letter) = signal {
                    sources[2] = match design.slices[slice].carry_data[letter] {
                        CarryData::O5 => design.pin(slice, bypass_pin(letter)),
                        CarryData::Bypass => Source::Signal(Signal::O5(letter).of_slice(slice)),
                    };
                }
            },
        ),
        with_reads(
            "carry data is always AX",
            |design, slice, signal, sources| {
                if let Signal::Carry(letter) = signal {
                    if design.slices[slice].carry_data[letter] == CarryData::Bypass {
                        sources[2] = design.pin(slice, bypass_pin(A));
                    }
                }
            },
        ),
        with_reads("sum doesn't read O6", |_, _, signal, sources| {
            if matches!(signal, Signal::Sum(_)) {
                sources.remove(0);
            }
        }),
        with_reads("sum doesn't read the carry in", |_, _, signal, sources| {
            if matches!(signal, Signal::Sum(_)) {
                sources.remove(1);
            }
        }),
        with_reads("sum reads the carry out", |_, slice, signal, sources| {
            if let Signal::Sum(letter) = signal {
                sources[1] = Source::Signal(Signal::Carry(letter).of_slice(slice));
            }
        }),
        with_reads(
            "carry start reads AX always",
            |design, slice, signal, sources| {
                if matches!(signal, Signal::Carry(A) | Signal::Sum(A)) {
                    sources.push(design.pin(slice, bypass_pin(A)));
                }
            },
        ),
        with_start("carry start AX unread", CarryStart::Ax, |_, _| {
            Source::Constant(false)
        }),
        with_start("carry start AX is BX", CarryStart::Ax, |design, slice| {
            design.pin(slice, bypass_pin(B))
        }),
        with_start("slice below unread", CarryStart::SliceBelow, |_, _| {
            Source::Constant(false)
        }),
        with_start(
            "A carry of the slice below",
            CarryStart::SliceBelow,
            |_, slice| Source::Signal(Signal::Carry(A).of_slice(slice - 1)),
        ),
        with_start(
            "D sum of the slice below",
            CarryStart::SliceBelow,
            |_, slice| Source::Signal(Signal::Sum(D).of_slice(slice - 1)),
        ),
        with_start(
            "D carry of the slice above",
            CarryStart::SliceBelow,
            |design, slice| {
                if slice + 1 < design.n {
                    Source::Signal(Signal::Carry(D).of_slice(slice + 1))
                } else {
                    Source::Constant(false)
                }
            },
        ),
        with_start("D carry of slice 0", CarryStart::SliceBelow, |_, _| {
            Source::Signal(Signal::Carry(D).of_slice(0))
        }),
    ]
}

/// A model with another meaning of one carry start.
fn with_start(
    name: &str,
    start: CarryStart,
    meaning: impl Fn(&Design, usize) -> Source + 'static,
) -> Mutant {
    with_reads(name, move |design, slice, signal, sources| {
        let into_a = matches!(signal, Signal::Carry(A) | Signal::Sum(A));
        if into_a && design.slices[slice].carry_start == start {
            sources[1] = meaning(design, slice);
        }
    })
}

/// Mistakes about F7A, F7B, F8 and MC31.
fn wides() -> Vec<Mutant> {
    let mut mutants = vec![];
    let reads = [
        (Signal::F7A, ["AX", "O6 of A", "O6 of B"]),
        (Signal::F7B, ["CX", "O6 of C", "O6 of D"]),
        (Signal::F8, ["BX", "F7A", "F7B"]),
    ];
    for (wide, names) in reads {
        for (i, read) in names.into_iter().enumerate() {
            let name = format!("{wide:?} doesn't read {read}");
            mutants.push(with_reads(name, move |_, _, signal, sources| {
                if signal == wide {
                    sources.remove(i);
                }
            }));
        }
    }
    let selects = [
        (Signal::F7A, B),
        (Signal::F7B, D),
        (Signal::F8, C),
        (Signal::F8, D),
    ];
    for (wide, letter) in selects {
        let name = format!("{wide:?} selected by {}", PIN_NAMES[bypass_pin(letter)]);
        mutants.push(with_reads(name, move |design, slice, signal, sources| {
            if signal == wide {
                sources[0] = design.pin(slice, bypass_pin(letter));
            }
        }));
    }
    mutants.push(with_reads(
        "MC31 reads A's table pins",
        |design, slice, signal, sources| {
            if signal == Signal::Mc31 {
                let pins = table_pins(A, 1, 6).into_iter();
                sources.extend(pins.map(|pin| design.pin(slice, pin)));
            }
        },
    ));
    mutants.push(with_reads(
        "MC31 reads A's table pins in shift",
        |design, slice, signal, sources| {
            if signal == Signal::Mc31 && design.slices[slice].mode[A] == Mode::Shift {
                let pins = table_pins(A, 2, 6).into_iter();
                sources.extend(pins.map(|pin| design.pin(slice, pin)));
            }
        },
    ));
    mutants
}

/// Mistakes about the MUX outputs.
fn muxes() -> Vec<Mutant> {
    let wide = |name: &str, wides: [Signal; 4]| {
        with_reads(name, move |design, slice, signal, sources| {
            if let Signal::Mux(letter) = signal {
                if design.slices[slice].mux[letter] == MuxOutput::Wide {
                    sources[0] = Source::Signal(wides[letter].of_slice(slice));
                }
            }
        })
    };
    let taken = |name: &str, choice: MuxOutput, other: fn(usize) -> Signal| {
        with_reads(name, move |design, slice, signal, sources| {
            if let Signal::Mux(letter) = signal {
                if design.slices[slice].mux[letter] == choice {
                    sources[0] = Source::Signal(other(letter).of_slice(slice));
                }
            }
        })
    };
    let (f7a, f7b, f8, mc31) = (Signal::F7A, Signal::F7B, Signal::F8, Signal::Mc31);
    vec![
        with_reads("MUX reads all its choices", |_, slice, signal, sources| {
            if let Signal::Mux(letter) = signal {
                let all = [
                    Signal::O5(letter),
                    Signal::Sum(letter),
                    Signal::Carry(letter),
                    Signal::wide(letter),
                ];
                *sources = all
                    .map(|signal| Source::Signal(signal.of_slice(slice)))
                    .to_vec();
            }
        }),
        with_reads("MUX reads nothing", |_, _, signal, sources| {
            if matches!(signal, Signal::Mux(_)) {
                sources.clear();
            }
        }),
        wide("wide is F7A, F7B, F8, MC31", [f7a, f7b, f8, mc31]),
        wide("wide is F7A, F8, F7B, F8", [f7a, f8, f7b, f8]),
        wide("wide is F7A, F7A, F7B, F7B", [f7a, f7a, f7b, f7b]),
        wide("wide is F7A, F8, MC31, F7B", [f7a, f8, mc31, f7b]),
        taken("MUX choice O5 takes O6", MuxOutput::O5, Signal::O6),
        taken(
            "MUX choice sum takes the carry",
            MuxOutput::Sum,
            Signal::Carry,
        ),
        taken(
            "MUX choice carry takes the sum",
            MuxOutput::Carry,
            Signal::Sum,
        ),
        taken(
            "MUX choice second flip-flop takes O5",
            MuxOutput::Second,
            Signal::O5,
        ),
    ]
}

/// What is read at the edge read at once.
fn edges() -> Vec<Mutant> {
    vec![
        with_reads("main flip-flops read O6", |_, slice, signal, sources| {
            if let Signal::Main(letter) = signal {
                sources.push(Source::Signal(Signal::O6(letter).of_slice(slice)));
            }
        }),
        with_reads(
            "main flip-flops read the bypass pin",
            |design, slice, signal, sources| {
                if let Signal::Main(letter) = signal {
                    sources.push(design.pin(slice, bypass_pin(letter)));
                }
            },
        ),
        with_reads("second flip-flops read O5", |_, slice, signal, sources| {
            if let Signal::Second(letter) = signal {
                sources.push(Source::Signal(Signal::O5(letter).of_slice(slice)));
            }
        }),
        with_reads(
            "second flip-flops read the bypass pin",
            |design, slice, signal, sources| {
                if let Signal::Second(letter) = signal {
                    sources.push(design.pin(slice, bypass_pin(letter)));
                }
            },
        ),
        with_reads("flip-flops read CE", |design, slice, signal, sources| {
            if matches!(signal, Signal::Main(_) | Signal::Second(_)) {
                sources.push(design.pin(slice, CE));
            }
        }),
        with_reads(
            "flip-flops read SR where used",
            |design, slice, signal, sources| {
                if matches!(signal, Signal::Main(_)) && design.slices[slice].set_reset_used {
                    sources.push(design.pin(slice, SR));
                }
            },
        ),
        with_reads(
            "memory reads its data pin",
            |design, slice, signal, sources| {
                if let Signal::O6(letter) = signal {
                    if design.slices[slice].mode[letter] == Mode::Memory {
                        sources.push(design.pin(slice, bypass_pin(letter)));
                    }
                }
            },
        ),
        with_reads("memory reads WE", |design, slice, signal, sources| {
            if let Signal::O6(letter) = signal {
                if design.slices[slice].mode[letter] == Mode::Memory {
                    sources.push(design.pin(slice, WE));
                }
            }
        }),
        with_reads(
            "shift reads its data pin",
            |design, slice, signal, sources| {
                if let Signal::O6(letter) = signal {
                    if design.slices[slice].mode[letter] == Mode::Shift {
                        sources.push(design.pin(slice, bypass_pin(letter)));
                    }
                }
            },
        ),
        with_reads(
            "a cascade reads the next letter",
            |design, slice, signal, sources| {
                if let Signal::O6(letter @ (A | B | C)) = signal {
                    if design.slices[slice].shift_data[letter] == ShiftData::Cascade {
                        sources.push(Source::Signal(Signal::O6(letter + 1).of_slice(slice)));
                    }
                }
            },
        ),
    ]
}
