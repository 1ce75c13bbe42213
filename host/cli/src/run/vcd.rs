//! Waves in the form that IEEE 1364 calls a value change dump. A clock takes ten nanoseconds and ends with the edge, at which all signals change.
//! Every wave is one bit, since not every reader takes more: a name of several wires has a wave for each, `position[0]` the lowest. And since not every
//! reader shows the scope that a wave stands in, its name has the slice as well.

use quagmuffin::Column;
use text::names::Wire;

use super::watch::{bit, Watched};
use super::Output;
use crate::failure::Outcome;
use crate::output::Sink;

/// A clock's time, and how long after an edge the clock is high.
const PERIOD: usize = 10;
const HIGH: usize = 5;

/// The clock's own short name.
const CLK: &str = "!";

/// A wave: the slice whose scope it stands in, its name there, and its wire.
struct Wave {
    slice: Option<String>,
    name: String,
    wire: Wire,
}

pub struct Vcd {
    to: Sink,
    waves: Vec<Wave>,
    /// The bits of the clock before, none at first.
    before: Vec<Option<u8>>,
}

impl Vcd {
    /// Writes the declarations.
    pub fn begin(mut to: Sink, watched: &[Watched]) -> Outcome<Vcd> {
        let waves: Vec<Wave> = watched.iter().flat_map(waves).collect();
        let mut text = "$timescale 1 ns $end\n$scope module column $end\n".to_string();
        text += &format!("$var wire 1 {CLK} clk $end\n");
        let mut scope = None;
        for (place, wave) in waves.iter().enumerate() {
            if wave.slice.as_deref() != scope {
                text += &change_of_scope(scope, wave.slice.as_deref());
                scope = wave.slice.as_deref();
            }
            text += &format!("$var wire 1 {} {} $end\n", short_name(place), wave.name);
        }
        text += &change_of_scope(scope, None);
        to.write(text + "$upscope $end\n$enddefinitions $end\n")?;
        let before = vec![None; waves.len()];
        Ok(Vcd { to, waves, before })
    }
}

impl Output for Vcd {
    fn row(&mut self, clock: usize, column: &Column) -> Outcome<()> {
        let start = PERIOD * clock;
        let edge = u8::from(clock > 0);
        let mut text = format!("#{start}\n{edge}{CLK}\n");
        for (place, wave) in self.waves.iter().enumerate() {
            let bit = bit(column, wave.wire);
            if self.before[place].replace(bit) != Some(bit) {
                text += &format!("{bit}{}\n", short_name(place));
            }
        }
        if clock > 0 {
            text += &format!("#{}\n0{CLK}\n", start + HIGH);
        }
        self.to.write(text)
    }

    /// The last edge.
    fn finish(&mut self, clocks: usize) -> Outcome<()> {
        self.to.write(format!("#{}\n1{CLK}\n", PERIOD * clocks))?;
        self.to.flush()
    }
}

/// The waves of what is watched. A signal stands in the scope of its slice; a dot in its name would begin another.
fn waves(watched: &Watched) -> Vec<Wave> {
    let slice = watched.title.split_once('.').map(|(slice, _)| slice);
    let title = watched.title.replace('.', "_");
    let wave = |(place, &wire): (usize, &Wire)| Wave {
        slice: slice.map(str::to_string),
        name: match watched.wires.len() {
            1 => title.clone(),
            _ => format!("{title}[{place}]"),
        },
        wire,
    };
    watched.wires.iter().enumerate().map(wave).collect()
}

fn change_of_scope(from: Option<&str>, to: Option<&str>) -> String {
    let left = from.map_or("", |_| "$upscope $end\n");
    let entered = to.map_or(String::new(), |slice| {
        format!("$scope module {slice} $end\n")
    });
    left.to_string() + &entered
}

/// A short name of printable characters, another one for each place and for the clock.
fn short_name(place: usize) -> String {
    let (first, last) = (b'!', b'~');
    let base = usize::from(last - first) + 1;
    let mut number = place + 1;
    let mut name = String::new();
    loop {
        name.push(char::from(first + (number % base) as u8));
        number /= base;
        if number == 0 {
            return name;
        }
    }
}

#[cfg(test)]
mod tests {
    use super::*;
    use std::collections::HashSet;

    #[test]
    fn short_names_differ() {
        let names: HashSet<String> = (0..20_000).map(short_name).collect();
        assert_eq!(names.len(), 20_000);
        assert!(!names.contains(CLK));
        assert!(names
            .iter()
            .all(|name| name.bytes().all(|x| x.is_ascii_graphic())));
    }
}
