//! The test bench.

use model::design::SIGNALS;

use crate::cells::Netlist;
use crate::text::range;

/// The most clocks that can be asked for.
pub const MOST_CLOCKS: usize = 1_000_000;

/// What the test bench does: so many clocks, the first of them with these inputs, each a text of 0 and 1 with input 0 first. The last are held; before any
/// are given, all are 0.
#[derive(Clone, Debug, PartialEq)]
pub struct Stimulus {
    pub clocks: usize,
    pub inputs: Vec<String>,
}

impl Stimulus {
    /// Of the words CLOCKS and INPUTS, for m outside inputs.
    pub fn parse(m: usize, words: &[String]) -> Result<Stimulus, String> {
        let Some((clocks, inputs)) = words.split_first() else {
            return Ok(Stimulus {
                clocks: 1,
                inputs: vec![],
            });
        };
        let clocks = match clocks.parse() {
            Ok(clocks) if (1..=MOST_CLOCKS).contains(&clocks) => clocks,
            _ => return Err(format!("CLOCKS is a number from 1 to {MOST_CLOCKS}")),
        };
        let is_bits =
            |word: &String| word.len() == m && word.chars().all(|x| matches!(x, '0' | '1'));
        if !inputs.iter().all(is_bits) {
            return Err(format!(
                "INPUTS has {m} digits 0 or 1, one for each outside input"
            ));
        }
        if inputs.len() > clocks {
            return Err("more INPUTS than CLOCKS".to_string());
        }
        let inputs = inputs.to_vec();
        Ok(Stimulus { clocks, inputs })
    }

    /// The statements that do it.
    fn statements(&self, m: usize) -> String {
        let set = |inputs: &String| match m {
            0 => "    clock;\n".to_string(),
            _ => format!("    inputs = {m}'b{inputs}; clock;\n"),
        };
        let mut text: String = self.inputs.iter().map(set).collect();
        let held = self.clocks - self.inputs.len();
        if held > 0 {
            text += &format!("    repeat ({held}) clock;\n");
        }
        text
    }
}

/// What a line has of a slice: each name with the signals that follow it, by the first one's number and their count.
const SHOWN: [(&str, usize, usize); 11] = [
    ("O6", 0, 4),
    ("O5", 4, 4),
    ("CARRY", 8, 4),
    ("SUM", 12, 4),
    ("F7A", 16, 1),
    ("F7B", 17, 1),
    ("F8", 18, 1),
    ("MC31", 19, 1),
    ("MUX", 20, 4),
    ("Q", 24, 4),
    ("5Q", 28, 4),
];

/// Module `test_bench`.
pub fn test_bench(netlist: &Netlist, stimulus: &Stimulus) -> String {
    let n = netlist.slices.len();
    let m = netlist.m;
    let (inputs, port) = match m {
        0 => (String::new(), ""),
        _ => (
            format!("  reg {} inputs = {m}'b0;\n", range(m)),
            ".inputs(inputs), ",
        ),
    };
    let signals = range(SIGNALS * n);
    let show = show(n);
    let statements = stimulus.statements(m);
    format!(
        "module test_bench;
  reg clk = 1'b0;
{inputs}  wire {signals} signals;
  integer count = 0;
  integer s;
  column column (.clk(clk), {port}.signals(signals));

{show}{CLOCK}
  initial begin
    if ($test$plusargs(\"vcd\")) begin
      $dumpfile(\"column.vcd\");
      $dumpvars(2, test_bench);
    end
{statements}    $finish(0);
  end
endmodule
"
    )
}

/// The task that makes one clock. Inputs change while the clock is low, and then have ten microseconds to settle: that leaves room for models with
/// delays or a reset at power-up.
const CLOCK: &str = "
  // The signals settled before the edge are shown, then comes the edge
  task clock;
    begin
      #10000000 show;
      clk = 1'b1;
      #10000000 clk = 1'b0;
      count = count + 1;
    end
  endtask
";

/// The task that writes a line for each slice.
fn show(n: usize) -> String {
    let names = SHOWN.iter().map(|(name, _, _)| format!(" {name} %b"));
    let format: String = names.collect();
    let parts = SHOWN
        .iter()
        .map(|(_, first, count)| format!(",\n        signals[{SIGNALS} * s + {first} +: {count}]"));
    let parts: String = parts.collect();
    format!(
        "  // A line for each slice; four bits are letters A to D
  task show;
    for (s = 0; s < {n}; s = s + 1)
      $display(
        \"clock %0d slice %0d{format}\",
        count, s{parts}
      );
  endtask
"
    )
}
