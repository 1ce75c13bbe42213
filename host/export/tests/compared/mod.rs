//! Random designs in iverilog, beside the library and the model.

use std::path::Path;

use export::{iverilog, verilog, Netlist, Stimulus};
use model::design::SIGNALS;
use model::{Design, Simulator, Workings};
use testkit::prng::Prng;
use testkit::random;
use workbench::Workbench;

/// The clocks that each design runs for.
pub const CLOCKS: usize = 12;

/// Of the accepted files of a seed one in so many is run.
const ONE_IN: usize = 8;

/// The signals of each clock.
type Rows = Vec<Vec<u8>>;

/// A file, its place among those of the seed, and what it has to show.
pub struct Subject {
    pub number: usize,
    pub file: Vec<u8>,
    pub design: Design,
    stimulus: Stimulus,
    by_library: Rows,
    by_model: Rows,
}

pub fn subjects(seed: u64, times: usize) -> Vec<Subject> {
    let files = random::files(seed, times).into_iter().enumerate();
    let accepted = files.filter_map(|(number, file)| {
        let simulator = Simulator::new(Workings::paper(), &file);
        let design = simulator.design().ok()?.clone();
        Some((number, file, simulator, design))
    });
    let subject = |(number, file, simulator, design): (usize, Vec<u8>, Simulator, Design)| {
        let inputs = random_inputs(seed ^ (number as u64) << 32, design.m);
        let digits = |bits: &Vec<u8>| bits.iter().map(u8::to_string).collect();
        Subject {
            number,
            stimulus: Stimulus {
                clocks: CLOCKS,
                inputs: inputs.iter().map(digits).collect(),
            },
            by_library: library_rows(&file, &inputs),
            by_model: model_rows(&simulator, design.n, &inputs),
            design,
            file,
        }
    };
    accepted.step_by(ONE_IN).map(subject).collect()
}

fn random_inputs(seed: u64, m: usize) -> Rows {
    let mut rng = Prng::new(seed);
    let mut bits = |_| (0..m).map(|_| rng.below(2) as u8).collect();
    (0..CLOCKS).map(&mut bits).collect()
}

impl Subject {
    /// The source for a netlist of this design, right or wrong.
    pub fn source(&self, netlist: &Netlist) -> String {
        verilog(netlist, &self.stimulus)
    }

    /// The first signal that differs between iverilog and the library or the model, if any; or why iverilog has no such signals. The name is that of the
    /// run.
    pub fn compare(
        &self,
        cells: &Path,
        name: &str,
        source: &str,
    ) -> Result<Option<String>, String> {
        let folder = Path::new(env!("CARGO_TARGET_TMPDIR"));
        let path = folder.join(format!("{name}-{}", self.number));
        let rows = iverilog::run(cells, &path, source)?;
        let library = first_difference("library", &self.by_library, &rows)?;
        let model = first_difference("model", &self.by_model, &rows)?;
        Ok(library.or(model))
    }

    /// Leaves the file and the source in a folder, and says where.
    pub fn save(&self, folder: &Path, seed: u64, source: &str) -> String {
        let path = folder.join(format!("differing-{seed}-{}.bin", self.number));
        let verilog = path.with_extension("v");
        std::fs::create_dir_all(folder).expect("make the folder");
        std::fs::write(&path, &self.file).expect("write the file");
        std::fs::write(&verilog, source).expect("write the source");
        format!("{}, {}", path.display(), verilog.display())
    }
}

/// The values before each edge, by the library.
fn library_rows(file: &[u8], inputs: &[Vec<u8>]) -> Rows {
    let mut bench = Workbench::up(file.to_vec());
    let row = |inputs: &Vec<u8>| {
        bench.inputs.lend().copy_from_slice(inputs);
        assert_eq!(bench.clock(), Ok(()));
        bench.values.get().to_vec()
    };
    inputs.iter().map(row).collect()
}

/// The values before each edge, by the model.
fn model_rows(simulator: &Simulator, n: usize, inputs: &[Vec<u8>]) -> Rows {
    let mut contents = vec![0; 4 * n];
    let mut flops = vec![0; n];
    assert_eq!(simulator.power_up(&mut contents, &mut flops), Ok(()));
    let row = |inputs: &Vec<u8>| {
        let mut values = vec![0; SIGNALS * n];
        let answer = simulator.clock(&mut contents, &mut flops, inputs, &mut values);
        assert_eq!(answer, Ok(()));
        values
    };
    inputs.iter().map(row).collect()
}

/// The first signal of iverilog's that isn't as expected.
fn first_difference(name: &str, expected: &Rows, rows: &Rows) -> Result<Option<String>, String> {
    let lengths = |rows: &Rows| rows.iter().map(Vec::len).collect::<Vec<_>>();
    if lengths(rows) != lengths(expected) {
        return Err(format!("{:?} signals in the clocks", lengths(rows)));
    }
    Ok((0..rows.len()).find_map(|clock| {
        let (row, expected) = (&rows[clock], &expected[clock]);
        let signal = (0..row.len()).find(|&x| row[x] != expected[x])?;
        Some(format!(
            "clock {clock}, signal {signal}: iverilog has {}, the {name} {}",
            row[signal], expected[signal]
        ))
    }))
}
