//! The paper's worked cases, run by the model: what each gives is written by hand.

use model::simulate::Refusal;
use model::{Simulator, Workings};

/// The base file Z with bytes of its slice body replaced.
fn z_with(bytes: &[(usize, u8)]) -> Simulator {
    let mut file = vec![1, 2, 0, 1, 0, 2, 0x7c, 0];
    file.extend([0; 124]);
    file.extend([3, 0, 0]);
    for (at, byte) in bytes {
        file[8 + at] = *byte;
    }
    Simulator::new(Workings::paper(), &file)
}

/// The buffers of one slice without inputs, powered up.
struct Running {
    simulator: Simulator,
    contents: [u64; 4],
    flops: [u8; 1],
    values: [u8; 32],
}

impl Running {
    fn new(bytes: &[(usize, u8)]) -> Running {
        let mut running = Running {
            simulator: z_with(bytes),
            contents: [7; 4],
            flops: [7],
            values: [7; 32],
        };
        let Running {
            simulator,
            contents,
            flops,
            ..
        } = &mut running;
        assert_eq!(simulator.power_up(contents, flops), Ok(()));
        running
    }

    /// The signals that are 1 once it has settled.
    fn settle(&mut self) -> Vec<usize> {
        let values = &mut self.values;
        let answer = self
            .simulator
            .settle(&self.contents, &self.flops, &[], values);
        assert_eq!(answer, Ok(()));
        (0..32).filter(|&x| self.values[x] == 1).collect()
    }

    fn clock(&mut self) {
        let (contents, flops) = (&mut self.contents, &mut self.flops);
        let answer = self.simulator.clock(contents, flops, &[], &mut self.values);
        assert_eq!(answer, Ok(()));
    }
}

#[test]
fn cases_1_to_4() {
    let mut all_ones = vec![(46, 1)];
    all_ones.extend((10..42).map(|at| (at, 255)));
    let most: Vec<usize> = (0..=11).chain(16..=18).chain(20..=23).collect();
    assert_eq!(Running::new(&[]).settle(), []);
    assert_eq!(Running::new(&[(10, 1)]).settle(), [0, 4, 12, 20]);
    assert_eq!(Running::new(&[(46, 1)]).settle(), [12]);
    assert_eq!(Running::new(&all_ones).settle(), most);
}

/// SLICEM, D shift, DX and WE at 1.
#[test]
fn case_9() {
    let mut running = Running::new(&[(1, 1), (5, 2), (116, 1), (122, 1)]);
    running.clock();
    assert_eq!(running.contents, [0, 0, 0, 1]);
    for _ in 1..32 {
        running.clock();
    }
    assert_eq!(running.contents, [0, 0, 0, 4_294_967_295]);
}

/// SLICEM, D memory, D1 to D6, DX and WE at 1.
#[test]
fn case_10() {
    let mut bytes = vec![(1, 1), (5, 1), (116, 1), (122, 1)];
    bytes.extend((0..6).map(|pin| (98 + 2 * pin, 1)));
    let mut running = Running::new(&bytes);
    running.clock();
    assert_eq!(running.contents, [0, 0, 0, 9_223_372_036_854_775_808]);
}

/// Set/reset pin used, SR at 1, CE at 0, value 1.
#[test]
fn case_11() {
    let mut running = Running::new(&[(61, 1), (60, 1), (120, 1)]);
    running.clock();
    assert_eq!(running.flops, [1]);
}

/// A1 open and contents A that give it on; CE and AX open, and main A takes AX; the same with SR open and used.
#[test]
fn open_pins() {
    assert_eq!(Running::new(&[(62, 2), (10, 2)]).settle(), [0, 4, 12, 20]);
    let taking = [(51, 5), (110, 2), (118, 2)];
    let reset = [&taking[..], &[(61, 1), (120, 2)]].concat();
    for (bytes, left) in [(&taking[..], 1), (&reset, 0)] {
        let mut running = Running::new(bytes);
        running.clock();
        assert_eq!(running.flops, [left]);
    }
}

/// The file's refusal comes first, then lengths, then what is out of range.
#[test]
fn refusals_in_order() {
    let refused = |number, place| Err(Refusal { number, place });
    let looped = z_with(&[(62, 4), (63, 16)]);
    assert_eq!(looped.settle(&[], &[], &[2], &mut []), refused(9, 4));
    let shifting = z_with(&[(1, 1), (5, 2)]);
    let high = [0, 0, 0, 1 << 32];
    assert_eq!(shifting.settle(&high, &[0], &[], &mut []), refused(10, 0));
    let mut values = [7; 32];
    let answer = shifting.settle(&high, &[0], &[], &mut values);
    assert_eq!((answer, values), (refused(11, 0), [7; 32]));
}
