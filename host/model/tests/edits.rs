//! Lists of edits made by the model: what each gives is written by hand.

use model::edits::Edit;
use model::simulate::{Answer, Refusal};
use model::{Simulator, Workings};

/// One slice with outside input 0 on A1, contents A that pass it on, and D in shift mode; settled with the input at 0.
#[derive(Clone, Debug, PartialEq)]
struct Running {
    contents: Vec<u64>,
    inputs: Vec<u8>,
    values: Vec<u8>,
}

/// An edit of the input, and one of a table.
fn input(number: u64, value: u64) -> Edit {
    Edit::new(0, number, value)
}

fn table(number: u64, value: u64) -> Edit {
    Edit::new(1, number, value)
}

impl Running {
    fn settled() -> Running {
        Running {
            contents: vec![2, 0, 0, 0],
            inputs: vec![0],
            values: vec![0; 32],
        }
    }

    /// The same with other values, which are not settled.
    fn stale() -> Running {
        Running {
            values: vec![1; 32],
            ..Running::settled()
        }
    }

    fn edit(&mut self, edits: &[Edit]) -> Answer {
        let mut file = vec![1, 2, 0, 1, 1, 2, 0x7c, 0];
        let mut body = [0; 124];
        for (at, byte) in [(1, 1), (5, 2), (10, 2), (62, 0), (63, 1)] {
            body[at] = byte;
        }
        file.extend(body);
        file.extend([3, 0, 0]);
        let simulator = Simulator::new(Workings::paper(), &file);
        let (contents, inputs) = (&mut self.contents, &mut self.inputs);
        simulator.edit(contents, &[0], inputs, &mut self.values, edits)
    }

    /// The signals that are 1 after edits that are made.
    fn ones_after(&mut self, edits: &[Edit]) -> Vec<usize> {
        assert_eq!(self.edit(edits), Ok(()));
        (0..32).filter(|&x| self.values[x] == 1).collect()
    }
}

#[test]
fn edits_of_a_settled_table() {
    let mut running = Running::settled();
    assert_eq!(running.ones_after(&[input(0, 1)]), [0, 4, 12, 20]);
    assert_eq!(running.inputs, [1]);
    assert_eq!(
        running.ones_after(&[input(0, 0), input(0, 1)]),
        [0, 4, 12, 20]
    );
    assert_eq!(running.ones_after(&[input(0, 1), input(0, 0)]), []);
    // A is 1 where the input is 0, then where it is 1.
    let swapped = [table(0, 2), input(0, 0), table(0, 1)];
    assert_eq!(running.ones_after(&swapped), [0, 4, 12, 20]);
    assert_eq!(
        (&running.contents[..], &running.inputs[..]),
        (&[1, 0, 0, 0][..], &[0][..])
    );
}

/// What depends on the input is recomputed: O6, O5 and AMUX of A, all carries and sums, F7A and F8. B, C and D have a stale 1 as O6, so
/// each gives the carry below on, a 0, and its sum is 1; F7A is B's O6 and F8 is F7B, stale ones.
#[test]
fn edits_of_a_stale_table() {
    let left = |zeros: &[usize]| (0..32).filter(|x| !zeros.contains(x)).collect::<Vec<_>>();
    let twice = [input(0, 1), input(0, 0)];
    let zeros = [0, 4, 8, 9, 10, 11, 12, 20];
    assert_eq!(Running::stale().ones_after(&twice), left(&zeros));
    assert_eq!(Running::stale().ones_after(&[]), left(&[]));
    // B as well: its O6 and O5 are 0, so its carry is its data, O5, its sum the carry below, and F7A its O6. BMUX is O5.
    let both = [table(1, 0), input(0, 0)];
    let zeros = [0, 1, 4, 5, 8, 9, 10, 11, 12, 13, 16, 20, 21];
    assert_eq!(Running::stale().ones_after(&both), left(&zeros));
}

/// Whatever is wrong, at whatever place of the list, nothing moves.
#[test]
fn a_bad_edit_refuses_the_list() {
    let refused = |number| Err(Refusal { number, place: 0 });
    let bad = [
        Edit::new(2, 0, 0),
        input(1, 0),
        input(1 << 32, 0),
        input(0, 2),
        input(0, 256),
        table(4, 0),
        table(1 << 32, 0),
        table(3, 1 << 32),
    ];
    for bad in bad {
        for list in [[bad, input(0, 1)], [input(0, 1), bad]] {
            let mut running = Running::stale();
            assert_eq!(running.edit(&list), refused(11), "{list:?}");
            assert_eq!(running, Running::stale(), "{list:?}");
        }
    }
    let overwritten = [table(3, 1 << 32), table(3, 0)];
    assert_eq!(Running::stale().edit(&overwritten), refused(11));
    assert_eq!(Running::stale().edit(&[table(0, 1 << 32)]), Ok(()));
}

#[test]
fn at_most_256_edits() {
    let refused = |number| Err(Refusal { number, place: 0 });
    let mut list = vec![input(0, 1); 256];
    assert_eq!(Running::settled().ones_after(&list), [0, 4, 12, 20]);
    list.push(input(0, 1));
    let mut running = Running::settled();
    assert_eq!(running.edit(&list), refused(11));
    assert_eq!(running, Running::settled());
    running.contents.pop();
    assert_eq!(running.edit(&list), refused(10));
}

/// All that settle tests of its buffers, and the values, also where nothing is edited.
#[test]
fn buffers_are_tested() {
    let refused = |number| Err(Refusal { number, place: 0 });
    type Spoil = fn(&mut Running);
    let spoils: [(Spoil, u8); 5] = [
        (|running| running.contents.push(0), 10),
        (|running| running.values.push(0), 10),
        (|running| running.inputs[0] = 2, 11),
        (|running| running.values[31] = 2, 11),
        (|running| running.contents[3] = 1 << 32, 11),
    ];
    for (spoil, number) in spoils {
        for list in [&[][..], &[input(0, 1)], &[table(3, 0)]] {
            let mut running = Running::settled();
            spoil(&mut running);
            assert_eq!(running.edit(list), refused(number));
        }
    }
}
