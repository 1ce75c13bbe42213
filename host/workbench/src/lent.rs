//! Buffers to lend, with guards around them, for tests.

use calls::Change;

const GUARDS: usize = 64;

/// A buffer that lies between guards: what is lent is the middle.
#[derive(Clone, Debug, PartialEq)]
pub struct Lent<T> {
    cells: Vec<T>,
    guard: T,
}

impl Lent<u8> {
    pub fn bytes(inside: &[u8]) -> Lent<u8> {
        Lent::new(inside, 0xA5)
    }
}

impl Lent<u64> {
    pub fn words(inside: &[u64]) -> Lent<u64> {
        Lent::new(inside, 0xA5A5_A5A5_A5A5_A5A5)
    }
}

/// The guards are edits of no kind, so that one that is read is refused.
impl Lent<Change> {
    pub fn edits(inside: &[Change]) -> Lent<Change> {
        let guard = Change {
            kind: 0xA5,
            number: 0,
            value: 0,
        };
        Lent::new(inside, guard)
    }
}

impl<T: Copy + PartialEq> Lent<T> {
    fn new(inside: &[T], guard: T) -> Lent<T> {
        let mut cells = vec![guard; GUARDS];
        cells.extend(inside);
        cells.extend(vec![guard; GUARDS]);
        Lent { cells, guard }
    }

    /// A copy of another length, cut or filled up.
    pub fn resized(&self, length: usize, fill: T) -> Lent<T> {
        let mut inside = self.get().to_vec();
        inside.resize(length, fill);
        Lent::new(&inside, self.guard)
    }

    /// Whether the guards stand.
    pub fn is_guarded(&self) -> bool {
        let end = self.cells.len() - GUARDS;
        let mut guards = self.cells[..GUARDS].iter().chain(&self.cells[end..]);
        guards.all(|&cell| cell == self.guard)
    }

    /// The middle, once the guards are seen to stand.
    pub fn get(&self) -> &[T] {
        assert!(self.is_guarded(), "a guard was written");
        &self.cells[GUARDS..self.cells.len() - GUARDS]
    }

    pub fn lend(&mut self) -> &mut [T] {
        let end = self.cells.len() - GUARDS;
        &mut self.cells[GUARDS..end]
    }

    /// The middle and the guards, for a host that writes where it may not.
    pub fn all_cells(&mut self) -> &mut [T] {
        &mut self.cells
    }
}
