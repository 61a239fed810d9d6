//! Rows lent to the library: filled with known cells, with guards on both sides, so that every cell that changes is seen.

use crate::ffi::Words;
use crate::rng::Rng;
use std::fmt::Debug;
use std::ptr::NonNull;

const GUARD: usize = 4;

pub trait Cell: Copy + PartialEq + Debug {
    const ZERO: Self;
    fn of(x: u64) -> Self;
}

macro_rules! cell {
    ($t:ty) => {
        impl Cell for $t {
            const ZERO: $t = 0;
            fn of(x: u64) -> $t {
                x as $t
            }
        }
    };
}

cell!(u8);
cell!(u32);
cell!(u64);
cell!(usize);
cell!(i32);

impl Cell for Words {
    const ZERO: Words = [0; 10];
    fn of(x: u64) -> Words {
        std::array::from_fn(|i| x.rotate_left(4 * i as u32) as u32 | 1)
    }
}

pub struct Lent<T> {
    cells: Vec<T>,
    before: Vec<T>,
}

impl<T: Cell> Lent<T> {
    /// A row of so many cells, none of them 0.
    pub fn new(rng: &mut Rng, len: usize) -> Lent<T> {
        let cells: Vec<T> = (0..len + 2 * GUARD).map(|_| T::of(rng.next() | 1)).collect();
        Lent { before: cells.clone(), cells }
    }

    /// A row with this content.
    pub fn of(rng: &mut Rng, content: &[T]) -> Lent<T> {
        let mut row = Lent::new(rng, content.len());
        row.cells[GUARD..GUARD + content.len()].copy_from_slice(content);
        Lent { before: row.cells.clone(), cells: row.cells }
    }

    /// A row for an answer of so many cells: mostly of that size, sometimes shorter or longer.
    pub fn for_answer(rng: &mut Rng, full: usize) -> Lent<T> {
        let size = match rng.below(6) {
            0 => rng.below(full + 1),
            1 => full + 1 + rng.below(5),
            _ => full,
        };
        Lent::new(rng, size)
    }

    pub fn len(&self) -> usize {
        self.cells.len() - 2 * GUARD
    }

    pub fn ptr(&mut self) -> *mut T {
        self.cells[GUARD..].as_mut_ptr()
    }

    pub fn now(&self) -> &[T] {
        &self.cells[GUARD..GUARD + self.len()]
    }

    fn guards(&self) -> bool {
        let end = self.cells.len() - GUARD;
        self.cells[..GUARD] == self.before[..GUARD] && self.cells[end..] == self.before[end..]
    }

    /// What differs from the row as it was lent.
    pub fn changed(&self, name: &str) -> Option<String> {
        self.fault(name, &[])
    }

    /// What differs from this content at the row's start, cut to the row, with all cells after it as they were.
    pub fn fault(&self, name: &str, content: &[T]) -> Option<String> {
        let mut want = self.before[GUARD..GUARD + self.len()].to_vec();
        let n = content.len().min(want.len());
        want[..n].copy_from_slice(&content[..n]);
        self.differs(name, &want)
    }

    /// What differs from a row of zeros.
    pub fn not_zero(&self, name: &str) -> Option<String> {
        self.differs(name, &vec![T::ZERO; self.len()])
    }

    fn differs(&self, name: &str, want: &[T]) -> Option<String> {
        if !self.guards() {
            return Some(format!("{name}: cells outside the row of {} are changed", self.len()));
        }
        let i = (0..self.len()).find(|i| self.now()[*i] != want[*i])?;
        Some(format!("{name}[{i}] of {}: is {:?}, should be {:?}", self.len(), self.now()[i], want[i]))
    }

    /// What changed outside the row.
    pub fn outside(&self, name: &str) -> Option<String> {
        (!self.guards()).then(|| format!("{name}: cells outside the row of {} are changed", self.len()))
    }
}

impl Lent<u8> {
    /// The pointer of a text. For an empty text it is not read, so in half of the cases it points to no memory: to read it crashes.
    pub fn text(&mut self, rng: &mut Rng) -> *const u8 {
        if self.len() == 0 && rng.percent(50) {
            return NonNull::dangling().as_ptr();
        }
        self.ptr()
    }
}

/// Cells for a search. They hold any numbers but 0, numbers that could name one of them, or what the last call left.
pub fn cells(rng: &mut Rng, len: usize, left: &[Words]) -> Lent<Words> {
    match rng.below(3) {
        0 if !left.is_empty() => Lent::of(rng, &left.iter().copied().cycle().take(len).collect::<Vec<_>>()),
        1 => {
            let content: Vec<Words> = (0..len).map(|_| [0; 10].map(|_| 1 + rng.below(len + 1) as u32)).collect();
            Lent::of(rng, &content)
        }
        _ => Lent::new(rng, len),
    }
}
