//! The lent row of cells: entries of two words, found by a hash index with chains.

/// A place and a pattern take two words each, the low half first. The way of a sample takes the place of the marks.
pub type Cell = [u32; 10];
const PLACE: usize = 0;
const PATTERN: usize = 2;
const DISTANCE: usize = 4;
const PARENT: usize = 5;
const HEAD: usize = 6;
const NEXT: usize = 7;
const MARKS: usize = 8;
const WAY: usize = MARKS;
const BUCKET: usize = 9;

pub struct Cells<'a>(pub &'a mut [Cell]);

const HALF: u64 = 1 << 32;

fn fold(x: u64) -> u64 {
    (x ^ x / HALF) % HALF
}

fn bucket(place: u64, pattern: u64, size: usize) -> usize {
    let low = pattern / 65536 % 65536 * 2654435769;
    let high = pattern / HALF * 2246822519;
    let mixed = fold(fold(low ^ high) * 2654435769);
    let lane = pattern % 65536 * (HALF / size as u64);
    let spread = (mixed + place % HALF * 2654435769 + lane) % HALF;
    (spread * size as u64 / HALF) as usize
}

impl Cells<'_> {
    pub fn size(&self) -> usize {
        self.0.len().min(65_536)
    }

    pub fn clear(&mut self) {
        self.0.fill([0; 10]);
    }

    fn word(&self, i: usize, field: usize) -> u64 {
        u64::from(self.0[i][field]) + u64::from(self.0[i][field + 1]) * HALF
    }

    pub fn place(&self, i: usize) -> u64 {
        self.word(i, PLACE)
    }

    pub fn pattern(&self, i: usize) -> u64 {
        self.word(i, PATTERN)
    }

    pub fn distance(&self, i: usize) -> u32 {
        self.0[i][DISTANCE]
    }

    /// Where the entry stands, if it is stored.
    fn find(&self, first: u32, place: u64, pattern: u64) -> Option<usize> {
        let mut cur = first as usize;
        while cur > 0 {
            let i = cur - 1;
            if self.place(i) == place && self.pattern(i) == pattern {
                return Some(i);
            }
            cur = self.0[i][NEXT] as usize;
        }
        None
    }

    /// The latest entry of a bucket, counted from 1: its head, if that is an entry of this bucket; else 0.
    fn latest(&self, count: usize, bucket: usize) -> u32 {
        let head = self.0[bucket][HEAD];
        let there = 0 < head && head as usize <= count && self.0[head as usize - 1][BUCKET] as usize == bucket;
        if there {
            head
        } else {
            0
        }
    }

    /// Stores an entry, unless it is stored: where it stands. None if there is no cell for it.
    pub fn visit(&mut self, count: &mut usize, size: usize, place: u64, pattern: u64, distance: u32, parent: usize) -> Option<usize> {
        let h = bucket(place, pattern, size);
        let n = *count;
        let next = self.latest(n, h);
        if let Some(i) = self.find(next, place, pattern) {
            return Some(i);
        }
        if n == size {
            return None;
        }
        let cell = &mut self.0[n];
        cell[PLACE] = (place % HALF) as u32;
        cell[PLACE + 1] = (place / HALF) as u32;
        cell[PATTERN] = (pattern % HALF) as u32;
        cell[PATTERN + 1] = (pattern / HALF) as u32;
        cell[DISTANCE] = distance;
        cell[PARENT] = parent as u32;
        cell[NEXT] = next;
        cell[MARKS] = 0;
        cell[BUCKET] = h as u32;
        self.0[h][HEAD] = n as u32 + 1;
        *count += 1;
        Some(n)
    }

    pub fn marked(&self, i: usize, v: u8) -> bool {
        self.0[i][MARKS] >> v & 1 == 1
    }

    pub fn mark(&mut self, i: usize, v: u8) {
        self.0[i][MARKS] |= 1 << v;
    }

    /// Entry t of the way that was traced.
    pub fn way(&self, t: usize) -> usize {
        self.0[t][WAY] as usize
    }

    /// How many parents up from an entry the first entry is.
    pub fn depth(&self, at: usize) -> usize {
        let (mut i, mut steps) = (at, 0);
        while i > 0 {
            i = self.0[i][PARENT] as usize;
            steps += 1;
        }
        steps
    }

    /// The way of parents to an entry, by steps.
    pub fn trace(&mut self, at: usize, steps: usize) {
        let mut i = at;
        for t in (0..=steps).rev() {
            self.0[t][WAY] = i as u32;
            i = self.0[i][PARENT] as usize;
        }
    }
}
