//! The search for all reachable configurations: document 01, "Distances and configurations". A distance is a number of exits taken (document
//! 02, T-04).

use super::flow::{Flow, Instruction, Refusal};
use std::cmp::{Ordering, Reverse};
use std::collections::{BTreeSet, BinaryHeap, HashMap, HashSet};
use std::hash::{BuildHasherDefault, Hasher};

/// More cells than these do not count.
const CELLS: usize = 65_536;

/// Two variables that are compared: the position of each, 0 below C1, 1 inside, 2 above C2, and the order of their values.
pub type Pair = (usize, usize, Ordering);

fn pair<T: Ord>(x: T, y: T, low: T, high: T) -> Pair {
    let position = |z: &T| usize::from(*z >= low) + usize::from(*z > high);
    (position(&x), position(&y), x.cmp(&y))
}

/// The reachable configurations, the distances of exit p and exit m of instruction i at i - 1 (None for none, and for an
/// instruction without two exits), the greatest number of exits that a configuration takes to be arrived at, and the pairs of two
/// different variables that are compared in reachable configurations.
#[derive(Clone, Debug, PartialEq, Eq)]
pub struct Census {
    pub configurations: usize,
    pub p: Vec<Option<u32>>,
    pub m: Vec<Option<u32>>,
    pub depth: u32,
    pub pairs: BTreeSet<Pair>,
}

impl Census {
    fn new(flow: &Flow) -> Census {
        let none = vec![None; flow.instructions.len()];
        Census { configurations: 0, p: none.clone(), m: none, depth: 0, pairs: BTreeSet::new() }
    }

    /// Exit p or m of instruction `at` is taken as exit number `distance`; the first taking counts. Gives that exit's target.
    fn take(&mut self, at: usize, (p, m): (usize, usize), exit_p: bool, distance: u32) -> usize {
        let exit = if exit_p { &mut self.p[at - 1] } else { &mut self.m[at - 1] };
        exit.get_or_insert(distance);
        if exit_p {
            p
        } else {
            m
        }
    }
}

/// A hasher for one packed word.
#[derive(Default)]
struct Mix(u64);

impl Hasher for Mix {
    fn finish(&self) -> u64 {
        self.0
    }

    fn write(&mut self, bytes: &[u8]) {
        bytes.iter().for_each(|&byte| self.write_u64(u64::from(byte)));
    }

    fn write_u64(&mut self, word: u64) {
        let mixed = u128::from(self.0 ^ word) * 0x9E37_79B9_7F4A_7C15;
        self.0 = mixed as u64 ^ (mixed >> 64) as u64;
    }

    fn write_u128(&mut self, word: u128) {
        self.write_u64(word as u64);
        self.write_u64((word >> 64) as u64);
    }
}

type Words = HashSet<u128, BuildHasherDefault<Mix>>;
type Numbers = HashMap<u128, u32, BuildHasherDefault<Mix>>;

/// A pattern: a value from C1 to C2 stands for itself, C2 + r for rank r above C2, C1 - r for rank r below C1. The numbers of a
/// pattern lie in the order of the values that it stands for. Variables past V stay 0, which lies inside.
type Pattern = [i32; 4];

/// The greatest rank, and the bits of one number of a pattern: C2 + 4 less C1 - 4 is at most 20,006 (document 02, T-09).
const RANKS: i32 = 4;
const BITS: u32 = 15;

struct Search {
    low: i32,
    high: i32,
    room: usize,
    /// Each configuration arrived at, with the least length of a way to it so far, and the same to be gone on from, the least first.
    found: Numbers,
    due: BinaryHeap<Reverse<(u32, u128)>>,
    /// Where reads have led already: target, variable, tapes ended and the pattern of the other variables.
    fans: Words,
}

impl Search {
    fn pack(&self, at: usize, ended: u8, pattern: Pattern) -> u128 {
        let first = (at as u128) << 3 | u128::from(ended);
        pattern.iter().fold(first, |word, &x| word << BITS | (x - self.low + RANKS) as u128)
    }

    fn unpack(&self, mut word: u128) -> (usize, u8, Pattern) {
        let mut pattern = [0; 4];
        for x in pattern.iter_mut().rev() {
            *x = (word & ((1 << BITS) - 1)) as i32 + self.low - RANKS;
            word >>= BITS;
        }
        ((word >> 3) as usize, (word & 7) as u8, pattern)
    }

    /// Arrival at a configuration by a way of this length. Refusal 9 if it is new and no cell is left for it.
    fn arrive(&mut self, length: u32, at: usize, ended: u8, pattern: Pattern) -> Result<(), Refusal> {
        let word = self.pack(at, ended, pattern);
        let least = self.found.get(&word).copied();
        if least.is_none() && self.found.len() == self.room {
            return Err(Refusal { number: 9, place: 0 });
        }
        if least.map_or(true, |least| length < least) {
            self.found.insert(word, length);
            self.due.push(Reverse((length, word)));
        }
        Ok(())
    }

    /// The pattern of the other variables when the value of `v` is given up: `v` goes to 0, and where it alone held a rank, the
    /// ranks farther out move in by one.
    fn without(&self, mut pattern: Pattern, v: usize) -> Pattern {
        let old = std::mem::replace(&mut pattern[v - 1], 0);
        if (self.low..=self.high).contains(&old) || pattern.contains(&old) {
            return pattern;
        }
        for x in &mut pattern {
            if old > self.high && *x > old {
                *x -= 1;
            } else if old < self.low && *x < old {
                *x += 1;
            }
        }
        pattern
    }

    /// All configurations to which the read of a record to `v` may lead, `others` being the pattern without `v`. Records may be
    /// of any size, so the values held outside C1 to C2 can lie as far apart as a later record needs: besides every whole number
    /// from C1 to C2 the record may share any rank held, or take a new rank before, between or beyond those held.
    fn fan(&mut self, length: u32, at: usize, ended: u8, others: Pattern, v: usize) -> Result<(), Refusal> {
        let key = self.pack(at, ended, others) | (v as u128) << 120;
        if !self.fans.insert(key) {
            return Ok(());
        }
        let (low, high) = (self.low, self.high);
        let (least, greatest) = others.iter().fold((low, high), |(least, greatest), &x| (least.min(x), greatest.max(x)));
        for record in least..=greatest {
            let mut pattern = others;
            pattern[v - 1] = record;
            self.arrive(length, at, ended, pattern)?;
        }
        for record in high + 1..=greatest + 1 {
            let mut pattern = others.map(|x| if x >= record { x + 1 } else { x });
            pattern[v - 1] = record;
            self.arrive(length, at, ended, pattern)?;
        }
        for record in least - 1..low {
            let mut pattern = others.map(|x| if x <= record { x - 1 } else { x });
            pattern[v - 1] = record;
            self.arrive(length, at, ended, pattern)?;
        }
        Ok(())
    }

    /// The step out of a configuration. The way is `exit` long with it if it takes an exit, and `plain` if it does not. What can follow
    /// depends on the configuration alone; where a read of a record leads does not depend on the value that its variable had, so what
    /// comes first, by the shortest way, counts.
    fn step(&mut self, flow: &Flow, word: u128, (exit, plain): (u32, u32), census: &mut Census) -> Result<(), Refusal> {
        let (at, ended, pattern) = self.unpack(word);
        let mut compare = |holds: bool, p: usize, m: usize| census.take(at, (p, m), holds, exit);
        match flow.instructions[at - 1] {
            Instruction::Read { tape, v, p, m } => {
                let bit = 1 << (tape - 1);
                if ended & bit == 0 {
                    let target = compare(true, p, m);
                    self.fan(exit, target, ended, self.without(pattern, v), v)?;
                }
                let target = compare(false, p, m);
                self.arrive(exit, target, ended | bit, pattern)
            }
            Instruction::Put { n, .. } | Instruction::Nop { n } => self.arrive(plain, n, ended, pattern),
            Instruction::Copy { u, v, n } if u == v => self.arrive(plain, n, ended, pattern),
            Instruction::Copy { u, v, n } => {
                let mut after = self.without(pattern, v);
                after[v - 1] = after[u - 1];
                self.arrive(plain, n, ended, after)
            }
            Instruction::Set { c, v, n } => {
                let mut after = self.without(pattern, v);
                after[v - 1] = c as i32;
                self.arrive(plain, n, ended, after)
            }
            Instruction::Less { u, v, p, m } => {
                let target = compare(pattern[u - 1] < pattern[v - 1], p, m);
                census.pairs.extend((u != v).then(|| pair(pattern[u - 1], pattern[v - 1], self.low, self.high)));
                self.arrive(exit, target, ended, pattern)
            }
            Instruction::Over { c, v, p, m } => self.arrive(exit, compare((c as i32) < pattern[v - 1], p, m), ended, pattern),
            Instruction::Under { v, c, p, m } => self.arrive(exit, compare(pattern[v - 1] < c as i32, p, m), ended, pattern),
            Instruction::Stop => Ok(()),
        }
    }
}

/// All reachable configurations, the nearest first, or refusal 9 if they outnumber the cells. A step that takes no exit adds `plain` to
/// the length of a way, another adds 1.
fn searched(flow: &Flow, cells: usize, plain: u32) -> Result<Census, Refusal> {
    let (low, high) = flow.bounds();
    let (found, due, fans) = (Numbers::default(), BinaryHeap::new(), Words::default());
    let mut search = Search { low: low as i32, high: high as i32, room: cells.min(CELLS), found, due, fans };
    let mut census = Census::new(flow);
    search.arrive(0, 1, 0, [0; 4])?;
    while let Some(Reverse((length, word))) = search.due.pop() {
        // Or a shorter way was found, and it was gone on from.
        if search.found[&word] == length {
            census.depth = length;
            search.step(flow, word, (length + 1, length + plain), &mut census)?;
        }
    }
    census.configurations = search.found.len();
    Ok(census)
}

/// The census of a flow, in exits.
pub fn census(flow: &Flow, cells: usize) -> Result<Census, Refusal> {
    searched(flow, cells, 0)
}

/// The same in steps, which are no distances: where the two differ, the exits were not counted for nothing.
pub fn in_steps(flow: &Flow, cells: usize) -> Result<Census, Refusal> {
    searched(flow, cells, 1)
}

/// The pattern of actual numbers, by the words of document 01: for each variable its side (-1 below C1, 0 inside, 1 above C2) and
/// its rank counted from the nearest, or inside the value itself.
pub fn pattern_of(values: &[i64], low: i64, high: i64) -> Vec<(i8, i64)> {
    let ranked = |mut side: Vec<i64>, x: i64| {
        side.sort_unstable();
        side.dedup();
        side.iter().filter(|&&y| y <= x).count() as i64
    };
    let place = |&x: &i64| match x {
        x if x > high => (1, ranked(values.iter().filter(|&&y| y > high).map(|&y| y - high).collect(), x - high)),
        x if x < low => (-1, ranked(values.iter().filter(|&&y| y < low).map(|&y| low - y).collect(), low - x)),
        x => (0, x),
    };
    values.iter().map(place).collect()
}

/// A second search, for small flows, that knows no patterns: its states are an instruction, the tapes ended and actual numbers,
/// and every read tries every whole number from C1 - reach to C2 + reach. The states are gone through by levels: all that are arrived
/// at with so many exits and not with fewer. The configurations are counted at the end.
pub fn by_numbers(flow: &Flow, reach: i64) -> Census {
    type State = (usize, u8, Vec<i64>);
    let (low, high) = flow.bounds();
    let trials = low - reach..=high + reach;
    let width = (high - low + 2 * reach + 1) as usize;
    let place = |(at, ended, held): &State| held.iter().fold(at * 8 + *ended as usize, |i, &x| i * width + (x - low + reach) as usize);
    let mut seen = vec![false; (flow.instructions.len() + 1) * 8 * width.pow(flow.variables as u32)];
    let mut census = Census::new(flow);
    let mut configurations = HashSet::new();
    let mut level: Vec<State> = vec![(1, 0, vec![0; flow.variables])];
    let mut exits = 0;
    while !level.is_empty() {
        let mut following: Vec<State> = Vec::new();
        while let Some(state) = level.pop() {
            if std::mem::replace(&mut seen[place(&state)], true) {
                continue;
            }
            let (at, ended, held) = state;
            if configurations.insert((at, ended, pattern_of(&held, low, high))) {
                census.depth = exits;
            }
            let with = |v: usize, x: i64| {
                let mut held = held.clone();
                held[v - 1] = x;
                held
            };
            let mut take = |p, m, exit_p| census.take(at, (p, m), exit_p, exits + 1);
            match flow.instructions[at - 1] {
                Instruction::Read { tape, v, p, m } => {
                    if ended >> (tape - 1) & 1 == 0 {
                        take(p, m, true);
                        let arrived = trials.clone().map(|record| (p, ended, with(v, record)));
                        following.extend(arrived.filter(|state| !seen[place(state)]));
                    }
                    following.push((take(p, m, false), ended | 1 << (tape - 1), held));
                }
                Instruction::Put { n, .. } | Instruction::Nop { n } => level.push((n, ended, held)),
                Instruction::Copy { u, v, n } => level.push((n, ended, with(v, held[u - 1]))),
                Instruction::Set { c, v, n } => level.push((n, ended, with(v, c))),
                Instruction::Less { u, v, p, m } => {
                    let target = take(p, m, held[u - 1] < held[v - 1]);
                    census.pairs.extend((u != v).then(|| pair(held[u - 1], held[v - 1], low, high)));
                    following.push((target, ended, held));
                }
                Instruction::Over { c, v, p, m } => following.push((take(p, m, c < held[v - 1]), ended, held)),
                Instruction::Under { v, c, p, m } => following.push((take(p, m, held[v - 1] < c), ended, held)),
                Instruction::Stop => {}
            }
        }
        level = following;
        exits += 1;
    }
    census.configurations = configurations.len();
    census
}
