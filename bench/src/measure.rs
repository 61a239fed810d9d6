//! Two ways to answer, measured in turn.

use crate::clock;
use std::hint::black_box;

const ROUNDS: usize = 31;

/// The least and the median of all rounds, in nanoseconds; or the ratios of two such.
#[derive(Clone, Copy)]
pub struct Times {
    pub least: f64,
    pub median: f64,
}

fn times(mut all: Vec<f64>) -> Times {
    all.sort_by(f64::total_cmp);
    Times { least: all[0], median: all[all.len() / 2] }
}

#[derive(Clone, Copy)]
pub struct Compared {
    pub one: Times,
    pub other: Times,
}

impl Compared {
    pub fn ratio(&self) -> Times {
        Times { least: self.one.least / self.other.least, median: self.one.median / self.other.median }
    }
}

/// The greatest ratios.
pub fn worst(all: &[Compared]) -> Times {
    let greatest = |of: fn(Times) -> f64| all.iter().map(|c| of(c.ratio())).fold(0.0, f64::max);
    Times { least: greatest(|t| t.least), median: greatest(|t| t.median) }
}

/// The times of two that are measured in turn, on what is lent to both.
pub fn in_turn<C: ?Sized>(lent: &mut C, mut one: impl FnMut(&mut C) -> f64, mut other: impl FnMut(&mut C) -> f64) -> Compared {
    let mut all = (Vec::new(), Vec::new());
    for _ in 0..ROUNDS {
        all.0.push(one(lent));
        all.1.push(other(lent));
    }
    Compared { one: times(all.0), other: times(all.1) }
}

/// The time of one of so many calls.
pub fn each<A>(calls: u64, mut call: impl FnMut() -> A) -> f64 {
    clock::time(calls, || drop(black_box(call())))
}

/// The time of one of so many calls, each after another one, which does not count.
pub fn after<C: ?Sized, A, B>(calls: u64, lent: &mut C, before: impl Fn(&mut C) -> A, call: impl Fn(&mut C) -> B) -> f64 {
    let timed = |_| {
        drop(black_box(before(lent)));
        each(1, || call(lent))
    };
    (0..calls).map(timed).sum::<f64>() / calls as f64
}
