//! How many cells are enough: document 02, T-01.

use super::flow::{Flow, Refusal};
use super::reader::read;
use super::search::pattern_of;
use std::collections::HashSet;

/// A bound that exceeds this is over.
const MOST: u128 = 65_536;

/// A bound is listed too if there are at most so many choices of values.
const LISTED: u64 = 350;

/// The number of patterns of so many variables with w numbers from C1 to C2, as T-01 has it.
pub fn patterns(variables: usize, w: u128) -> u128 {
    match variables {
        1 => w + 2,
        2 => w.pow(2) + 4 * w + 8,
        3 => w.pow(3) + 6 * w.pow(2) + 24 * w + 44,
        _ => w.pow(4) + 8 * w.pow(3) + 48 * w.pow(2) + 176 * w + 308,
    }
}

/// The same number by a listing of all patterns. No rank is greater than the number of variables, so values up to that many beyond C1 and
/// C2 form them all.
pub fn patterns_listed(variables: usize, low: i64, high: i64) -> u128 {
    let reach = variables as i64;
    let mut found = HashSet::new();
    let mut values = vec![low - reach; variables];
    loop {
        found.insert(pattern_of(&values, low, high));
        // The next choice: the last value that can be raised is, and those after it are the least again.
        let Some(i) = values.iter().rposition(|x| *x < high + reach) else {
            return found.len() as u128;
        };
        values[i] += 1;
        values[i + 1..].fill(low - reach);
    }
}

/// Instructions, times 2 to the power T, times the number of patterns: also past 65,536.
pub fn exact(flow: &Flow) -> u128 {
    let (low, high) = flow.bounds();
    let w = (high - low + 1) as u64;
    let by_formula = flow.instructions.len() as u128 * 2u128.pow(flow.tapes as u32) * patterns(flow.variables, u128::from(w));
    if (w + 2 * flow.variables as u64).saturating_pow(flow.variables as u32) <= LISTED {
        let sets = (0..8u8).filter(|set| set >> flow.tapes == 0).count();
        let places = flow.instructions.iter().flat_map(|_| 0..sets).count() as u128;
        assert_eq!(places * patterns_listed(flow.variables, low, high), by_formula, "a bound by listing and by formula: {flow:?}");
    }
    by_formula
}

/// The bound, or None if it is over.
pub fn bound(flow: &Flow) -> Option<u64> {
    Some(exact(flow)).filter(|bound| *bound <= MOST).map(|bound| bound as u64)
}

/// What the program `bound` prints for a text: one line, ended by byte 10.
pub fn line(text: &[u8]) -> String {
    match read(text).map(|flow| bound(&flow)) {
        Ok(Some(bound)) => format!("bound,{bound}\n"),
        Ok(None) => "bound,over\n".to_string(),
        Err(Refusal { number, place }) => format!("refused,{number},{place}\n"),
    }
}
