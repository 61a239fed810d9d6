//! The library's algorithms in plain Rust: what the library is measured against. Nothing here is proved, and nothing is unsafe.

pub mod cells;
pub mod configuration;
pub mod outside;
pub mod reading;
pub mod running;
pub mod sampling;
pub mod searching;

pub use cells::Cell;

use cells::Cells;
use configuration::{Op, Words};
use reading::Flow;

/// Instructions, configurations, and the distances of exits p and m of instruction i at i - 1; 0 for none.
pub struct Report {
    pub instructions: usize,
    pub configurations: usize,
    pub two: [bool; 64],
    pub p: [u32; 64],
    pub m: [u32; 64],
}

/// The distance, T and the lengths of the tapes.
pub struct Sample {
    pub distance: u32,
    pub tapes: u8,
    pub lengths: [usize; 3],
}

/// A flow prepared for a search.
pub struct Plan {
    pub ops: [Op; 64],
    pub w: u64,
    pub lo: i32,
    pub hi: i32,
    pub start: Words,
}

impl Plan {
    pub fn of(flow: &Flow) -> Plan {
        let (lo, hi) = configuration::range(flow);
        let mut ops = [Op::STOP; 64];
        for (op, x) in ops.iter_mut().zip(&flow.instructions[..flow.count]) {
            *op = configuration::prepare(x, lo);
        }
        Plan { ops, w: (hi - lo) as u64 + 1, lo, hi, start: configuration::start(lo) }
    }
}

/// The refusal's number and place.
pub type Refusal = (u32, u64);

pub fn report(text: &[u8], cells: &mut [Cell]) -> Result<Report, Refusal> {
    let cells = &mut Cells(cells);
    let reported = reading::read(text).and_then(|flow| {
        let plan = Plan::of(&flow);
        let table = outside::table();
        let n = searching::search(cells, &plan, &table).ok_or((9, 0))?;
        let (p, m) = searching::exits(cells, n, &plan, &table);
        let mut two = [false; 64];
        for (two, x) in two.iter_mut().zip(&flow.instructions[..flow.count]) {
            *two = x.kind.two_exits();
        }
        Ok(Report { instructions: flow.count, configurations: n, two, p, m })
    });
    if reported.is_err() {
        cells.clear();
    }
    reported
}

/// The bound on the configurations of a flow, cut off at every stage past 65,536; none if it exceeds that.
pub fn bound(text: &[u8]) -> Result<Option<u64>, Refusal> {
    const MOST: u64 = 65_536;
    let flow = reading::read(text)?;
    let (lo, hi) = configuration::range(&flow);
    let w = (hi - lo) as u64 + 1;
    let further = |x: u64, y: u64, c: u64| (x * y + c).min(MOST + 1);
    let by = |coefficients: &[u64]| coefficients.iter().fold(1, |x, c| further(x, w, *c));
    let patterns = match flow.variables {
        1 => by(&[2]),
        2 => by(&[4, 8]),
        3 => by(&[6, 24, 44]),
        _ => by(&[8, 48, 176, 308]),
    };
    let n = further((flow.count as u64) << flow.tapes, patterns, 0);
    Ok((n <= MOST).then_some(n))
}

/// A sample; none if no tapes take the exit.
pub fn sample(text: &[u8], instruction: u64, exit: bool, cells: &mut [Cell], row: &mut [i32]) -> Result<Option<Sample>, Refusal> {
    let cells = &mut Cells(cells);
    let sampled = reading::read(text).and_then(|flow| {
        let there = 1 <= instruction && instruction <= flow.count as u64;
        if !there || !flow.instructions[instruction as usize - 1].kind.two_exits() {
            return Err((11, 0));
        }
        let plan = Plan::of(&flow);
        let table = outside::table();
        let n = searching::search(cells, &plan, &table).ok_or((9, 0))?;
        let Some(k) = searching::nearest(cells, n, &plan, &table, instruction as usize, exit) else {
            return Ok(None);
        };
        let distance = cells.distance(k) + 1;
        if row.len() < distance as usize {
            return Err((10, 0));
        }
        let steps = cells.depth(k);
        cells.trace(k, steps);
        let lengths = sampling::write(cells, steps, &plan, &table, exit, row);
        Ok(Some(Sample { distance, tapes: flow.tapes, lengths }))
    });
    if sampled.is_err() {
        cells.clear();
    }
    sampled
}
