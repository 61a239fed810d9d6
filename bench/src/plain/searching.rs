//! The search over the configurations of a flow in the order of distance, which counts exits.

use super::cells::Cells;
use super::configuration::{self as configuration, Action, Op, Words};
use super::Plan;

/// What a read that finds a record leads to from x, which is entry k: its fan, unless the fan is marked.
fn fan(cells: &mut Cells, n: &mut usize, size: usize, k: usize, d: u32, op: &Op, w: u64, x: Words, table: &[u16]) -> Option<()> {
    if op.action != Action::Read || configuration::ended(x.place, op.tape) {
        return Some(());
    }
    let v = op.variable;
    let first = configuration::take(op, w, x, configuration::LOW, table);
    let i = cells.visit(n, size, first.place, first.pattern, d, k)?;
    if cells.marked(i, v) {
        return Some(());
    }
    let values = configuration::values(first.pattern, w, table);
    for y in configuration::trials(&values, w) {
        let pattern = configuration::fan_at(first.pattern, values, w, v, y, table);
        cells.visit(n, size, first.place, pattern, d, k)?;
    }
    cells.mark(i, v);
    Some(())
}

/// What entry k leads to, if its step takes no exit and goes on.
fn settle(cells: &mut Cells, n: &mut usize, size: usize, k: usize, plan: &Plan, table: &[u16]) -> Option<()> {
    let place = cells.place(k);
    let op = &plan.ops[configuration::at(place) - 1];
    if matches!(op.action, Action::Assign | Action::Go) {
        let x = Words { place, pattern: cells.pattern(k) };
        let y = configuration::next(op, plan.w, x, table);
        cells.visit(n, size, y.place, y.pattern, cells.distance(k), k)?;
    }
    Some(())
}

/// What entry k leads to, if its steps take an exit.
fn expand(cells: &mut Cells, n: &mut usize, size: usize, k: usize, plan: &Plan, table: &[u16]) -> Option<()> {
    let place = cells.place(k);
    let op = &plan.ops[configuration::at(place) - 1];
    if matches!(op.action, Action::Read | Action::Test) {
        let x = Words { place, pattern: cells.pattern(k) };
        let d = cells.distance(k) + 1;
        fan(cells, n, size, k, d, op, plan.w, x, table)?;
        let y = configuration::next(op, plan.w, x, table);
        cells.visit(n, size, y.place, y.pattern, d, k)?;
    }
    Some(())
}

/// The number of reachable configurations; none if there are too few cells.
pub fn search(cells: &mut Cells, plan: &Plan, table: &[u16]) -> Option<usize> {
    let size = cells.size();
    if size == 0 {
        return None;
    }
    let mut n = 0;
    cells.visit(&mut n, size, plan.start.place, plan.start.pattern, 0, 0)?;
    // steps without an exit are followed first, so that distances never fall along the index
    let (mut settled, mut expanded) = (0, 0);
    while expanded < n {
        if settled < n {
            settle(cells, &mut n, size, settled, plan, table)?;
            settled += 1;
        } else {
            expand(cells, &mut n, size, expanded, plan, table)?;
            expanded += 1;
        }
    }
    Some(n)
}

/// The distances of all exits.
pub fn exits(cells: &Cells, n: usize, plan: &Plan, table: &[u16]) -> ([u32; 64], [u32; 64]) {
    let mut p = [0; 64];
    let mut m = [0; 64];
    for k in 0..n {
        let place = cells.place(k);
        let i = configuration::at(place) - 1;
        let op = &plan.ops[i];
        if !matches!(op.action, Action::Read | Action::Test) || p[i] != 0 && m[i] != 0 {
            continue;
        }
        let x = Words { place, pattern: cells.pattern(k) };
        let taken = configuration::exits_of(op, plan.w, x, table);
        let d = cells.distance(k) + 1;
        if taken.0 && p[i] == 0 {
            p[i] = d;
        }
        if taken.1 && m[i] == 0 {
            m[i] = d;
        }
    }
    (p, m)
}

/// The first entry that takes the exit.
pub fn nearest(cells: &Cells, n: usize, plan: &Plan, table: &[u16], instruction: usize, exit: bool) -> Option<usize> {
    let op = &plan.ops[instruction - 1];
    (0..n).find(|k| {
        let x = Words { place: cells.place(*k), pattern: cells.pattern(*k) };
        if configuration::at(x.place) != instruction {
            return false;
        }
        let (p, m) = configuration::exits_of(op, plan.w, x, table);
        if exit {
            p
        } else {
            m
        }
    })
}
