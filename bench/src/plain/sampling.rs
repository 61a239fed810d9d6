//! The tapes of a sample, written along the way of parents.

use super::cells::Cells;
use super::configuration::{self as configuration, Action, Op};
use super::Plan;

struct Walk {
    values: [i32; 4],
    counts: [usize; 3],
    starts: [usize; 3],
}

/// A record that has its place already, or the number next to one, outward.
enum Choice {
    Take(i32),
    Between(bool, i32),
}

fn further(up: bool, x: i32, y: i32) -> bool {
    if up {
        x < y
    } else {
        y < x
    }
}

fn outward(up: bool, x: i32) -> i32 {
    if up {
        x + 1
    } else {
        x - 1
    }
}

fn beyond(up: bool, edge: i32, y: i32, wish: &[i32; 4], values: &[i32; 4], v: usize) -> Choice {
    let others = || (0..4).filter(|i| *i != v);
    if let Some(i) = others().find(|i| wish[*i] == y) {
        return Choice::Take(values[i]);
    }
    let mut m = edge;
    for i in others() {
        if further(up, wish[i], y) && further(up, m, values[i]) {
            m = values[i];
        }
    }
    Choice::Between(up, m)
}

fn shift(part: &mut [i32], up: bool, m: i32) {
    for x in part {
        if further(up, m, *x) {
            *x = outward(up, *x);
        }
    }
}

impl Walk {
    /// One read that takes p: tape a gives variable v a record, so that the values get the pattern of the wish.
    fn read(&mut self, row: &mut [i32], lo: i32, hi: i32, wish: [i32; 4], a: usize, v: usize) {
        let y = wish[v];
        let choice = if hi < y {
            beyond(true, hi, y, &wish, &self.values, v)
        } else if y < lo {
            beyond(false, lo, y, &wish, &self.values, v)
        } else {
            Choice::Take(y)
        };
        let x = match choice {
            Choice::Take(x) => x,
            Choice::Between(up, m) => {
                for (s, k) in self.starts.iter().zip(&self.counts) {
                    shift(&mut row[*s..*s + *k], up, m);
                }
                shift(&mut self.values, up, m);
                outward(up, m)
            }
        };
        self.values[v] = x;
        row[self.starts[a] + self.counts[a]] = x;
        self.counts[a] += 1;
    }
}

fn takes_record(op: &Op, next: u64) -> bool {
    op.action == Action::Read && !configuration::ended(next, op.tape)
}

/// A sample for the exit, p if `exit`, of the instruction at the end of the way that was traced.
pub fn write(cells: &Cells, steps: usize, plan: &Plan, table: &[u16], exit: bool, row: &mut [i32]) -> [usize; 3] {
    let (w, lo, hi) = (plan.w, plan.lo, plan.hi);
    let place = |t: usize| cells.place(cells.way(t));
    let op = |t: usize| &plan.ops[configuration::at(place(t)) - 1];
    let mut sizes = [0; 3];
    for t in 0..steps {
        if takes_record(op(t), place(t + 1)) {
            sizes[usize::from(op(t).tape)] += 1;
        }
    }
    let last = op(steps);
    let last_read = last.action == Action::Read && exit;
    if last_read {
        sizes[usize::from(last.tape)] += 1;
    }
    let mut walk = Walk { values: [0; 4], counts: [0; 3], starts: [0, sizes[0], sizes[0] + sizes[1]] };
    for t in 0..steps {
        let op = op(t);
        if takes_record(op, place(t + 1)) {
            let pattern = cells.pattern(cells.way(t + 1));
            let wish = configuration::values(pattern, w, table).map(|x| lo - 16 + x as i32);
            walk.read(row, lo, hi, wish, usize::from(op.tape), usize::from(op.variable));
        } else if op.action == Action::Assign {
            let x = if op.left < 4 { walk.values[usize::from(op.left)] } else { lo + op.constant as i32 };
            walk.values[usize::from(op.variable)] = x;
        }
    }
    if last_read {
        let v = usize::from(last.variable);
        let mut wish = walk.values;
        wish[v] = 0;
        walk.read(row, lo, hi, wish, usize::from(last.tape), v);
    }
    sizes
}
