//! Generated flows and texts, legal and damaged.

use crate::documents::bound;
use crate::documents::flow::{Flow, Instruction};
use crate::rng::Rng;

/// Constants at and near the ends of their range: both ends, one, and values beside them.
const ENDS: [&[i64]; 7] = [&[-9999, 9999], &[9999], &[-9999], &[9998, 9999], &[-9999, -9998], &[1000, 1001], &[-1001, -1000]];

/// The constants that a flow draws from: few different ones, so that they meet.
fn palette(rng: &mut Rng, variables: usize) -> Vec<i64> {
    let (lo, hi) = match rng.below(20) {
        0..=4 => (0, 0),
        5..=10 => (-1, 2),
        11..=15 => (-4, 6),
        16 => (3, 5),
        17 => (-30, -20),
        18 if variables <= 2 => (-60, 70),
        19 if variables == 1 || rng.percent(8) => *rng.pick(&[(-1000, 1000), (-9999, 9999), (0, 9999), (-9999, 0)]),
        _ => (-2, 1),
    };
    let mut constants: Vec<i64> = (0..1 + rng.below(4)).map(|_| rng.from(lo, hi)).collect();
    if hi - lo > 1000 && rng.percent(50) {
        constants.extend(*rng.pick(&ENDS));
    }
    constants
}

struct Draw<'a> {
    rng: &'a mut Rng,
    tapes: usize,
    outputs: usize,
    variables: usize,
    count: usize,
    constants: Vec<i64>,
}

impl Draw<'_> {
    fn variable(&mut self) -> usize {
        1 + self.rng.below(self.variables)
    }

    fn constant(&mut self) -> i64 {
        let i = self.rng.below(self.constants.len());
        self.constants[i]
    }

    /// A target of instruction i: often the next one, so that much of the flow is reached.
    fn target(&mut self, i: usize) -> usize {
        match self.rng.below(10) {
            0..=4 if i < self.count => i + 1,
            5 => 1 + self.rng.below(i),
            6 => self.count,
            _ => 1 + self.rng.below(self.count),
        }
    }

    fn instruction(&mut self, i: usize) -> Instruction {
        let (u, v) = (self.variable(), self.variable());
        let (c, p, m) = (self.constant(), self.target(i), self.target(i));
        match self.rng.below(50) {
            0..=14 => Instruction::Read { tape: 1 + self.rng.below(self.tapes), v, p, m },
            15..=18 if self.outputs > 0 => Instruction::Put { v, output: 1 + self.rng.below(self.outputs), n: p },
            19..=22 => Instruction::Copy { u, v, n: p },
            23..=26 => Instruction::Set { c, v, n: p },
            27..=33 => Instruction::Less { u, v, p, m },
            34..=38 => Instruction::Over { c, v, p, m },
            39..=43 => Instruction::Under { v, c, p, m },
            44..=46 => Instruction::Nop { n: p },
            47 => Instruction::Stop,
            _ => Instruction::Read { tape: 1, v, p, m },
        }
    }
}

fn weighted(rng: &mut Rng, weights: &[usize]) -> usize {
    let mut x = rng.below(weights.iter().sum());
    for (i, w) in weights.iter().enumerate() {
        if x < *w {
            return i + 1;
        }
        x -= w;
    }
    1
}

/// Instructions of all kinds in any order.
fn mixed(rng: &mut Rng) -> Flow {
    let tapes = weighted(rng, &[6, 3, 1]);
    let outputs = rng.below(4);
    let variables = weighted(rng, &[8, 8, 3, 1]);
    let count = match rng.below(20) {
        0 => 64,
        1 => 1 + rng.below(64),
        2..=4 => 1 + rng.below(3),
        _ => 2 + rng.below(12),
    };
    let constants = palette(rng, variables);
    let mut draw = Draw { rng, tapes, outputs, variables, count, constants };
    let mut instructions: Vec<Instruction> = (1..=count).map(|i| draw.instruction(i)).collect();
    if draw.rng.percent(80) {
        instructions[count - 1] = Instruction::Stop;
    }
    Flow { tapes, outputs, variables, instructions }
}

/// Reads, then comparisons in a chain: one exit of each leads to the next, the other to `stop`.
fn chain(rng: &mut Rng) -> Flow {
    let tapes = 1 + rng.below(2);
    let variables = 1 + rng.below(4);
    let reads = 1 + rng.below(variables + 1);
    let tests = 1 + rng.below(6);
    let count = reads + tests + 1;
    let constants = palette(rng, variables);
    let mut draw = Draw { rng, tapes, outputs: 0, variables, count, constants };
    let mut instructions = Vec::new();
    for i in 1..=reads + tests {
        let (u, v, c) = (draw.variable(), draw.variable(), draw.constant());
        let (p, m) = if draw.rng.percent(60) { (i + 1, count) } else { (count, i + 1) };
        instructions.push(match draw.rng.below(3) {
            _ if i <= reads => {
                Instruction::Read { tape: 1 + draw.rng.below(tapes), v: if i <= variables { i } else { v }, p: i + 1, m: count }
            }
            0 => Instruction::Less { u, v, p, m },
            1 => Instruction::Over { c, v, p, m },
            _ => Instruction::Under { v, c, p, m },
        });
    }
    instructions.push(Instruction::Stop);
    Flow { tapes, outputs: 0, variables, instructions }
}

/// Rounds of reads, each followed by comparisons that let one order of the variables pass, with equals, all above or below the constants.
fn orders(rng: &mut Rng) -> Flow {
    let tapes = 1 + rng.below(3);
    let variables = 2 + rng.below(3);
    let c = if rng.percent(95) { rng.from(-2, 3) } else { rng.from(-9999, 9999) };
    let mut instructions = Vec::new();
    for round in 0..1 + rng.below(3) {
        for v in 1..=variables {
            if round == 0 || rng.percent(40) {
                instructions.push(Instruction::Read { tape: 1 + rng.below(tapes), v, p: 1, m: 0 });
            }
        }
        let mut order: Vec<(usize, usize)> = (1..=variables).map(|v| (rng.below(variables), v)).collect();
        order.sort();
        instructions.push(if rng.percent(50) {
            Instruction::Over { c, v: order[0].1, p: 1, m: 0 }
        } else {
            Instruction::Under { v: order[variables - 1].1, c, p: 1, m: 0 }
        });
        for pair in order.windows(2) {
            let (u, v) = (pair[0].1, pair[1].1);
            if pair[0].0 < pair[1].0 {
                instructions.push(Instruction::Less { u, v, p: 1, m: 0 });
            } else {
                instructions.push(Instruction::Less { u, v, p: 0, m: 1 });
                instructions.push(Instruction::Less { u: v, v: u, p: 0, m: 1 });
            }
        }
    }
    Flow { tapes, outputs: 0, variables, instructions: linked(instructions) }
}

/// The instructions and `stop`; for a target so far 1 stands for the next instruction and 0 for `stop`.
fn linked(mut instructions: Vec<Instruction>) -> Vec<Instruction> {
    let stop = instructions.len() + 1;
    for (i, x) in instructions.iter_mut().enumerate() {
        if let Instruction::Read { p, m, .. }
        | Instruction::Less { p, m, .. }
        | Instruction::Over { p, m, .. }
        | Instruction::Under { p, m, .. } = x
        {
            *p = if *p == 1 { i + 2 } else { stop };
            *m = if *m == 1 { i + 2 } else { stop };
        }
    }
    instructions.push(Instruction::Stop);
    instructions
}

/// Records above the constants, or below, each put at a place among those before it, so that ranks move; and any two compared.
fn placed(rng: &mut Rng) -> Flow {
    let variables = 2 + rng.below(3);
    let (above, c) = (rng.percent(50), rng.from(0, 3));
    let farther = |u: usize, v: usize| {
        let (u, v) = if above { (u, v) } else { (v, u) };
        Instruction::Less { u, v, p: 1, m: 0 }
    };
    // The variables with a record, the nearest first.
    let mut order: Vec<usize> = Vec::new();
    let mut instructions = Vec::new();
    for n in 1..=variables + rng.below(4) {
        let v = if n <= variables { n } else { 1 + rng.below(variables) };
        order.retain(|u| *u != v);
        let at = rng.below(order.len() + 1);
        instructions.push(Instruction::Read { tape: 1, v, p: 1, m: 0 });
        instructions.push(match (at, above) {
            (0, true) => Instruction::Over { c, v, p: 1, m: 0 },
            (0, false) => Instruction::Under { v, c: -c, p: 1, m: 0 },
            _ => farther(order[at - 1], v),
        });
        instructions.extend(order.get(at).map(|next| farther(v, *next)));
        order.insert(at, v);
        for _ in 0..2 {
            instructions.push(Instruction::Less { u: *rng.pick(&order), v: *rng.pick(&order), p: 1, m: 1 });
        }
    }
    Flow { tapes: 1, outputs: 0, variables, instructions: linked(instructions) }
}

/// Constants far apart, set, copied and compared with the one variable that is read.
fn far_apart(rng: &mut Rng) -> Flow {
    let variables = 2 + rng.below(3);
    let far = if rng.percent(90) { rng.from(100, 1000) } else { rng.from(1001, 9999) };
    let near = rng.from(0, 9);
    let constants = if rng.percent(50) { [-far, near, near - 1] } else { [far, -near, 1 - near] };
    let steps = 3 + rng.below(10);
    let stop = steps + 1;
    let mut instructions = Vec::new();
    for n in 2..=stop {
        let c = *rng.pick(&constants);
        let (u, v) = (1 + rng.below(variables), 1 + rng.below(variables - 1));
        let (p, m) = if rng.percent(70) { (n, stop) } else { (stop, n) };
        // Often the first three set the constant near 0, read, and ask for a record beyond it.
        let sort = if n <= 4 && rng.percent(70) { [5, 0, 12][n - 2] } else { rng.below(12) };
        instructions.push(match sort {
            12 if constants[1] > constants[0] => Instruction::Over { c: near, v: variables, p: n, m: stop },
            12 => Instruction::Under { v: variables, c: -near, p: n, m: stop },
            0..=3 => Instruction::Read { tape: 1, v: variables, p: n, m: stop },
            4..=6 => Instruction::Set { c: if n == 2 { constants[1] } else { c }, v, n },
            7 => Instruction::Copy { u: v, v: 1 + rng.below(variables - 1), n },
            8 => Instruction::Less { u: variables, v, p, m },
            9 => Instruction::Less { u: v, v: u, p, m },
            10 => Instruction::Over { c, v: u, p, m },
            _ => Instruction::Under { v: u, c, p, m },
        });
    }
    instructions.push(Instruction::Stop);
    Flow { tapes: 1, outputs: 0, variables, instructions }
}

/// Each record must lie between two earlier ones, and takes the place of one of them: samples need room.
fn squeeze(rng: &mut Rng) -> Flow {
    let tapes = 1 + rng.below(3);
    let levels = 1 + rng.below(14);
    let far = if rng.percent(95) { rng.from(-4, 4) } else { rng.from(-9999, 9999) };
    let up = rng.percent(50);
    let stop = 4 + 4 * levels;
    let mut instructions = vec![Instruction::Read { tape: 1, v: 1, p: 2, m: stop }, Instruction::Read { tape: 1, v: 2, p: 3, m: stop }];
    instructions.push(if up {
        Instruction::Over { c: far, v: 1, p: 4, m: stop }
    } else {
        Instruction::Under { v: 2, c: far, p: 4, m: stop }
    });
    for _ in 0..levels {
        let i = instructions.len() + 1;
        instructions.push(Instruction::Read { tape: 1 + rng.below(tapes), v: 3, p: i + 1, m: if rng.percent(80) { stop } else { i + 1 } });
        instructions.push(Instruction::Less { u: 1, v: 3, p: i + 2, m: stop });
        instructions.push(Instruction::Less { u: 3, v: 2, p: i + 3, m: stop });
        instructions.push(Instruction::Copy { u: 3, v: 1 + rng.below(2), n: i + 4 });
    }
    instructions.push(Instruction::Stop);
    Flow { tapes, outputs: 0, variables: 3, instructions }
}

/// A counter of several digits held by `set` and tests, with a record read for some counts: long distances.
pub fn counter(bases: &[usize], reads: usize) -> Flow {
    let mut instructions = Vec::new();
    let sizes: Vec<usize> = bases.iter().enumerate().map(|(v, b)| 2 * b - 1 + if v == 0 { reads.min(*b) } else { 0 }).collect();
    let stop = sizes.iter().sum::<usize>() + 2;
    for (v, b) in bases.iter().enumerate() {
        let carry = instructions.len() + sizes[v] + 1;
        for digit in 0..*b {
            let i = instructions.len() + 1;
            let last = digit + 1 == *b;
            let read = v == 0 && digit < reads;
            if !last {
                let c = digit as i64 + 1;
                instructions.push(Instruction::Under { v: v + 1, c, p: i + 1, m: i + 2 + usize::from(read) });
            }
            if read {
                let n = instructions.len() + 2;
                instructions.push(Instruction::Read { tape: 1, v: 1, p: n, m: stop });
            }
            let c = if last { 0 } else { digit as i64 + 1 };
            instructions.push(Instruction::Set { c, v: v + 1, n: if last { carry } else { 1 } });
        }
    }
    instructions.push(Instruction::Under { v: 1, c: 1, p: stop, m: stop });
    instructions.push(Instruction::Stop);
    Flow { tapes: 1, outputs: 0, variables: bases.len(), instructions }
}

fn counters(rng: &mut Rng) -> Flow {
    let digits = 1 + rng.below(4);
    let bases: Vec<usize> = (0..digits).map(|_| 2 + rng.below(3)).collect();
    let reads = rng.below(bases[0] + 1);
    counter(&bases, reads)
}

/// Two reads with constants from 0 to 251 and n times `nop` before them: 65,535 + n configurations.
pub fn edge(n: usize) -> Flow {
    let mut instructions: Vec<Instruction> = (0..n).map(|i| Instruction::Nop { n: i + 2 }).collect();
    instructions.push(Instruction::Read { tape: 1, v: 1, p: n + 2, m: n + 5 });
    instructions.push(Instruction::Read { tape: 1, v: 2, p: n + 5, m: n + 3 });
    instructions.push(Instruction::Under { v: 1, c: 251, p: n + 4, m: n + 5 });
    instructions.push(Instruction::Nop { n: n + 5 });
    instructions.push(Instruction::Stop);
    Flow { tapes: 1, outputs: 0, variables: 2, instructions }
}

/// One read, with all 20,001 patterns that one variable can have: 65,535 + n configurations. They are 1, 20,001, 20,001, 10,000 - c, and at
/// the end 20,001 and 1.
pub fn edge_of_one(n: i64) -> Flow {
    let c = 4470 - n;
    let instructions = vec![
        Instruction::Read { tape: 1, v: 1, p: 2, m: 5 },
        Instruction::Under { v: 1, c: -9999, p: 3, m: 3 },
        Instruction::Over { c, v: 1, p: 4, m: 5 },
        Instruction::Over { c: 9999, v: 1, p: 5, m: 5 },
        Instruction::Stop,
    ];
    Flow { tapes: 1, outputs: 0, variables: 1, instructions }
}

/// Two reads, the first record above 9999: 65,535 + n configurations. They are 1, 20,001, 1, 20,003, 10,000 + c, and at the end 20,003 and
/// 2.
pub fn edge_of_two(n: i64) -> Flow {
    let c = n - 4476;
    let instructions = vec![
        Instruction::Read { tape: 1, v: 1, p: 2, m: 6 },
        Instruction::Over { c: 9999, v: 1, p: 3, m: 2 },
        Instruction::Read { tape: 2, v: 2, p: 4, m: 6 },
        Instruction::Under { v: 2, c, p: 5, m: 6 },
        Instruction::Under { v: 2, c: -9999, p: 6, m: 6 },
        Instruction::Stop,
    ];
    Flow { tapes: 2, outputs: 0, variables: 2, instructions }
}

/// Four reads, each record farther out than the one before, above 9999 or below -9999, and n + 2 times `nop` before them: 65,535 + n
/// configurations. With w = 16,376 they are 1 at each `nop` and read, w + 2, w + 4, w + 6 and w + 8 at the comparisons, and 1 and 4 at the
/// end.
pub fn edge_of_four(n: usize, above: bool) -> Flow {
    let stop = n + 11;
    let mut instructions: Vec<Instruction> = (1..n + 3).map(|i| Instruction::Nop { n: i + 1 }).collect();
    for v in 1..=4 {
        let (read, p) = (instructions.len() + 1, instructions.len() + 3);
        instructions.push(Instruction::Read { tape: 1, v, p: read + 1, m: stop });
        instructions.push(match (v, above) {
            (1, true) => Instruction::Over { c: 9999, v, p, m: read + 1 },
            (1, false) => Instruction::Under { v, c: -9999, p, m: read + 1 },
            (_, true) => Instruction::Less { u: v - 1, v, p, m: read + 1 },
            (_, false) => Instruction::Less { u: v, v: v - 1, p, m: read + 1 },
        });
    }
    instructions.extend([Instruction::Stop, Instruction::Set { c: if above { -6376 } else { 6376 }, v: 1, n: stop }]);
    Flow { tapes: 1, outputs: 0, variables: 4, instructions }
}

/// A counter of four digits, then a record that must lie beyond 9999 or -9999: its bound, a constant and the distance, passes 16 bits. The
/// distance is 54, 35, 27 and 27 comparisons in a round of each digit, 392, 49, 7 and 1 rounds, and two exits more: 23,101.
pub fn late(above: bool) -> Flow {
    let mut flow = counter(&[10, 8, 7, 7], 0);
    let i = flow.instructions.len() - 1;
    flow.instructions.truncate(i - 1);
    flow.instructions.push(Instruction::Read { tape: 1, v: 1, p: i + 1, m: i + 2 });
    flow.instructions.push(if above {
        Instruction::Over { c: 9999, v: 1, p: i + 2, m: i + 1 }
    } else {
        Instruction::Under { v: 1, c: -9999, p: i + 2, m: i + 1 }
    });
    flow.instructions.push(Instruction::Stop);
    flow
}

/// C1 and C2 so far apart that the patterns of one variable, so many times, come to some thousand up to a bit past 65,536.
fn far_bounds(rng: &mut Rng, times: usize) -> (i64, i64) {
    let most = (67_000 / times as i64).min(19_999);
    let w = if rng.percent(25) { rng.from(1002.min(most), most) } else { rng.from(most - most / 10, most) };
    about_zero(rng, w)
}

/// C1 and C2 with w numbers from the one to the other.
fn about_zero(rng: &mut Rng, w: i64) -> (i64, i64) {
    let (least, greatest) = ((1 - w).max(-9999), (10_000 - w).min(0));
    let between = rng.from(least, greatest);
    let lo = *rng.pick(&[least, greatest, between]);
    (lo, lo + w - 1)
}

/// A read to the one variable and up to four instructions more, most of them comparisons.
fn of_one(rng: &mut Rng) -> Flow {
    let (tapes, count) = (1 + rng.below(3), 3 + rng.below(4));
    let times = 2 + rng.below(count - 1);
    let (lo, hi) = far_bounds(rng, times);
    let mut ends = if rng.percent(50) { vec![lo, hi] } else { vec![hi, lo] };
    let mut constants = vec![lo, lo + 1, hi - 1, hi, rng.from(lo, hi), rng.from(lo, hi)];
    constants.extend(rng.pick(&ENDS).iter().filter(|c| (lo..=hi).contains(c)));
    let mut draw = Draw { rng, tapes, outputs: 1, variables: 1, count, constants };
    let mut instructions = vec![Instruction::Read { tape: 1, v: 1, p: 2, m: draw.target(1) }];
    for i in 2..count {
        let (c, p, m) = (draw.constant(), draw.target(i), draw.target(i));
        instructions.push(match draw.rng.below(10) {
            0 => Instruction::Read { tape: 1 + draw.rng.below(tapes), v: 1, p, m },
            1 => Instruction::Put { v: 1, output: 1, n: p },
            2 => Instruction::Set { c: ends.pop().unwrap_or(c), v: 1, n: p },
            3..=5 => Instruction::Under { v: 1, c: ends.pop().unwrap_or(c), p, m },
            _ => Instruction::Over { c: ends.pop().unwrap_or(c), v: 1, p, m },
        });
    }
    instructions.push(Instruction::Stop);
    Flow { tapes, outputs: 1, variables: 1, instructions }
}

/// Reads to two variables or more, each with a filter that leaves few patterns, then comparisons.
fn filtered(rng: &mut Rng) -> Flow {
    let (tapes, variables) = (1 + rng.below(3), 2 + rng.below(3));
    // A record that does not pass: at its filter for ever, or to `stop`.
    let for_ever = rng.percent(60);
    // Each record farther out than the one before, or each beyond a constant of either side.
    let farther = rng.percent(50);
    let side = rng.percent(50);
    let above: Vec<bool> = (0..variables).map(|_| if farther { side } else { rng.percent(50) }).collect();
    // The orders of so many values on one side, equals among them.
    let orders = |side: bool, v: usize| [1, 1, 3, 13][above[..v].iter().filter(|x| **x == side).count()];
    let times: usize = (0..variables).map(|v| if farther { 1 } else { orders(true, v) * orders(false, v) }).sum();
    let (lo, hi) = far_bounds(rng, if for_ever { times } else { 2 * times });
    let stop = 2 * variables + 3 + rng.below(4);
    let mut instructions = Vec::new();
    for v in 1..=variables {
        let i = instructions.len() + 1;
        let inside = if rng.percent(85) { 0 } else { rng.from(1, 2) };
        let m = if for_ever { i + 1 } else { stop };
        instructions.push(Instruction::Read { tape: 1 + rng.below(tapes), v, p: i + 1, m: stop });
        instructions.push(match above[v - 1] {
            true if farther && v > 1 => Instruction::Less { u: v - 1, v, p: i + 2, m },
            false if farther && v > 1 => Instruction::Less { u: v, v: v - 1, p: i + 2, m },
            true => Instruction::Over { c: hi - inside, v, p: i + 2, m },
            false => Instruction::Under { v, c: lo + inside, p: i + 2, m },
        });
    }
    for i in 2 * variables + 1..stop {
        let (u, v) = (1 + rng.below(variables), 1 + rng.below(variables));
        let (p, m) = *rng.pick(&[(i + 1, stop), (stop, i + 1), (i + 1, i + 1)]);
        instructions.push(match i - 2 * variables {
            1 => Instruction::Over { c: hi, v, p: i + 1, m: i + 1 },
            2 => Instruction::Under { v, c: lo, p: i + 1, m: i + 1 },
            _ => Instruction::Less { u, v, p, m },
        });
    }
    instructions.push(Instruction::Stop);
    Flow { tapes, outputs: 0, variables, instructions }
}

/// So many instructions of all kinds, with w numbers from C1 to C2. A single instruction has one constant, so w is then at most 10,000.
fn of_width(rng: &mut Rng, tapes: usize, variables: usize, count: usize, w: i64) -> Flow {
    let (mut lo, mut hi) = about_zero(rng, w);
    if count == 1 {
        (lo, hi) = *rng.pick(&[(1 - w, 0), (0, w - 1)]);
    }
    let outputs = rng.below(4);
    let constants = vec![lo, hi, 0, rng.from(lo, hi)];
    let mut draw = Draw { rng, tapes, outputs, variables, count, constants };
    let mut instructions: Vec<Instruction> = (1..=count).map(|i| draw.instruction(i)).collect();
    let first = draw.rng.below(count);
    let ends = [(first, lo), ((first + 1 + draw.rng.below(count.max(2) - 1)) % count, hi)];
    for (at, c) in ends.into_iter().filter(|(_, c)| *c != 0) {
        let (v, p, m) = (draw.variable(), draw.target(at + 1), draw.target(at + 1));
        instructions[at] = match draw.rng.below(3) {
            0 => Instruction::Set { c, v, n: p },
            1 => Instruction::Over { c, v, p, m },
            _ => Instruction::Under { v, c, p, m },
        };
    }
    Flow { tapes, outputs, variables, instructions }
}

/// Tapes, variables, instructions and w of bounds past 65,536 that would not be past it if they were kept in 32 bits.
const WRAPPING: [(usize, usize, usize, i64); 9] = [
    (2, 2, 64, 4094),
    (1, 2, 32, 8190),
    (3, 2, 2, 16_382),
    (2, 3, 1, 1022),
    (1, 3, 1, 2046),
    (1, 3, 17, 1079),
    (1, 4, 41, 83),
    (1, 4, 7, 6106),
    (1, 4, 1, 9814),
];

/// A legal flow for its bound (document 02, T-01): 65,536, about 65,536, past it by far, or any.
pub fn bounded(rng: &mut Rng) -> Flow {
    let (tapes, variables) = (1 + rng.below(3), 1 + rng.below(4));
    let count = if rng.percent(70) { 1 + rng.below(8) } else { 1 + rng.below(64) };
    let most = if count == 1 { 10_000 } else { 19_999 };
    match rng.below(10) {
        0..=2 => {
            // One variable has w + 2 patterns, a power of 2, and then the count is one.
            let power = rng.from(10 - tapes as i64, if tapes == 3 { 13 } else { 15 - tapes as i64 });
            of_width(rng, tapes, 1, 1 << (16 - tapes as i64 - power), (1 << power) - 2)
        }
        3..=6 => {
            let given = |w: &i64| count as u128 * (1 << tapes) * bound::patterns(variables, *w as u128) <= 65_536;
            let last = (1..=most).take_while(given).last().unwrap_or(1);
            let w = (last + rng.from(-1, 2)).clamp(1, most);
            of_width(rng, tapes, variables, count, w)
        }
        7 => {
            let (tapes, variables, count, w) = *rng.pick(&WRAPPING);
            of_width(rng, tapes, variables, count, w)
        }
        8 => {
            let w = rng.from(1, most);
            of_width(rng, tapes, variables, count, w)
        }
        _ => {
            let w = rng.from(1, 40);
            of_width(rng, tapes, variables, count, w)
        }
    }
}

/// A legal flow with constants far apart (document 02, T-09), of some thousand configurations up to a bit past 65,536.
pub fn wide(rng: &mut Rng) -> Flow {
    let n = if rng.percent(50) { rng.from(-2, 2) } else { rng.from(-5000, 3000) };
    match rng.below(20) {
        0 | 1 => edge_of_one(n),
        2 | 3 => edge_of_two(n),
        4 => edge_of_four(rng.below(4), rng.percent(50)),
        5..=10 => filtered(rng),
        _ => of_one(rng),
    }
}

/// An instruction with one way on, to `n`. If it is idle, it changes no variable.
fn plain(rng: &mut Rng, flow: &Flow, idle: bool, n: usize) -> Instruction {
    let (u, v) = (1 + rng.below(flow.variables), 1 + rng.below(flow.variables));
    let (lo, hi) = flow.bounds();
    match rng.below(10) {
        0 | 1 if flow.outputs > 0 => Instruction::Put { v, output: 1 + rng.below(flow.outputs), n },
        2 | 3 if idle => Instruction::Copy { u: v, v, n },
        2 | 3 => Instruction::Copy { u, v, n },
        4 | 5 if !idle => Instruction::Set { c: rng.from(lo, hi), v, n },
        _ => Instruction::Nop { n },
    }
}

/// Instructions with one way on put into a flow (document 02, T-04): before the first, or in a way from one to another, which other ways to
/// the same instruction may share; they stand anywhere. If they are idle, each distance stays. And the number that each instruction now has.
pub fn padded(rng: &mut Rng, mut flow: Flow, idle: bool) -> (Flow, Vec<usize>) {
    let count = flow.instructions.len();
    let more = (if rng.percent(30) { 64 } else { 1 + rng.below(12) }).min(64 - count);
    // Names of the instructions in the order of their lines; a new one has the next name.
    let mut order: Vec<usize> = (1..=count).collect();
    for new in count + 1..=count + more {
        let ways: Vec<usize> = flow.instructions.iter().flat_map(|x| x.targets()).collect();
        let chosen = rng.below(ways.len() + 1);
        let there = *ways.get(chosen).unwrap_or(&order[0]);
        let at = if chosen < ways.len() { 1 + rng.below(order.len()) } else { 0 };
        order.insert(at, new);
        let mut way = 0;
        for x in &mut flow.instructions {
            x.redirect(|target| {
                way += 1;
                if way == chosen + 1 || chosen < ways.len() && target == there && rng.percent(25) {
                    new
                } else {
                    target
                }
            });
        }
        flow.instructions.push(plain(rng, &flow, idle, there));
    }
    let numbers: Vec<usize> = (1..=count + more).map(|name| 1 + order.iter().position(|x| *x == name).unwrap_or(0)).collect();
    flow.instructions.iter_mut().for_each(|x| x.redirect(|target| numbers[target - 1]));
    flow.instructions = order.iter().map(|name| flow.instructions[name - 1]).collect();
    (flow, numbers[..count].to_vec())
}

/// Two ways from one comparison to one configuration, one with more exits and the other with more steps, and some instructions behind it.
fn detour(rng: &mut Rng) -> Flow {
    let tests = 1 + rng.below(3);
    let idle = tests + 1 + rng.below(8);
    let (few, many) = (3, 4 + idle);
    let goal = many + tests + 1;
    let stop = goal + 1 + rng.below(4);
    let (p, m) = *rng.pick(&[(few, many), (many, few)]);
    let mut instructions = vec![Instruction::Read { tape: 1, v: 1, p: 2, m: stop }, Instruction::Over { c: rng.from(-1, 1), v: 1, p, m }];
    instructions.push(Instruction::Set { c: 0, v: 1, n: few + 1 });
    instructions.extend((1..=idle).map(|i| Instruction::Nop { n: if i < idle { few + i + 1 } else { goal } }));
    instructions.push(Instruction::Set { c: 0, v: 1, n: many + 1 });
    instructions.extend((1..=tests).map(|i| Instruction::Less { u: 1, v: 1, p: stop, m: many + i + 1 }));
    for i in goal..stop {
        let (p, m, c) = (i + 1, *rng.pick(&[1, goal, i + 1, stop]), rng.from(-1, 2));
        instructions.push(match rng.below(4) {
            0 => Instruction::Over { c, v: 1, p, m },
            1 => Instruction::Under { v: 1, c, p, m },
            _ => Instruction::Read { tape: 1, v: 1, p, m },
        });
    }
    instructions.push(Instruction::Stop);
    Flow { tapes: 1, outputs: 0, variables: 1, instructions }
}

/// A legal flow.
pub fn flow(rng: &mut Rng) -> Flow {
    let flow = match rng.below(20) {
        0..=3 => chain(rng),
        4 | 5 => squeeze(rng),
        6 => orders(rng),
        7 => counters(rng),
        8 => far_apart(rng),
        9 => placed(rng),
        10 => detour(rng),
        _ => mixed(rng),
    };
    match rng.below(4) {
        0 => padded(rng, flow, false).0,
        _ => flow,
    }
}

#[rustfmt::skip]
const NUMBERS: [&str; 49] = [
    "", "0", "1", "2", "3", "4", "5", "-1", "-0", "+1", "00", "01", "007", "-01", "--1", "-", "1-", "1.0", " 1", "1 ", "0x1", "1e3", "63", "64", "65",
    "66", "255", "256", "257", "999", "1000", "1001", "-999", "-1000", "-1001", "65537", "4294967297", "18446744073709551617", "10000000000",
    "99999999999999999999999999999999999999999", "9999", "10000", "-9999", "-10000", "99990", "75535", "55537", "4294977295",
    "18446744073709561615",
];

/// Well written, and often out of range or turn.
#[rustfmt::skip]
const WHOLE: [&str; 22] = [
    "0", "1", "2", "3", "4", "5", "6", "12", "64", "65", "256", "1000", "1001", "9999", "10000", "55537", "65537", "75535", "4294967297",
    "4294977295", "18446744073709551617", "18446744073709561615",
];

/// Well written, and outside every range and turn.
const OUTSIDE: [&str; 8] = ["10000", "55537", "65537", "75535", "4294967297", "4294977295", "18446744073709551617", "18446744073709561615"];

/// Badly written wherever it stands.
const BAD: [&str; 10] = ["", "-0", "+1", "01", "-01", "--1", "-", "1 ", "1.0", "x"];

/// Constants in and out of their range, and badly written; the first two past it come twice.
#[rustfmt::skip]
const CONSTANTS: [&str; 26] = [
    "-0", "-1", "-01", "-00", "-", "--1", "00", "+0", "-1000", "-1001", "1000", "1001", "-9998", "-9999", "-10000", "-10000", "9999",
    "10000", "10000", "10001", "99990", "75535", "-55537", "4294977295", "-4294957297", "18446744073709561615",
];

const WORDS: [&str; 24] = [
    "read", "put", "copy", "set", "less", "over", "under", "nop", "stop", "flow", "", "Read", "READ", "rea", "reads", "read ", " nop",
    "stop\r", "stop\0", "stopp", "sto", "const", "\u{e9}", "1",
];

/// Texts that could be taken for the empty one.
const NEARLY: [&str; 12] = ["\n", "\n\n", "\r\n", " \n", ",\n", "\0\n", "\0", "\r", " ", ",", "f", "flow,1,0,1\n"];

const BYTES: &[u8] = b"0123456789,,,-\n\n+ \t\r\0aflowreadputcopysetlessoverundernopstop\xff\x80F.;";

fn byte_edit(rng: &mut Rng, text: &mut Vec<u8>) {
    let byte = *rng.pick(BYTES);
    let i = rng.below(text.len() + 1);
    match rng.below(3) {
        0 => text.insert(i, byte),
        1 if i < text.len() => drop(text.remove(i)),
        2 if i < text.len() => text[i] = byte,
        _ => {}
    }
}

fn field_edit(rng: &mut Rng, line: &mut Vec<u8>) {
    let mut fields: Vec<Vec<u8>> = line.split(|b| *b == b',').map(|f| f.to_vec()).collect();
    let i = rng.below(fields.len());
    match rng.below(14) {
        0 => drop(fields.remove(i)),
        1 => fields.insert(i, rng.pick(&NUMBERS).as_bytes().to_vec()),
        2 => fields.push(Vec::new()),
        3 => fields[i.min(1)] = rng.pick(&WORDS).as_bytes().to_vec(),
        4 => {
            let j = rng.below(fields.len());
            fields.swap(i, j);
        }
        5 => fields[i] = vec![b'9'; 1 + rng.below(600)],
        6 | 7 => fields[i] = rng.pick(&NUMBERS).as_bytes().to_vec(),
        _ if fields.len() > 2 => fields[i.max(2)] = rng.pick(&WHOLE).as_bytes().to_vec(),
        _ => fields[0] = rng.pick(&WHOLE).as_bytes().to_vec(),
    }
    *line = fields.join(&b',');
}

/// The fields after a word, so that a number can be put at the edge of its range: A tape, Y output, v variable, c constant, N target.
fn shape(word: &[u8]) -> Option<&'static str> {
    Some(match word {
        b"read" => "AvNN",
        b"put" => "vYN",
        b"copy" => "vvN",
        b"set" => "cvN",
        b"less" => "vvNN",
        b"over" => "cvNN",
        b"under" => "vcNN",
        b"nop" => "N",
        b"stop" => "",
        _ => return None,
    })
}

/// A number of a line put just in or just out of its range, or badly written as its kind of number can be.
fn aimed_edit(rng: &mut Rng, flow: &Flow, lines: &mut [Vec<u8>]) {
    let count = flow.instructions.len();
    let at = rng.below(count + 1);
    let mut fields: Vec<Vec<u8>> = lines[at].split(|b| *b == b',').map(|f| f.to_vec()).collect();
    let i = rng.below(fields.len());
    let about = |rng: &mut Rng, n: usize| (*rng.pick(&[0, 1, n.max(1) - 1, n, n + 1])).to_string();
    let letters = fields.get(1).and_then(|word| shape(word)).unwrap_or("");
    let number = match (at, i) {
        (0, 0) | (1.., 1) => return,
        (0, 1 | 2) => about(rng, 3),
        (0, _) => about(rng, 4),
        (_, 0) => about(rng, at),
        _ => match letters.as_bytes().get(i - 2) {
            Some(b'A') => about(rng, flow.tapes),
            Some(b'Y') => about(rng, flow.outputs),
            Some(b'v') => about(rng, flow.variables),
            Some(b'c') => rng.pick(&CONSTANTS).to_string(),
            _ => about(rng, count),
        },
    };
    fields[i] = if rng.percent(10) { format!("-{number}").into_bytes() } else { number.into_bytes() };
    lines[at] = fields.join(&b',');
}

/// A legal flow with one aimed edit or two.
fn aimed(rng: &mut Rng) -> Vec<u8> {
    let flow = flow(rng);
    let mut lines: Vec<Vec<u8>> = flow.text().split('\n').map(|l| l.as_bytes().to_vec()).collect();
    for _ in 0..1 + rng.below(2) {
        aimed_edit(rng, &flow, &mut lines);
    }
    lines.join(&10u8)
}

/// What can be wrong with a line: own number out of turn, a number out of range, a number badly written, the count of fields, the word.
enum Fault {
    Turn,
    Range,
    Number,
    Count,
    Word,
}

/// Takes one out, if there is one.
fn take<T>(rng: &mut Rng, from: &mut Vec<T>) -> Option<T> {
    (!from.is_empty()).then(|| from.remove(rng.below(from.len())))
}

/// Takes one of these numbers out, and writes it in one of these ways.
fn rewrite(rng: &mut Rng, fields: &mut [Vec<u8>], numbers: &mut Vec<usize>, ways: &[&str]) {
    if let Some(i) = take(rng, numbers) {
        fields[i] = rng.pick(ways).as_bytes().to_vec();
    }
}

/// Puts these faults into the fields of a line, no two into one number; `word` is where the word stands.
fn put_faults(rng: &mut Rng, faults: &[Fault], fields: &mut Vec<Vec<u8>>, word: usize) {
    let mut own: Vec<usize> = (0..word).collect();
    let mut others: Vec<usize> = (word + 1..fields.len()).collect();
    for fault in faults {
        match fault {
            Fault::Turn => rewrite(rng, fields, &mut own, &WHOLE),
            Fault::Range => rewrite(rng, fields, &mut others, &OUTSIDE),
            Fault::Number => {
                others.append(&mut own);
                rewrite(rng, fields, &mut others, &BAD);
            }
            Fault::Count => match rng.below(4) {
                0 => fields.truncate(1 + rng.below(fields.len() - 1)),
                1 => drop(fields.pop()),
                2 => fields.push(Vec::new()),
                _ => fields.insert(word + 1, rng.pick(&NUMBERS).as_bytes().to_vec()),
            },
            Fault::Word if word == fields.len() => {}
            Fault::Word => match rng.below(8) {
                0 => fields.truncate(word),
                1 => drop(fields.remove(word)),
                2 => fields.rotate_left(1),
                _ => fields[word] = rng.pick(&WORDS).as_bytes().to_vec(),
            },
        }
    }
}

/// A legal flow with two or three faults in one line, often line 1, so that their order decides.
fn at_borders(rng: &mut Rng) -> Vec<u8> {
    let flow = flow(rng);
    let mut lines: Vec<Vec<u8>> = flow.text().split('\n').map(|l| l.as_bytes().to_vec()).collect();
    let at = if rng.percent(25) { 0 } else { 1 + rng.below(flow.instructions.len()) };
    let mut fields: Vec<Vec<u8>> = lines[at].split(|b| *b == b',').map(|f| f.to_vec()).collect();
    let mut faults = vec![Fault::Range, Fault::Number, Fault::Count, Fault::Word];
    if at > 0 {
        faults.insert(0, Fault::Turn);
    }
    let kept = 2 + rng.below(2);
    while faults.len() > kept {
        take(rng, &mut faults);
    }
    put_faults(rng, &faults, &mut fields, at.min(1));
    lines[at] = fields.join(&b',');
    lines.join(&10u8)
}

fn line_edit(rng: &mut Rng, text: &mut Vec<u8>) {
    let mut lines: Vec<Vec<u8>> = text.split(|b| *b == 10).map(|l| l.to_vec()).collect();
    let i = rng.below(lines.len());
    match rng.below(8) {
        0 => drop(lines.remove(i)),
        1 => lines.insert(i, Vec::new()),
        2 => {
            let line = lines[i].clone();
            lines.insert(i, line);
        }
        3 => {
            let j = rng.below(lines.len());
            lines.swap(i, j);
        }
        _ => field_edit(rng, &mut lines[i]),
    }
    *text = lines.join(&10u8);
}

/// So many instruction lines, each legal but for its targets or the count.
fn many_lines(rng: &mut Rng) -> Vec<u8> {
    let count = 60 + rng.below(10);
    let mut text = b"flow,1,0,1\n".to_vec();
    for i in 1..=count {
        let last = if rng.percent(50) { 64 } else { 70 };
        let to = 1 + rng.below(count.min(last));
        text.extend(format!("{i},nop,{to}\n").bytes());
    }
    text
}

/// A text of a chosen size near 4,096 bytes, made long by the digits of one number.
fn long_text(rng: &mut Rng, mut text: Vec<u8>) -> Vec<u8> {
    let size = 4090 + rng.below(12);
    let digits: Vec<usize> = (0..text.len()).filter(|i| text[*i].is_ascii_digit()).collect();
    if let (false, Some(more)) = (digits.is_empty(), size.checked_sub(text.len())) {
        let i = *rng.pick(&digits);
        let fill = vec![*rng.pick(b"123456789"); more];
        text.splice(i..i, fill);
    }
    text
}

/// A text that is damaged once or more, now and then legal all the same; or the empty text, which is legal (document 02, T-08).
pub fn damaged(rng: &mut Rng) -> Vec<u8> {
    match rng.below(100) {
        0..=4 => return Vec::new(),
        5..=8 => return rng.pick(&NEARLY).as_bytes().to_vec(),
        _ => {}
    }
    if rng.below(6) == 0 {
        return at_borders(rng);
    }
    if rng.percent(40) {
        return aimed(rng);
    }
    let mut text = flow(rng).text().into_bytes();
    match rng.below(24) {
        0 => return many_lines(rng),
        1 => return long_text(rng, text),
        2 => {
            text.pop();
            return text;
        }
        3 => return (0..rng.below(20)).map(|_| *rng.pick(BYTES)).collect(),
        4 => {
            let end = rng.below(text.len() + 1);
            return text[..end].to_vec();
        }
        5 => {
            let end = text.iter().position(|b| *b == 10).unwrap_or(0) + 1;
            return text[..end].to_vec();
        }
        6 => text.extend(vec![10; 1 + rng.below(3)]),
        _ => {}
    }
    for _ in 0..1 + rng.below(2) {
        match rng.below(3) {
            0 => byte_edit(rng, &mut text),
            _ => line_edit(rng, &mut text),
        }
    }
    text
}

/// A record: small, near a constant of the flow, or any.
pub fn record(rng: &mut Rng, (lo, hi): (i64, i64)) -> i32 {
    (match rng.below(8) {
        0 => rng.from(-3, 3),
        1 => rng.from(lo - 2, lo + 2),
        2 => rng.from(hi - 2, hi + 2),
        3 => rng.next() as i32 as i64,
        4 => *rng.pick(&[i32::MIN as i64, i32::MAX as i64, i32::MIN as i64 + 1, 0]),
        _ => rng.from(lo - 4, hi + 4),
    }) as i32
}
