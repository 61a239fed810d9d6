//! The interpreter.

use super::reading::{self, Flow, Kind};
use super::Refusal;

#[derive(Clone, Copy)]
pub enum End {
    Stopped = 1,
    Spent = 2,
    Full = 3,
}

pub struct Ran {
    pub end: End,
    pub steps: u64,
    pub puts: usize,
    pub p: [u32; 64],
    pub m: [u32; 64],
}

pub fn run(text: &[u8], limit: u64, records: &[i32], lengths: &[usize], numbers: &mut [u8], values: &mut [i32]) -> Result<Ran, Refusal> {
    let flow = reading::read(text)?;
    let mut ends = [0; 3];
    let mut sum: usize = 0;
    for (i, n) in lengths.iter().enumerate() {
        sum = sum.checked_add(*n).ok_or((12u32, 0u64))?;
        if i < 3 {
            ends[i] = sum;
        }
    }
    if lengths.len() != usize::from(flow.tapes) || sum != records.len() {
        return Err((12, 0));
    }
    Ok(run_from(&flow, limit.min(1_000_000), records, [0, ends[0], ends[1]], ends, numbers, values))
}

fn run_from(flow: &Flow, limit: u64, records: &[i32], mut at: [usize; 3], ends: [usize; 3], numbers: &mut [u8], values: &mut [i32]) -> Ran {
    let cells = numbers.len().min(values.len());
    let mut variables = [0i32; 4];
    let (mut p, mut m) = ([0; 64], [0; 64]);
    let (mut next, mut steps, mut puts) = (1, 0, 0);
    let end = loop {
        let i = next - 1;
        let x = flow.instructions[i];
        if x.kind == Kind::Stop {
            break End::Stopped;
        }
        if steps == limit {
            break End::Spent;
        }
        let v = usize::from(x.v).wrapping_sub(1);
        let a = usize::from(x.a).wrapping_sub(1);
        let taken = match x.kind {
            Kind::Read => {
                let k = at[a];
                let there = k < ends[a];
                if there {
                    at[a] = k + 1;
                    variables[v] = records[k];
                }
                there
            }
            Kind::Put => {
                if puts == cells {
                    break End::Full;
                }
                numbers[puts] = x.a;
                values[puts] = variables[v];
                puts += 1;
                true
            }
            Kind::Copy => {
                variables[v] = variables[a];
                true
            }
            Kind::Set => {
                variables[v] = x.c;
                true
            }
            Kind::Less => variables[a] < variables[v],
            Kind::Over => x.c < variables[v],
            Kind::Under => variables[v] < x.c,
            Kind::Nop | Kind::Stop => true,
        };
        if x.kind.two_exits() {
            if taken {
                p[i] += 1;
            } else {
                m[i] += 1;
            }
        }
        next = usize::from(if taken { x.p } else { x.m });
        steps += 1;
    };
    Ran { end, steps, puts, p, m }
}
