//! A run of a flow on given tapes: document 01, "Runs".

use super::flow::{Flow, Instruction, Refusal};

/// A larger step limit counts as this one.
const LIMIT: u64 = 1_000_000;

#[derive(Clone, Copy, Debug, PartialEq, Eq)]
pub enum End {
    Stopped,
    Spent,
    Full,
}

/// The answer of a run: how it ended, the steps done, the puts done (output tape and value), and how often exit p and exit m of
/// instruction i was taken, at i - 1.
#[derive(Clone, Debug, PartialEq, Eq)]
pub struct Ran {
    pub end: End,
    pub steps: u64,
    pub puts: Vec<(u8, i32)>,
    pub p: Vec<u32>,
    pub m: Vec<u32>,
}

/// A run, `free` being the length of the shorter output row; refusal 12 unless T lengths are given that add up to the row.
pub fn run(flow: &Flow, limit: u64, records: &[i32], lengths: &[usize], free: usize) -> Result<Ran, Refusal> {
    let sum: u128 = lengths.iter().map(|&length| length as u128).sum();
    if lengths.len() != flow.tapes || sum != records.len() as u128 {
        return Err(Refusal { number: 12, place: 0 });
    }
    let mut rest = records;
    let mut tapes: Vec<&[i32]> = Vec::new();
    for &length in lengths {
        let (tape, others) = rest.split_at(length);
        tapes.push(tape);
        rest = others;
    }

    let limit = limit.min(LIMIT);
    let count = flow.instructions.len();
    let mut held = vec![0i32; flow.variables];
    let mut ran = Ran { end: End::Stopped, steps: 0, puts: Vec::new(), p: vec![0; count], m: vec![0; count] };
    let mut at = 1;
    loop {
        let instruction = flow.instructions[at - 1];
        if instruction == Instruction::Stop {
            ran.end = End::Stopped;
            return Ok(ran);
        }
        if ran.steps == limit {
            ran.end = End::Spent;
            return Ok(ran);
        }
        if matches!(instruction, Instruction::Put { .. }) && ran.puts.len() >= free {
            ran.end = End::Full;
            return Ok(ran);
        }
        ran.steps += 1;
        let mut branch = |holds: bool, p: usize, m: usize| {
            if holds {
                ran.p[at - 1] += 1;
                p
            } else {
                ran.m[at - 1] += 1;
                m
            }
        };
        at = match instruction {
            Instruction::Read { tape, v, p, m } => match tapes[tape - 1].split_first() {
                Some((&record, left)) => {
                    tapes[tape - 1] = left;
                    held[v - 1] = record;
                    branch(true, p, m)
                }
                None => branch(false, p, m),
            },
            Instruction::Put { v, output, n } => {
                ran.puts.push((output as u8, held[v - 1]));
                n
            }
            Instruction::Copy { u, v, n } => {
                held[v - 1] = held[u - 1];
                n
            }
            Instruction::Set { c, v, n } => {
                held[v - 1] = c as i32;
                n
            }
            Instruction::Less { u, v, p, m } => branch(held[u - 1] < held[v - 1], p, m),
            Instruction::Over { c, v, p, m } => branch(c < i64::from(held[v - 1]), p, m),
            Instruction::Under { v, c, p, m } => branch(i64::from(held[v - 1]) < c, p, m),
            Instruction::Nop { n } => n,
            Instruction::Stop => unreachable!("a run ends at stop"),
        };
    }
}
