//! A sample for one exit: document 01, "Distances and configurations" and the rows 11, 9 and 10 of its table of refusals, with distances in
//! exits (document 02, T-04).

use super::flow::{Flow, Instruction, Refusal};
use super::interpreter::{run, Ran};
use super::search::Census;

/// What the wish for a sample of a legal flow comes to, in a row of `row` cells: a refusal, None for none, or the distance of the
/// sample. `census` is what the search gave for the cells lent.
pub fn wanted(flow: &Flow, instruction: u64, exit_p: bool, census: Result<&Census, Refusal>, row: usize) -> Result<Option<u32>, Refusal> {
    if !flow.has_exits(instruction) {
        return Err(Refusal { number: 11, place: 0 });
    }
    let census = census?;
    let distances = if exit_p { &census.p } else { &census.m };
    match distances[instruction as usize - 1] {
        Some(distance) if (row as u64) < u64::from(distance) => Err(Refusal { number: 10, place: 0 }),
        answer => Ok(answer),
    }
}

/// The run of tapes up to and with the first taking of an exit, if it takes it within `d` exits or soon after. From one exit to the next a
/// run that goes on to it comes by each instruction once at most, so as many steps as there are instructions are enough for each exit.
pub fn up_to(flow: &Flow, instruction: u64, exit_p: bool, d: u32, records: &[i32], lengths: &[usize]) -> Option<Ran> {
    let index = instruction as usize - 1;
    let after = |limit: u64| run(flow, limit, records, lengths, usize::MAX).ok();
    let taken = |ran: &Ran| if exit_p { ran.p[index] > 0 } else { ran.m[index] > 0 };
    let mut most = flow.instructions.len() as u64 * u64::from(d);
    after(most).filter(&taken)?;
    // The least limit with which it is taken: not `least`, and `most` is enough.
    let mut least = 0;
    while most - least > 1 {
        let middle = (least + most) / 2;
        if after(middle).is_some_and(|ran| taken(&ran)) {
            most = middle;
        } else {
            least = middle;
        }
    }
    after(most)
}

/// What tapes handed out in a row as a sample of distance `d` break of what documents 01 and 02 say of one; empty if nothing. Lengths
/// past the T-th are borne if they are 0. That no tapes take the exit earlier than `d` is for the search to say.
pub fn faults(flow: &Flow, instruction: u64, exit_p: bool, d: u32, row: &[i32], lengths: &[u64]) -> Vec<String> {
    if !flow.has_exits(instruction) {
        return vec![format!("instruction {instruction} has no two exits")];
    }
    if lengths.len() < flow.tapes || lengths[flow.tapes..].iter().any(|&length| length != 0) {
        return vec![format!("{lengths:?} are not the lengths of {} tapes", flow.tapes)];
    }
    let sum: u128 = lengths.iter().map(|&length| u128::from(length)).sum();
    if sum > row.len() as u128 {
        return vec![format!("{lengths:?} reach past the row of {} cells", row.len())];
    }
    if u128::from(d) > row.len() as u128 {
        return vec![format!("the row of {} cells is shorter than the distance {d}", row.len())];
    }
    let records = &row[..sum as usize];
    let lengths: Vec<usize> = lengths[..flow.tapes].iter().map(|&length| length as usize).collect();

    let mut found = Vec::new();
    let (low, high) = flow.bounds();
    let between = low - i64::from(d)..=high + i64::from(d);
    for record in records.iter().filter(|&&record| !between.contains(&i64::from(record))) {
        found.push(format!("record {record} lies outside {between:?}"));
    }
    let Some(ran) = up_to(flow, instruction, exit_p, d, records, &lengths) else {
        found.push(format!("the exit is not taken by exit {d}"));
        return found;
    };
    let exits: u32 = ran.p.iter().chain(&ran.m).sum();
    if exits != d {
        found.push(format!("the exit is taken as exit {exits}, not as exit {d}"));
    }
    for (tape, &length) in (1..).zip(&lengths) {
        let reads_it = |i: &Instruction| matches!(*i, Instruction::Read { tape: of, .. } if of == tape);
        let read: usize = flow.instructions.iter().zip(&ran.p).filter(|(i, _)| reads_it(i)).map(|(_, &times)| times as usize).sum();
        if read != length {
            found.push(format!("tape {tape} holds {length} records, of which {read} are read up to there"));
        }
    }
    found
}

/// Start and count of the part of a row of `row` cells that holds the records of tape `tape`, counted from 1; the empty part at
/// the row's start for a tape that does not exist or lengths that all together reach past the row.
pub fn part(row: usize, lengths: &[usize], tape: usize) -> (usize, usize) {
    let sum: u128 = lengths.iter().map(|&length| length as u128).sum();
    if tape == 0 || tape > lengths.len() || sum > row as u128 {
        return (0, 0);
    }
    (lengths[..tape - 1].iter().sum(), lengths[tape - 1])
}
