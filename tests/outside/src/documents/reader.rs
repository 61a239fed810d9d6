//! Reading a flow text: document 01, "The flow text", and the rows 1 to 8 of "Where a request is turned back", as document 02 (T-02, T-08,
//! T-09) changes them: 13, 14 and 15 stand where 4 stood, 2 is gone, as no bytes are a legal text, and constants run from -9999 to 9999.

use super::flow::{Flow, Instruction, Refusal};

const BYTES: usize = 4096;
const TAPES: i64 = 3;
const OUTPUTS: i64 = 3;
const VARIABLES: i64 = 4;
const INSTRUCTIONS: usize = 64;
const CONSTANT: i64 = 9999;

/// A number of more digits than any range holds is kept at this value, which lies outside every range.
const LARGE: i64 = 1_000_000;

/// What a field after the word stands for.
#[derive(Clone, Copy, PartialEq, Eq)]
enum Kind {
    Tape,
    Variable,
    Output,
    Constant,
    Target,
}

/// The fields after the word, in the order of the table of instructions; None for an unknown word.
fn kinds(word: &[u8]) -> Option<&'static [Kind]> {
    use Kind::*;
    Some(match word {
        b"read" => &[Tape, Variable, Target, Target],
        b"put" => &[Variable, Output, Target],
        b"copy" => &[Variable, Variable, Target],
        b"set" => &[Constant, Variable, Target],
        b"less" => &[Variable, Variable, Target, Target],
        b"over" => &[Constant, Variable, Target, Target],
        b"under" => &[Variable, Constant, Target, Target],
        b"nop" => &[Target],
        b"stop" => &[],
        _ => return None,
    })
}

/// A number without a minus: one digit or more and, unless it is 0 itself, no leading zero.
fn natural(field: &[u8]) -> Option<i64> {
    let written = !field.is_empty() && field.iter().all(u8::is_ascii_digit) && (field[0] != b'0' || field.len() == 1);
    written.then(|| field.iter().fold(0, |number, &digit| LARGE.min(10 * number + i64::from(digit - b'0'))))
}

/// A constant: a number that may have a minus, though not before 0.
fn constant(field: &[u8]) -> Option<i64> {
    match field.strip_prefix(b"-") {
        Some(rest) => natural(rest).filter(|&number| number != 0).map(|number| -number),
        None => natural(field),
    }
}

/// Line 1, `flow,T,O,V`: refusal 13 before 14, 14 before 15, and 15 before 5.
fn first_line(fields: &[&[u8]]) -> Result<Flow, u32> {
    let [b"flow", rest @ ..] = fields else { return Err(13) };
    let [t, o, v] = rest else { return Err(14) };
    let (Some(t), Some(o), Some(v)) = (natural(t), natural(o), natural(v)) else { return Err(15) };
    if !(1..=TAPES).contains(&t) || !(0..=OUTPUTS).contains(&o) || !(1..=VARIABLES).contains(&v) {
        return Err(5);
    }
    Ok(Flow { tapes: t as usize, outputs: o as usize, variables: v as usize, instructions: Vec::new() })
}

/// The line of the instruction whose turn is `turn`: refusal 13 before 14, 14 before 15, 15 before 6, and 6 before 5.
fn instruction_line(fields: &[&[u8]], turn: usize, flow: &Flow) -> Result<Instruction, u32> {
    let [number, word, rest @ ..] = fields else { return Err(13) };
    let kinds = kinds(word).ok_or(13u32)?;
    if kinds.len() != rest.len() {
        return Err(14);
    }
    let number = natural(number).ok_or(15u32)?;
    let mut values = Vec::new();
    for (&kind, field) in kinds.iter().zip(rest) {
        values.push(if kind == Kind::Constant { constant(field) } else { natural(field) }.ok_or(15u32)?);
    }
    if number != turn as i64 {
        return Err(6);
    }
    let inside = |(&kind, &value): (&Kind, &i64)| match kind {
        Kind::Tape => (1..=flow.tapes as i64).contains(&value),
        Kind::Variable => (1..=flow.variables as i64).contains(&value),
        Kind::Output => (1..=flow.outputs as i64).contains(&value),
        Kind::Constant => (-CONSTANT..=CONSTANT).contains(&value),
        Kind::Target => true,
    };
    if !kinds.iter().zip(&values).all(inside) {
        return Err(5);
    }
    Ok(instruction(word, &values))
}

/// The instruction of a known word with as many values as it has fields.
fn instruction(word: &[u8], values: &[i64]) -> Instruction {
    let at = |i: usize| values[i] as usize;
    match word {
        b"read" => Instruction::Read { tape: at(0), v: at(1), p: at(2), m: at(3) },
        b"put" => Instruction::Put { v: at(0), output: at(1), n: at(2) },
        b"copy" => Instruction::Copy { u: at(0), v: at(1), n: at(2) },
        b"set" => Instruction::Set { c: values[0], v: at(1), n: at(2) },
        b"less" => Instruction::Less { u: at(0), v: at(1), p: at(2), m: at(3) },
        b"over" => Instruction::Over { c: values[0], v: at(1), p: at(2), m: at(3) },
        b"under" => Instruction::Under { v: at(0), c: values[1], p: at(2), m: at(3) },
        b"nop" => Instruction::Nop { n: at(0) },
        _ => Instruction::Stop,
    }
}

/// The flow that no bytes at all mean: document 02 (T-08).
fn of_no_bytes() -> Flow {
    Flow { tapes: 1, outputs: 0, variables: 1, instructions: vec![Instruction::Stop] }
}

/// The flow of a legal text, or the refusal that the table of documents 01 and 02 gives it, from the whole text down to "after all lines".
pub fn read(text: &[u8]) -> Result<Flow, Refusal> {
    let refuse = |number, place: usize| Err(Refusal { number, place: place as u64 });
    if text.len() > BYTES {
        return refuse(1, 0);
    }
    let Some((&last, body)) = text.split_last() else { return Ok(of_no_bytes()) };
    if last != b'\n' {
        return refuse(3, 0);
    }
    let mut lines = body.split(|&byte| byte == b'\n').map(|line| line.split(|&byte| byte == b',').collect::<Vec<_>>());
    let mut flow = match first_line(&lines.next().unwrap_or_default()) {
        Ok(flow) => flow,
        Err(number) => return refuse(number, 1),
    };
    for (turn, fields) in (1..).zip(lines) {
        if turn > INSTRUCTIONS {
            return refuse(8, turn + 1);
        }
        match instruction_line(&fields, turn, &flow) {
            Ok(instruction) => flow.instructions.push(instruction),
            Err(number) => return refuse(number, turn + 1),
        }
    }
    let count = flow.instructions.len();
    if count == 0 {
        return refuse(8, 2);
    }
    let astray = |instruction: &Instruction| instruction.targets().iter().any(|target| !(1..=count).contains(target));
    match flow.instructions.iter().position(astray) {
        Some(index) => refuse(7, index + 2),
        None => Ok(flow),
    }
}
