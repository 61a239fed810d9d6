//! A flow, as document 01 describes it ("The flow text"), and a refusal.

/// The number and the place of document 01's table "Where a request is turned back", as document 02 (T-02, T-08) changes it: with 13, 14
/// and 15, and without 4 and 2.
#[derive(Clone, Copy, Debug, PartialEq, Eq)]
pub struct Refusal {
    pub number: u32,
    pub place: u64,
}

/// Tapes, outputs, variables and targets count from 1.
#[derive(Clone, Copy, Debug, PartialEq, Eq)]
pub enum Instruction {
    Read { tape: usize, v: usize, p: usize, m: usize },
    Put { v: usize, output: usize, n: usize },
    Copy { u: usize, v: usize, n: usize },
    Set { c: i64, v: usize, n: usize },
    Less { u: usize, v: usize, p: usize, m: usize },
    Over { c: i64, v: usize, p: usize, m: usize },
    Under { v: usize, c: i64, p: usize, m: usize },
    Nop { n: usize },
    Stop,
}

#[derive(Clone, Debug, PartialEq, Eq)]
pub struct Flow {
    pub tapes: usize,
    pub outputs: usize,
    pub variables: usize,
    pub instructions: Vec<Instruction>,
}

impl Instruction {
    /// P and M of an instruction with two exits. P and M may be equal; they are still two exits.
    pub fn exits(&self) -> Option<(usize, usize)> {
        match *self {
            Instruction::Read { p, m, .. }
            | Instruction::Less { p, m, .. }
            | Instruction::Over { p, m, .. }
            | Instruction::Under { p, m, .. } => Some((p, m)),
            _ => None,
        }
    }

    /// N, or P and M: the instruction numbers that it names.
    pub fn targets(&self) -> Vec<usize> {
        match *self {
            Instruction::Put { n, .. } | Instruction::Copy { n, .. } | Instruction::Set { n, .. } | Instruction::Nop { n } => vec![n],
            Instruction::Stop => vec![],
            _ => self.exits().map_or(vec![], |(p, m)| vec![p, m]),
        }
    }

    /// Names other instructions: each that it names, p first, is replaced by what is said for it.
    pub fn redirect(&mut self, mut other: impl FnMut(usize) -> usize) {
        match self {
            Instruction::Put { n, .. } | Instruction::Copy { n, .. } | Instruction::Set { n, .. } | Instruction::Nop { n } => {
                *n = other(*n)
            }
            Instruction::Read { p, m, .. }
            | Instruction::Less { p, m, .. }
            | Instruction::Over { p, m, .. }
            | Instruction::Under { p, m, .. } => (*p, *m) = (other(*p), other(*m)),
            Instruction::Stop => {}
        }
    }

    /// The constant that stands in it.
    pub fn constant(&self) -> Option<i64> {
        match *self {
            Instruction::Set { c, .. } | Instruction::Over { c, .. } | Instruction::Under { c, .. } => Some(c),
            _ => None,
        }
    }
}

impl Flow {
    /// C1 and C2: the least and the greatest of 0 and every constant in the flow.
    pub fn bounds(&self) -> (i64, i64) {
        let constants = || self.instructions.iter().filter_map(Instruction::constant);
        (constants().fold(0, i64::min), constants().fold(0, i64::max))
    }

    /// Whether instruction number `instruction` exists and has two exits.
    pub fn has_exits(&self, instruction: u64) -> bool {
        (1..=self.instructions.len() as u64).contains(&instruction) && self.instructions[instruction as usize - 1].exits().is_some()
    }

    /// The text of a legal flow by document 01, "The flow text". It is the only text of the flow, but for one flow: that of one tape, no
    /// outputs, one variable and the single instruction `stop` has the empty text too (document 02, T-08), which is not given here.
    pub fn text(&self) -> String {
        let mut text = format!("flow,{},{},{}\n", self.tapes, self.outputs, self.variables);
        for (number, instruction) in (1..).zip(&self.instructions) {
            text += &match instruction {
                Instruction::Read { tape, v, p, m } => format!("{number},read,{tape},{v},{p},{m}\n"),
                Instruction::Put { v, output, n } => format!("{number},put,{v},{output},{n}\n"),
                Instruction::Copy { u, v, n } => format!("{number},copy,{u},{v},{n}\n"),
                Instruction::Set { c, v, n } => format!("{number},set,{c},{v},{n}\n"),
                Instruction::Less { u, v, p, m } => format!("{number},less,{u},{v},{p},{m}\n"),
                Instruction::Over { c, v, p, m } => format!("{number},over,{c},{v},{p},{m}\n"),
                Instruction::Under { v, c, p, m } => format!("{number},under,{v},{c},{p},{m}\n"),
                Instruction::Nop { n } => format!("{number},nop,{n}\n"),
                Instruction::Stop => format!("{number},stop\n"),
            };
        }
        text
    }
}
