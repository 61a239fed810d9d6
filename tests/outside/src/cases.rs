//! One call of the library and what the independent implementation says of it: the answer, and the later content of every row.

use crate::documents::bound;
use crate::documents::flow::{Flow, Refusal};
use crate::documents::interpreter::{self, End};
use crate::documents::reader;
use crate::documents::sample::{faults as sample_faults, part, up_to, wanted};
use crate::documents::search::Census;
use crate::ffi::{self, Words};
use crate::lent::{Cell, Lent};
use crate::rng::Rng;

type Faults = Vec<Option<String>>;

/// What a check comes to: the outcome, for the counts, and what differs.
pub struct Checked {
    pub outcome: String,
    pub faults: Vec<String>,
}

/// The outcome of a call that returns this: an answer of a name, or a refusal.
fn checked(returned: u32, outcome: Result<&str, Refusal>, mut faults: Faults) -> Checked {
    let (outcome, want) = match outcome {
        Ok(name) => (name.to_string(), 0),
        Err(Refusal { number, place }) => (format!("refused {number}"), place * 256 + u64::from(number)),
    };
    faults.push((u64::from(returned) != want).then(|| format!("returns {returned}, should return {want}")));
    Checked { outcome, faults: faults.into_iter().flatten().collect() }
}

/// A list for 64 instructions: zeros after its content.
fn sixty_four<T: Cell>(content: &[T]) -> Vec<T> {
    let mut row = content.to_vec();
    row.resize(64, T::ZERO);
    row
}

#[derive(Debug)]
pub struct RunCase {
    pub limit: u64,
    pub records: Vec<i32>,
    pub lengths: Vec<usize>,
    pub numbers: usize,
    pub values: usize,
}

pub fn run(rng: &mut Rng, text: &[u8], case: &RunCase) -> Checked {
    let mut bytes = Lent::of(rng, text);
    let mut records = Lent::of(rng, &case.records);
    let mut lengths = Lent::of(rng, &case.lengths);
    let mut numbers = Lent::<u8>::new(rng, case.numbers);
    let mut values = Lent::<i32>::new(rng, case.values);
    let mut p = Lent::<u32>::for_answer(rng, 64);
    let mut m = Lent::<u32>::for_answer(rng, 64);
    let mut answer = Lent::<u64>::for_answer(rng, 3);
    #[rustfmt::skip]
    let returned = unsafe {
        ffi::tilsando_run(
            bytes.text(rng), bytes.len(), case.limit, records.ptr(), records.len(), lengths.ptr(), lengths.len(),
            numbers.ptr(), numbers.len(), values.ptr(), values.len(),
            p.ptr(), p.len(), m.ptr(), m.len(), answer.ptr(), answer.len(),
        )
    };
    let free = case.numbers.min(case.values);
    let ran = reader::read(text).and_then(|flow| interpreter::run(&flow, case.limit, &case.records, &case.lengths, free));
    let mut faults = vec![bytes.changed("text"), records.changed("records"), lengths.changed("lengths")];
    let outcome = match ran {
        Err(why) => {
            faults.extend([numbers.changed("numbers"), values.changed("values"), p.changed("p"), m.changed("m"), answer.changed("answer")]);
            Err(why)
        }
        Ok(ran) => {
            let (outputs, put): (Vec<u8>, Vec<i32>) = ran.puts.iter().copied().unzip();
            faults.extend([numbers.fault("numbers", &outputs), values.fault("values", &put)]);
            faults.extend([p.fault("p", &sixty_four(&ran.p)), m.fault("m", &sixty_four(&ran.m))]);
            let (end, name) = match ran.end {
                End::Stopped => (1, "stopped"),
                End::Spent => (2, "spent"),
                End::Full => (3, "full"),
            };
            faults.push(answer.fault("answer", &[end, ran.steps, put.len() as u64]));
            Ok(name)
        }
    };
    checked(returned, outcome, faults)
}

/// A text with what is known of it: the refusal, or the flow and its census, none if the configurations outnumber 65,536.
pub type Known = Result<(Flow, Option<Census>), Refusal>;

/// The census, or refusal 9, for so many cells.
fn searched(census: &Option<Census>, cells: usize) -> Result<&Census, Refusal> {
    let fits = census.as_ref().filter(|c| c.configurations <= cells.min(65_536));
    fits.ok_or(Refusal { number: 9, place: 0 })
}

fn distances(row: &[Option<u32>]) -> Vec<u32> {
    sixty_four(&row.iter().map(|d| d.unwrap_or(0)).collect::<Vec<u32>>())
}

pub fn report(rng: &mut Rng, text: &[u8], known: &Known, cells: &mut Lent<Words>) -> Checked {
    let mut bytes = Lent::of(rng, text);
    let mut two = Lent::<u8>::for_answer(rng, 64);
    let mut p = Lent::<u32>::for_answer(rng, 64);
    let mut m = Lent::<u32>::for_answer(rng, 64);
    let mut answer = Lent::<u64>::for_answer(rng, 2);
    #[rustfmt::skip]
    let returned = unsafe {
        ffi::tilsando_report(
            bytes.text(rng), bytes.len(), cells.ptr(), cells.len(),
            two.ptr(), two.len(), p.ptr(), p.len(), m.ptr(), m.len(), answer.ptr(), answer.len(),
        )
    };
    let mut faults = vec![bytes.changed("text")];
    let given = known.as_ref().map_err(|why| *why).and_then(|(flow, census)| Ok((flow, searched(census, cells.len())?)));
    let outcome = match given {
        Err(why) => {
            faults.extend([two.changed("two"), p.changed("p"), m.changed("m"), answer.changed("answer"), cells.not_zero("cells")]);
            Err(why)
        }
        Ok((flow, census)) => {
            let exits: Vec<u8> = flow.instructions.iter().map(|x| u8::from(x.exits().is_some())).collect();
            faults.extend([two.fault("two", &sixty_four(&exits)), cells.outside("cells")]);
            faults.extend([p.fault("p", &distances(&census.p)), m.fault("m", &distances(&census.m))]);
            faults.push(answer.fault("answer", &[exits.len() as u64, census.configurations as u64]));
            Ok("given")
        }
    };
    checked(returned, outcome, faults)
}

/// The bound of a text; over is 0.
pub fn bound(rng: &mut Rng, text: &[u8]) -> Checked {
    let mut bytes = Lent::of(rng, text);
    let mut answer = Lent::<u64>::for_answer(rng, 1);
    let returned = unsafe { ffi::tilsando_bound(bytes.text(rng), bytes.len(), answer.ptr(), answer.len()) };
    let mut faults = vec![bytes.changed("text")];
    let outcome = match reader::read(text) {
        Err(why) => {
            faults.push(answer.changed("answer"));
            Err(why)
        }
        Ok(flow) => {
            let bound = bound::bound(&flow);
            faults.push(answer.fault("answer", &[bound.unwrap_or(0)]));
            Ok(match bound {
                None => "over",
                Some(65_536) => "65,536",
                Some(_) => "a number",
            })
        }
    };
    checked(returned, outcome, faults)
}

#[derive(Debug)]
pub struct SampleCase {
    pub instruction: u64,
    pub exit: bool,
    pub row: usize,
}

/// A sample that is given and judged right: its distance, the steps of its run up to and with the exit, and its records.
pub struct Judged {
    pub distance: u32,
    pub steps: u64,
    pub records: Vec<i32>,
}

pub fn sample(rng: &mut Rng, text: &[u8], known: &Known, cells: &mut Lent<Words>, case: &SampleCase) -> (Checked, Option<Judged>) {
    // Any number but 0 asks for exit p.
    let exit = if case.exit { *rng.pick(&[1, 1, 2, 255]) } else { 0 };
    let mut bytes = Lent::of(rng, text);
    let mut row = Lent::<i32>::new(rng, case.row);
    let mut answer = Lent::<u64>::for_answer(rng, 5);
    #[rustfmt::skip]
    let returned = unsafe {
        ffi::tilsando_sample(
            bytes.text(rng), bytes.len(), case.instruction, exit, cells.ptr(), cells.len(),
            row.ptr(), row.len(), answer.ptr(), answer.len(),
        )
    };
    let mut faults = vec![bytes.changed("text")];
    let mut judged = None;
    let given = known.as_ref().map_err(|why| *why).and_then(|(flow, census)| {
        let distance = wanted(flow, case.instruction, case.exit, searched(census, cells.len()), case.row)?;
        Ok(distance.map(|d| (flow, d)))
    });
    let outcome = match given {
        Err(why) => {
            faults.extend([row.changed("row"), answer.changed("answer"), cells.not_zero("cells")]);
            Err(why)
        }
        Ok(None) => {
            faults.extend([row.changed("row"), answer.fault("answer", &[0; 5]), cells.outside("cells")]);
            Ok("none")
        }
        Ok(Some((flow, d))) => {
            // The lengths are free within what is said of them. A short answer row does not tell them all; they add up to d at most.
            let lengths: Vec<u64> = answer.now().iter().skip(2).take(3).copied().collect();
            let whole = lengths.len() == 3;
            let written = if whole { lengths.iter().map(|n| u128::from(*n)).sum() } else { u128::from(d) };
            let records = &row.now()[..written.min(row.len() as u128) as usize];
            faults.extend([row.fault("row", records), cells.outside("cells")]);
            faults.push(answer.fault("answer", &[&[u64::from(d), flow.tapes as u64], &lengths[..]].concat()));
            if whole {
                let found = sample_faults(flow, case.instruction, case.exit, d, row.now(), &lengths);
                if found.is_empty() {
                    let lengths: Vec<usize> = lengths[..flow.tapes].iter().map(|n| *n as usize).collect();
                    let steps = up_to(flow, case.instruction, case.exit, d, records, &lengths).map_or(0, |ran| ran.steps);
                    faults.extend(handed_on(rng, text, row.now(), records, steps, lengths));
                    judged = Some(Judged { distance: d, steps, records: records.to_vec() });
                }
                faults.extend(found.into_iter().map(Some));
            }
            Ok("given")
        }
    };
    let checked = checked(returned, outcome, faults);
    let right = checked.faults.is_empty();
    (checked, judged.filter(|_| right))
}

/// A sample handed on with its T lengths: to the helper, for every tape, tape 0 and tape T + 1, and to a run of so many steps.
fn handed_on(rng: &mut Rng, text: &[u8], row: &[i32], records: &[i32], steps: u64, lengths: Vec<usize>) -> Faults {
    let mut faults = Vec::new();
    for number in 0..=lengths.len() + 1 {
        let row = if rng.percent(50) { row } else { records };
        let asked = tape(rng, &TapeCase { row: row.to_vec(), lengths: lengths.clone(), tape: number });
        faults.extend(asked.faults.into_iter().map(|fault| Some(format!("tape {number}: {fault}"))));
    }
    let case = RunCase { limit: steps, records: records.to_vec(), lengths, numbers: steps as usize, values: steps as usize };
    faults.extend(run(rng, text, &case).faults.into_iter().map(|fault| Some(format!("its run: {fault}"))));
    faults
}

#[derive(Debug)]
pub struct TapeCase {
    pub row: Vec<i32>,
    pub lengths: Vec<usize>,
    pub tape: usize,
}

pub fn tape(rng: &mut Rng, case: &TapeCase) -> Checked {
    let mut row = Lent::of(rng, &case.row);
    let mut lengths = Lent::of(rng, &case.lengths);
    let mut answer = Lent::<u64>::for_answer(rng, 2);
    #[rustfmt::skip]
    let returned = unsafe {
        ffi::tilsando_tape(
            row.ptr(), row.len(), lengths.ptr(), lengths.len(), case.tape, answer.ptr(), answer.len(),
        )
    };
    let (start, count) = part(case.row.len(), &case.lengths, case.tape);
    let faults = vec![answer.fault("answer", &[start as u64, count as u64]), row.changed("row"), lengths.changed("lengths")];
    checked(returned, Ok(if count > 0 { "a part" } else { "the empty part" }), faults)
}
