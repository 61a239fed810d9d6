//! The library against the same algorithms in plain Rust, and against an older library if one is linked, in one run; prints tables.
//!
//! Both answer the same requests, in turn; the answers are compared. A time is the processor time of one request, the least and the
//! median of all rounds. Before each report and each sample the cells hold what a request of another flow left.

#[cfg(before)]
mod before;
mod clock;
mod flows;
mod library;
mod measure;
mod plain;

use library::Told;
use measure::{after, each, in_turn, worst, Compared};
use plain::running::Ran;
use plain::{Cell, Refusal};
use std::hint::black_box;

const CELLS: usize = 65_536;

/// A flow and the number of its configurations.
struct Flow {
    text: Vec<u8>,
    k: usize,
}

impl Flow {
    fn of(text: Vec<u8>, cells: &mut [Cell]) -> Flow {
        let k = plain::report(&text, cells).expect("a report is given").configurations;
        Flow { text, k }
    }
}

/// A flow of a family, and one of another family about as large: before each request for the flow comes one for the other.
struct Subject<'a> {
    family: &'a str,
    flow: &'a Flow,
    other: &'a Flow,
}

impl Subject<'_> {
    /// The time of a request for the flow; the one before it does not count.
    fn time<C: ?Sized, A>(&self, lent: &mut C, ask: impl Fn(&mut C, &Flow) -> A) -> f64 {
        let calls = (100_000 / self.flow.k as u64).max(1);
        after(calls, lent, |lent| ask(lent, self.other), |lent| ask(lent, self.flow))
    }
}

/// A way to run.
type Way<A> = fn(&[u8], u64, &[i32], &[usize], &mut [u8], &mut [i32]) -> A;

/// The rows of outputs: numbers and values.
type Outputs = (Vec<u8>, Vec<i32>);

/// A run that uses its limit, asked for so many times in a round.
struct Run {
    what: String,
    text: Vec<u8>,
    limit: u64,
    records: Vec<i32>,
    lengths: Vec<usize>,
    calls: u64,
}

impl Run {
    /// The reading of a text: a run of 0 steps on so many empty tapes.
    fn reading(what: &str, text: Vec<u8>, tapes: usize) -> Run {
        let what = format!("reading, {what}, {} bytes", text.len());
        let calls = 300_000 / text.len() as u64;
        Run { what, text, limit: 0, records: Vec::new(), lengths: vec![0; tapes], calls }
    }

    /// A run of 1,000,000 steps.
    fn long(what: &str, text: Vec<u8>, tapes: &[&[i32]]) -> Run {
        let what = format!("run, {what}, 1,000,000 steps");
        Run { what, text, limit: 1_000_000, records: tapes.concat(), lengths: tapes.iter().map(|t| t.len()).collect(), calls: 1 }
    }

    fn outputs(&self) -> Outputs {
        (vec![0; self.records.len()], vec![0; self.records.len()])
    }

    fn ask<A>(&self, way: Way<A>, (numbers, values): &mut Outputs) -> A {
        way(black_box(&self.text), self.limit, &self.records, &self.lengths, numbers, values)
    }

    fn time<A>(&self, way: Way<A>, outputs: &mut Outputs) -> f64 {
        each(self.calls, || self.ask(way, outputs))
    }

    /// The run by the library and by another, whose answers `told` makes comparable.
    fn against<A>(&self, other: Way<A>, told: fn(A) -> Told) -> Compared {
        let (mut outputs, mut again) = (self.outputs(), self.outputs());
        let (one, same) = (self.ask(library::run, &mut outputs), told(self.ask(other, &mut again)));
        assert_eq!((&one, &outputs), (&same, &again), "{}: both answer the same", self.what);
        assert_eq!(one.answer[1], self.limit, "{}: the run uses its limit", self.what);
        line(&self.what, in_turn(&mut outputs, |lent| self.time(library::run, lent), |lent| self.time(other, lent)))
    }
}

/// What the library tells when plain Rust answers so.
fn told(answer: Result<Ran, Refusal>) -> Told {
    match answer {
        Ok(ran) => Told { answer: [ran.end as u64, ran.steps, ran.puts as u64, 0, 0], p: ran.p, m: ran.m, ..Told::NOTHING },
        Err((number, place)) => Told { returned: place as u32 * 256 + number, ..Told::NOTHING },
    }
}

/// The bound of a flow.
fn bound(what: &str, text: Vec<u8>) -> Compared {
    let calls = 300_000 / text.len() as u64;
    let answer = plain::bound(&text).expect("the flow is legal").unwrap_or(0);
    assert_eq!(library::bound(&text), Told { answer: [answer, 0, 0, 0, 0], ..Told::NOTHING }, "bound, {what}: both answer the same");
    let ours = |text: &mut Vec<u8>| each(calls, || library::bound(black_box(text)));
    let plain = |text: &mut Vec<u8>| each(calls, || plain::bound(black_box(text)));
    let what = format!("bound, {what}, {} bytes", text.len());
    line(&what, in_turn(&mut { text }, ours, plain))
}

/// Reports by the library, in n cells or as many as it takes.
fn ours(n: usize) -> impl Fn(&mut [Cell], &Flow) -> Told {
    move |cells, flow| library::report(black_box(&flow.text), &mut cells[..n.max(flow.k)])
}

fn shown(nanoseconds: f64) -> String {
    match nanoseconds {
        x if x < 10_000.0 => format!("{x:.0} ns"),
        x if x < 10_000_000.0 => format!("{:.1} µs", x / 1e3),
        x => format!("{:.2} ms", x / 1e6),
    }
}

fn head(what: &str, one: &str, other: &str) {
    println!("\n| {what} | {one}, least | {other}, least | Ratio | {one}, median | {other}, median | Ratio |");
    println!("|---|---|---|---|---|---|---|");
}

fn line(what: &str, compared: Compared) -> Compared {
    let (ratio, Compared { one, other }) = (compared.ratio(), compared);
    print!("| {what} | {} | {} | {:.2} ", shown(one.least), shown(other.least), ratio.least);
    println!("| {} | {} | {:.2} |", shown(one.median), shown(other.median), ratio.median);
    compared
}

/// A report in as many cells as the flow has configurations.
fn report(cells: &mut [Cell], s: &Subject) -> Compared {
    let k = s.flow.k;
    let plain =
        |cells: &mut [Cell], flow: &Flow| plain::report(black_box(&flow.text), &mut cells[..k.max(flow.k)]).expect("a report is given");
    let (told, given) = (ours(k)(cells, s.flow), plain(cells, s.flow));
    let answer = [given.instructions as u64, k as u64, 0, 0, 0];
    let same = Told { answer, two: given.two.map(u8::from), p: given.p, m: given.m, ..Told::NOTHING };
    assert_eq!(told, same, "{}: both answer the same", s.family);
    let compared = in_turn(cells, |cells| s.time(cells, ours(k)), |cells| s.time(cells, plain));
    line(&format!("report, {}, {k} configurations", s.family), compared)
}

/// A sample for exit p of an instruction.
fn sample(cells: &mut [Cell], what: &str, text: &[u8], instruction: u64, other: &Flow) -> Compared {
    type Lent<'a> = (&'a mut [Cell], Vec<i32>);
    let ours = |(cells, row): &mut Lent| library::sample(black_box(text), instruction, true, cells, row);
    let plain = |(cells, row): &mut Lent| {
        let given = plain::sample(black_box(text), instruction, true, cells, row).expect("the request is legal");
        given.expect("a sample is given")
    };
    let ours_other = |(cells, _): &mut Lent| library::report(&other.text, cells);
    let plain_other = |(cells, _): &mut Lent| plain::report(&other.text, cells).map(|given| given.configurations);
    let lent = &mut (cells, vec![0; CELLS]);
    let (told, given) = (ours(lent), plain(lent));
    let [a, b, c] = given.lengths.map(|n| n as u64);
    let answer = [u64::from(given.distance), u64::from(given.tapes), a, b, c];
    assert_eq!(told, Told { answer, ..Told::NOTHING }, "{what}: both answer the same");
    let compared = in_turn(lent, |lent| after(2, lent, ours_other, ours), |lent| after(2, lent, plain_other, plain));
    line(&format!("sample, {what}, distance {}, {} records", given.distance, a + b + c), compared)
}

/// How the time of a report grows from one flow to another, for the library.
fn growth(cells: &mut [Cell], small: &Subject, large: &Subject) -> Compared {
    let (k, k2) = (small.flow.k, large.flow.k);
    let compared = in_turn(cells, |cells| large.time(cells, ours(k2)), |cells| small.time(cells, ours(k)));
    let (ratio, Compared { one, other }) = (compared.ratio(), compared);
    print!("| {} | {k} to {k2} | {:.2} | {} to {} ", small.family, k2 as f64 / k as f64, shown(other.least), shown(one.least));
    println!("| {:.2} | {:.2} |", ratio.least, ratio.median);
    compared
}

/// A report in all cells, and in as many as the flow has configurations. At first the cells hold the full table of another flow.
fn room(cells: &mut [Cell], s: &Subject, full: &Flow) -> Compared {
    ours(CELLS)(cells, full);
    let compared = in_turn(cells, |cells| s.time(cells, ours(CELLS)), |cells| s.time(cells, ours(s.flow.k)));
    line(&format!("report, {}, {} configurations", s.family, s.flow.k), compared)
}

/// A report by this library and by an older one, in as many cells as the flow has configurations; none of a flow that the older one refuses. The
/// older one may count steps in its distances: they are none for the same exits, and no smaller.
#[cfg(before)]
fn landing(cells: &mut [Cell], s: &Subject) -> Option<Compared> {
    let k = s.flow.k;
    let older = |cells: &mut [Cell], flow: &Flow| before::report(black_box(&flow.text), &mut cells[..k.max(flow.k)]);
    if older(cells, s.flow).returned != 0 {
        return None;
    }
    let (now, then) = (ours(k)(cells, s.flow), older(cells, s.flow));
    let nearer = |(d, e): (&u32, &u32)| (*d == 0) == (*e == 0) && d <= e;
    assert!(now.p.iter().zip(&then.p).all(nearer) && now.m.iter().zip(&then.m).all(nearer), "{}: no distance grows", s.family);
    assert_eq!(Told { p: then.p, m: then.m, ..now }, then, "{}: both answer the same", s.family);
    let compared = in_turn(cells, |cells| s.time(cells, ours(k)), |cells| s.time(cells, older));
    Some(line(&format!("report, {}, {k} configurations", s.family), compared))
}

/// A bar, and the greatest of the ratios that it is for.
fn wanted(what: &str, all: &[Compared]) {
    println!("| {what} | {:.2} at most, the median {:.2} |", worst(all).least, worst(all).median);
}

fn main() {
    let cells = &mut vec![[0; 10]; CELLS][..];
    let families = flows::families().map(|(family, texts)| (family, texts.map(|text| Flow::of(text, cells))));
    // Of the first three families, whose flows older libraries read too.
    let other = |i: usize| &families[(i / 5 + 1) % 3].1[i % 5];
    let flows = families.iter().flat_map(|(family, flows)| flows.iter().map(move |flow| (*family, flow)));
    let all: Vec<Subject> = flows.enumerate().map(|(i, (family, flow))| Subject { family, flow, other: other(i) }).collect();
    let longest = Run::reading("64 instructions", flows::longest(), 3);
    let fullest = Run::reading("a number of 2,600 digits", flows::fullest(), 3);
    let short = Run::reading("flow A", flows::short(), 1);
    let tape: Vec<i32> = (0..200_000).map(|i| i * 5).collect();
    let other: Vec<i32> = (0..200_000).map(|i| i * 7 - 1000).collect();
    let merge = Run::long("merge of two tapes", flows::merge(), &[&tape, &other]);
    let endless = Run::long("comparisons and copies", flows::endless(), &[&[]]);
    head("Request", "Library", "Plain Rust");
    let readings = [&longest, &fullest, &short].map(|run| run.against(plain::running::run, told));
    bound("64 instructions", flows::longest());
    bound("flow A", flows::short());
    let runs = [&merge, &endless].map(|run| run.against(plain::running::run, told));
    let reports: Vec<Compared> = all.iter().map(|s| report(cells, s)).collect();
    sample(cells, "between earlier records", &flows::squeeze(15), 62, all[10].flow);
    let long = sample(cells, "long", &flows::counter(&[8, 8, 7, 7], 0, 0, 5, false), 62, all[4].flow);
    sample(cells, "four variables", &all[9].flow.text, 10, all[9].other);
    sample(cells, "long distances", &all[14].flow.text, 61, all[14].other);
    println!("\n| Library, report | Configurations | Growth | Time, least | Growth of the least | Growth of the median |");
    println!("|---|---|---|---|---|---|");
    let grown: Vec<Compared> = all.chunks(5).map(|sizes| growth(cells, &sizes[3], &sizes[4])).collect();
    head("Library, K configurations", "65,536 cells", "K cells");
    let rooms: Vec<Compared> = all.chunks(5).map(|sizes| room(cells, &sizes[0], sizes[4].other)).collect();
    #[cfg(before)]
    let (landed, landings) = {
        head("Request", "Library", "Library before");
        let landed = [&longest, &short, &merge, &endless].map(|run| run.against(before::run, |told| told));
        let landings: Vec<(usize, Compared)> = all.iter().enumerate().filter_map(|(i, s)| Some((i, landing(cells, s)?))).collect();
        (landed, landings)
    };
    println!("\n| Wanted | In this run |\n|---|---|");
    wanted("the longest flow read within 2 times plain Rust", &readings[..1]);
    wanted("a run of 1,000,000 steps within 1.5 times plain Rust", &runs);
    wanted("a report over 65,536 cells within 1.5 times plain Rust", &[reports[4], reports[9], reports[14], reports[19], reports[24]]);
    wanted("the same with constants from -9999 to 9999 within 1.1 times plain Rust", &reports[19..20]);
    wanted("twice the configurations in at most 2.3 times the time", &grown);
    let (least, median) = (shown(long.one.least), shown(long.one.median));
    println!("| a sample of 20,000 steps with 2,000 records in under 100 ms | {least}, the median {median} |");
    wanted("1,000 configurations in 65,536 cells within 1.4 times 1,000 cells", &rooms);
    #[cfg(before)]
    {
        wanted("reading within 1.05 times the library before", &landed[..2]);
        wanted("a run's step within 1.05 times the library before", &landed[2..]);
        // the fifth flow of a family has the most configurations
        let largest: Vec<Compared> = landings.iter().filter(|l| l.0 % 5 == 4).map(|l| l.1).collect();
        let all: Vec<Compared> = landings.iter().map(|l| l.1).collect();
        wanted("a report over 65,536 cells within 1.15 times the library before", &largest);
        wanted("a report with any full table within 1.1 times the library before", &all);
    }
}
