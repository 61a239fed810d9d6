//! Tests from outside: the static library against an independent implementation, on generated texts, tapes and samples.
//!
//!     outside [SEED [ROUNDS]]
//!
//! The implementation (documents/) is written from documents 01, 02 (T-01, T-02, T-04, T-05, T-08, T-09) and 000. Some of the texts go to the
//! programs `report` and `bound` too, if their paths are in REPORT and BOUND. Prints the seed, the cases by sort and outcome, those of the
//! empty text, some with wide constants and some where exits are not steps again by themselves, the reports by the pairs of variables that
//! they compare, and `N cases, M differences`. A difference is printed with its case in full, and the status is then 1; it is 1 too if an
//! outcome that documents 01 and 02 know, or one of those pairs, was never met.

mod cases;
mod documents;
mod ffi;
mod gen;
mod lent;
mod program;
mod rng;

use cases::{Checked, Judged, Known, RunCase, SampleCase, TapeCase};
use documents::flow::{Flow, Refusal};
use documents::search::{Census, Pair};
use documents::{bound, pieces, reader, sample, search};
use ffi::Words;
use rng::Rng;
use std::cmp::Ordering;
use std::collections::BTreeMap;
use std::fmt::Debug;
use std::process::ExitCode;

const MOST: usize = 65_536;

/// The refusals of the text that must be met, by documents 01 and 02.
const OF_TEXT: [u32; 9] = [1, 3, 5, 6, 7, 8, 13, 14, 15];

/// The outcomes that must be met, beside the refusals of the text.
const OUTCOMES: [(&str, &[&str]); 9] = [
    ("run", &["stopped", "spent", "full", "refused 12"]),
    ("report", &["given", "refused 9"]),
    ("program", &["given", "refused 9"]),
    ("sample", &["given", "none", "refused 9", "refused 10", "refused 11"]),
    ("tape", &["a part", "the empty part"]),
    ("bound", &["a number", "65,536", "over"]),
    ("program bound", &["a number", "over"]),
    ("report lent the bound", &["given"]),
    ("sample lent the bound", &["given", "none"]),
];

/// The sorts that meet no refusal of the text.
const WITHOUT_REFUSALS: [&str; 3] = ["tape", "report lent the bound", "sample lent the bound"];

/// The outcomes that must be met with the empty text, by document 02 (T-08).
const OF_EMPTY: [(&str, &[&str]); 7] = [
    ("run", &["stopped", "refused 12"]),
    ("report", &["given", "refused 9"]),
    ("program", &["given"]),
    ("sample", &["refused 11"]),
    ("bound", &["a number"]),
    ("program bound", &["a number"]),
    ("report lent the bound", &["given"]),
];

/// What must be met with wide constants, by document 02 (T-09). The reports are those with C2 - C1 of 9,999 or more.
const OF_WIDE: [(&str, &[&str]); 3] = [
    ("text", &["a constant above 1000", "a constant below -1000", "refused 5 for 10000", "refused 5 for -10000"]),
    ("report", &["given, more than 60,000 configurations", "refused 9"]),
    ("sample", &["a record above 9999", "a record below -9999"]),
];

/// What must be met where exits are not steps, by document 02 (T-04). The fewest steps to an exit are those of any tapes; where a sample
/// takes more, a search in steps goes another way. A row may be as long as the distance and shorter than the steps.
const OF_EXITS: [(&str, &[&str]); 2] = [
    ("report", &["a distance less than the fewest steps"]),
    ("sample", &["more steps than exits", "more steps than the fewest", "a row shorter than the steps"]),
];

/// The pairs that must be compared in reports that are given, by document 02 (T-05): the nine pairs of positions, the three like ones in
/// each order.
fn of_pairs() -> impl Iterator<Item = Pair> {
    let orders = [Ordering::Less, Ordering::Equal, Ordering::Greater];
    let pairs = (0..9).flat_map(move |n| orders.map(|order| (n / 3, n % 3, order)));
    pairs.filter(|(a, b, order)| a == b || a.cmp(b) == *order)
}

fn named(&(a, b, order): &Pair) -> String {
    let positions = ["below", "inside", "above"];
    let like = if a == b { format!(", {order:?}").to_lowercase() } else { String::new() };
    format!("{} and {}{like}", positions[a], positions[b])
}

/// Cases by sort and outcome.
type Counts = BTreeMap<(&'static str, String), usize>;

/// Cases, those of the empty text, with wide constants and where exits are not steps among them, reports given by what they compare, and
/// differences; flows that were searched again with idle instructions in them; the largest numbers met.
#[derive(Default)]
struct Tally {
    seed: u64,
    by_outcome: Counts,
    of_empty: Counts,
    of_wide: Counts,
    of_exits: Counts,
    of_pairs: BTreeMap<Pair, usize>,
    confirmed: usize,
    padded: usize,
    past: usize,
    configurations: usize,
    distance: u32,
    differences: usize,
}

impl Tally {
    fn note(&mut self, sort: &'static str, checked: Checked, text: &[u8], case: &dyn Debug) {
        // A tape is asked for without a text.
        if text.is_empty() && sort != "tape" {
            *self.of_empty.entry((sort, checked.outcome.clone())).or_default() += 1;
        }
        *self.by_outcome.entry((sort, checked.outcome)).or_default() += 1;
        if !checked.faults.is_empty() {
            self.differ(sort, &checked.faults, text, case);
        }
    }

    fn note_wide(&mut self, sort: &'static str, outcome: &str, met: bool) {
        if met {
            *self.of_wide.entry((sort, outcome.to_string())).or_default() += 1;
        }
    }

    fn note_exits(&mut self, sort: &'static str, outcome: &str, met: bool) {
        if met {
            *self.of_exits.entry((sort, outcome.to_string())).or_default() += 1;
        }
    }

    /// A text that goes to the library, and what it is read as.
    fn note_text(&mut self, text: &[u8], read: &Result<Flow, Refusal>) {
        match read {
            Ok(flow) => {
                self.note_wide("text", "a constant above 1000", flow.bounds().1 > 1000);
                self.note_wide("text", "a constant below -1000", flow.bounds().0 < -1000);
            }
            Err(why) => {
                self.note_wide("text", "refused 5 for 10000", refused_for(text, *why, "10000", "9999"));
                self.note_wide("text", "refused 5 for -10000", refused_for(text, *why, "-10000", "-9999"));
            }
        }
    }

    fn differ(&mut self, sort: &str, faults: &[String], text: &[u8], case: &dyn Debug) {
        self.differences += 1;
        if self.differences <= 20 {
            println!("DIFFERENCE in a {sort}, seed {}", self.seed);
            println!("text, {} bytes: {}", text.len(), text.escape_ascii());
            println!("case: {case:?}");
            for fault in faults {
                println!("  {fault}");
            }
        }
    }

    /// A search in so many cells.
    fn note_search(&mut self, sort: &'static str, checked: Checked, text: &[u8], case: &dyn Debug, cells: usize) {
        self.past += usize::from(cells > MOST && checked.outcome.starts_with("refused"));
        self.note(sort, checked, text, &(case, cells));
    }

    /// The outcomes that were never met, of the sorts that were tried.
    fn missing(&self, tried: impl Fn(&str) -> bool) -> Vec<String> {
        let refusals = OF_TEXT.map(|n| format!("refused {n}"));
        let mut missing = Vec::new();
        for (sort, outcomes) in OUTCOMES.into_iter().filter(|(sort, _)| tried(sort)) {
            let of_text = refusals.iter().filter(|_| !WITHOUT_REFUSALS.contains(&sort)).map(String::as_str);
            for outcome in outcomes.iter().copied().chain(of_text) {
                if !self.by_outcome.contains_key(&(sort, outcome.to_string())) {
                    missing.push(format!("{sort}: {outcome}"));
                }
            }
        }
        for (sort, outcomes) in OF_EMPTY.into_iter().filter(|(sort, _)| tried(sort)) {
            for outcome in outcomes {
                if !self.of_empty.contains_key(&(sort, outcome.to_string())) {
                    missing.push(format!("{sort} of the empty text: {outcome}"));
                }
            }
        }
        for (sort, outcomes) in OF_WIDE {
            for outcome in outcomes {
                if !self.of_wide.contains_key(&(sort, outcome.to_string())) {
                    missing.push(format!("{sort} with wide constants: {outcome}"));
                }
            }
        }
        for (sort, outcomes) in OF_EXITS {
            for outcome in outcomes {
                if !self.of_exits.contains_key(&(sort, outcome.to_string())) {
                    missing.push(format!("{sort} where exits are not steps: {outcome}"));
                }
            }
        }
        for pair in of_pairs().filter(|pair| !self.of_pairs.contains_key(pair)) {
            missing.push(format!("report with a comparison of {}", named(&pair)));
        }
        if self.padded == 0 {
            missing.push("a flow with idle instructions in it".to_string());
        }
        if self.past == 0 {
            missing.push("cells past 65,536 after a refusal".to_string());
        }
        missing
    }

    fn cases(&self) -> usize {
        self.by_outcome.values().sum()
    }

    /// Prints the counts and the largest numbers.
    fn print(&self) {
        for ((sort, outcome), count) in &self.by_outcome {
            println!("{count:7} {sort}: {outcome}");
        }
        for ((sort, outcome), count) in &self.of_empty {
            println!("{count:7} {sort} of the empty text: {outcome}");
        }
        for ((sort, outcome), count) in &self.of_wide {
            println!("{count:7} {sort} with wide constants: {outcome}");
        }
        for ((sort, outcome), count) in &self.of_exits {
            println!("{count:7} {sort} where exits are not steps: {outcome}");
        }
        for (pair, count) in &self.of_pairs {
            println!("{count:7} report with a comparison of {}", named(pair));
        }
        println!("searches of our own confirmed by trial of numbers: {}", self.confirmed);
        println!("searches of our own confirmed by the same flow with idle instructions in it: {}", self.padded);
        println!("refusals with more than 65,536 cells: {}", self.past);
        println!("generated flows have up to {} configurations, distances up to {}", self.configurations, self.distance);
    }
}

/// Whether refusal 5 meets this constant: it does not with the other one in its place.
fn refused_for(text: &[u8], why: Refusal, constant: &str, other: &str) -> bool {
    let mut lines: Vec<&[u8]> = text.split(|b| *b == 10).collect();
    let Some(line) = lines.get_mut((why.place as usize).wrapping_sub(1)).filter(|_| why.number == 5) else {
        return false;
    };
    let mut fields: Vec<&[u8]> = line.split(|b| *b == b',').collect();
    let Some(i) = fields.iter().position(|field| *field == constant.as_bytes()) else {
        return false;
    };
    fields[i] = other.as_bytes();
    let changed = fields.join(&b',');
    *line = &changed;
    reader::read(&lines.join(&10)).err() != Some(why)
}

fn known(text: &[u8]) -> Known {
    let flow = reader::read(text)?;
    let census = search::census(&flow, MOST).ok();
    Ok((flow, census))
}

/// Tapes for a flow, and now and then lengths that are refused.
fn run_case(rng: &mut Rng, flow: Option<&Flow>) -> RunCase {
    let range = flow.map_or((0, 0), |f| f.bounds());
    let tapes = flow.map_or(1, |f| f.tapes);
    let most = if rng.percent(5) { 300 } else { 12 };
    let mut lengths: Vec<usize> = (0..tapes).map(|_| rng.below(most)).collect();
    let sum: usize = lengths.iter().sum();
    let records = (0..sum).map(|_| gen::record(rng, range)).collect();
    match rng.below(40) {
        0 => lengths.push(0),
        1 => drop(lengths.pop()),
        2 => lengths.clear(),
        3 => lengths[0] += 1,
        4 if lengths[0] > 0 => lengths[0] -= 1,
        5 if tapes > 1 => {
            // The lengths would add up to the row if the sum wrapped.
            lengths[0] = usize::MAX - rng.below(3);
            lengths[1] = sum.wrapping_sub(lengths[0]).wrapping_sub(lengths[2..].iter().sum());
        }
        6 => lengths[0] = usize::MAX,
        _ => {}
    }
    let limit = match rng.below(100) {
        0..=9 => rng.below(4) as u64,
        10..=88 => rng.below(200) as u64,
        89..=97 => rng.below(5000) as u64,
        98 => 999_999 + rng.below(3) as u64,
        _ => *rng.pick(&[1_000_001, u64::from(u32::MAX) + 1, u64::MAX]),
    };
    let cells = if rng.percent(30) { rng.below(5) } else { rng.below(250) };
    let more = if rng.percent(50) { rng.below(4) } else { 0 };
    let (numbers, values) = if rng.percent(50) { (cells, cells + more) } else { (cells + more, cells) };
    RunCase { limit, records, lengths, numbers, values }
}

/// Cells around the number of configurations, and others.
fn cells_for(rng: &mut Rng, known: &Known) -> usize {
    let k = match known {
        Ok((_, Some(census))) => census.configurations,
        Ok((_, None)) if rng.percent(3) => return MOST + rng.below(3000),
        Err(_) if rng.percent(2) => return rng.below(70_000),
        _ => return rng.below(2000),
    };
    match rng.below(20) {
        0..=2 => k - 1,
        3..=10 => k,
        11..=13 => k + 1,
        14 => rng.below(k + 1),
        15 if rng.percent(10) => MOST + rng.below(100),
        16 if rng.percent(20) => 0,
        _ => k + rng.below(500),
    }
}

/// Cells for a flow with many configurations: often as many as count.
fn cells_for_many(rng: &mut Rng, known: &Known) -> usize {
    let k = known.as_ref().ok().and_then(|(_, census)| census.as_ref()).map_or(MOST, |census| census.configurations);
    match rng.below(10) {
        0..=2 => k,
        3 => k - 1,
        4 => MOST + rng.below(100),
        5 => rng.below(k),
        _ => MOST,
    }
}

fn sample_case(rng: &mut Rng, known: &Known) -> SampleCase {
    let exit = rng.percent(50);
    let (flow, census) = match known {
        Err(_) => return SampleCase { instruction: rng.below(5) as u64, exit, row: rng.below(20) },
        Ok(known) => known,
    };
    let count = flow.instructions.len();
    let two: Vec<usize> = (1..=count).filter(|i| flow.has_exits(*i as u64)).collect();
    // Numbers that no instruction has.
    let none = [0, count as u64 + 1, 65, 1 << 32, (1 << 32) + 1, u64::MAX];
    let instruction = match rng.below(20) {
        0 => *rng.pick(&none),
        2.. if !two.is_empty() => *rng.pick(&two) as u64,
        2..=10 => *rng.pick(&none),
        _ => 1 + rng.below(count) as u64,
    };
    let column = census.as_ref().filter(|_| flow.has_exits(instruction)).map(|c| if exit { &c.p } else { &c.m });
    let d = column.and_then(|distances| distances[instruction as usize - 1]);
    let row = match (d, rng.below(8)) {
        (None, _) => rng.below(5),
        (Some(d), 0) => d as usize - 1,
        (Some(_), 1) => 0,
        (Some(d), 2..=4) => d as usize,
        (Some(d), 5..=6) => d as usize + 3,
        (Some(d), _) => d as usize + rng.below(100),
    };
    SampleCase { instruction, exit, row }
}

fn tape_case(rng: &mut Rng) -> TapeCase {
    let mut lengths: Vec<usize> = (0..rng.below(5)).map(|_| rng.below(6)).collect();
    let sum: usize = lengths.iter().sum();
    let size = match rng.below(6) {
        0 => sum.saturating_sub(1),
        1 => rng.below(sum + 4),
        2 => sum + rng.below(8),
        _ => sum,
    };
    if rng.percent(15) && !lengths.is_empty() {
        let i = rng.below(lengths.len());
        lengths[i] = usize::MAX - rng.below(4);
        if rng.percent(50) {
            lengths.push(1 + rng.below(6));
        }
    }
    let tape = match rng.below(8) {
        0 => 0,
        1 => lengths.len() + 1,
        2 => *rng.pick(&[usize::MAX, 1 << 32, 1 << 63]),
        _ => 1 + rng.below(lengths.len().max(1)),
    };
    TapeCase { row: (0..size).map(|_| rng.next() as i32).collect(), lengths, tape }
}

/// The census again by trial of numbers, for a flow that is small enough. Both are ours: this is a check of the implementation itself.
fn confirm(tally: &mut Tally, text: &[u8], known: &Known) {
    let Ok((flow, Some(census))) = known else {
        return;
    };
    let (lo, hi) = flow.bounds();
    let reach = i64::from(census.depth) + 1;
    let held = ((hi - lo + 1 + 2 * reach) as f64).powi(flow.variables as i32) * flow.instructions.len() as f64 * (1 << flow.tapes) as f64;
    if held > 3000.0 {
        return;
    }
    let tried = search::by_numbers(flow, reach);
    tally.confirmed += 1;
    if (tried.configurations, &tried.p, &tried.m, &tried.pairs) != (census.configurations, &census.p, &census.m, &census.pairs) {
        tally.differ("census of our own", &[format!("by patterns {census:?}, by trial of numbers {tried:?}")], text, &reach);
    }
}

/// The distances of a flow again, and each none, with idle instructions in it, which add configurations only. Both are ours.
fn confirm_padded(rng: &mut Rng, tally: &mut Tally, text: &[u8], known: &Known) {
    let Ok((flow, Some(census))) = known else {
        return;
    };
    if flow.instructions.len() == 64 || census.configurations > 1000 {
        return;
    }
    let (other, numbers) = gen::padded(rng, flow.clone(), true);
    let Ok(found) = search::census(&other, MOST) else {
        return;
    };
    tally.padded += 1;
    let moved = |row: &[Option<u32>]| numbers.iter().map(|i| row[i - 1]).collect::<Vec<_>>();
    if (moved(&found.p), moved(&found.m)) != (census.p.clone(), census.m.clone()) || found.configurations < census.configurations {
        let told = format!("{census:?}, and with idle instructions, numbered {numbers:?}, {found:?}: {}", other.text().escape_debug());
        tally.differ("census of our own", &[told], text, &"");
    }
}

/// The census in steps, if it does not take long.
fn in_steps(known: &Known) -> Option<Census> {
    let (flow, census) = known.as_ref().ok()?;
    census.as_ref().filter(|c| c.configurations <= 3000).and_then(|_| search::in_steps(flow, MOST).ok())
}

/// A report in so many cells; `left` is what the last call left in them.
fn report(rng: &mut Rng, tally: &mut Tally, left: &mut Vec<Words>, text: &[u8], known: &Known, cells: usize) {
    let mut lent = lent::cells(rng, cells, left);
    let checked = cases::report(rng, text, known, &mut lent);
    if let Ok((flow, census)) = known {
        let (lo, hi) = flow.bounds();
        let (wide, many) = (hi - lo >= 9_999, census.as_ref().is_some_and(|c| c.configurations > 60_000));
        tally.note_wide("report", "given, more than 60,000 configurations", wide && many && checked.outcome == "given");
        tally.note_wide("report", "refused 9", wide && checked.outcome == "refused 9");
        let given = census.as_ref().filter(|_| checked.outcome == "given");
        given.iter().flat_map(|c| &c.pairs).for_each(|pair| *tally.of_pairs.entry(*pair).or_default() += 1);
        let other = given.zip(in_steps(known)).is_some_and(|(c, steps)| (&c.p, &c.m) != (&steps.p, &steps.m));
        tally.note_exits("report", "a distance less than the fewest steps", other);
    }
    tally.note_search("report", checked, text, &"", cells);
    *left = lent.now().to_vec();
}

fn sample(rng: &mut Rng, tally: &mut Tally, left: &mut Vec<Words>, text: &[u8], known: &Known, cells: usize, case: &SampleCase) {
    let mut lent = lent::cells(rng, cells, left);
    let (checked, judged) = cases::sample(rng, text, known, &mut lent, case);
    if let Some(Judged { distance, steps, records }) = judged {
        tally.note_wide("sample", "a record above 9999", records.iter().any(|record| *record > 9999));
        tally.note_wide("sample", "a record below -9999", records.iter().any(|record| *record < -9999));
        tally.note_exits("sample", "more steps than exits", steps > u64::from(distance));
        tally.note_exits("sample", "a row shorter than the steps", steps > case.row as u64);
        let fewest = in_steps(known).and_then(|c| if case.exit { &c.p } else { &c.m }[case.instruction as usize - 1]);
        tally.note_exits("sample", "more steps than the fewest", fewest.is_some_and(|fewest| steps > u64::from(fewest)));
    }
    tally.note_search("sample", checked, text, case, cells);
    *left = lent.now().to_vec();
}

/// A report, and sometimes a sample, lent as many cells as the bound says, and the sample a row of as many records: neither is refused by
/// 9 or 10 (document 02, T-01). Of the implementation itself it is checked that the bound holds.
fn lent_the_bound(rng: &mut Rng, tally: &mut Tally, left: &mut Vec<Words>, text: &[u8], known: &Known) {
    let Ok((flow, census)) = known else {
        return;
    };
    let Some(bound) = bound::bound(flow) else {
        return;
    };
    let held = |c: &Census| c.configurations as u64 <= bound && c.p.iter().chain(&c.m).flatten().all(|d| u64::from(*d) <= bound);
    if !census.as_ref().is_some_and(held) {
        tally.differ("bound of our own", &[format!("the bound is {bound}, the census {census:?}")], text, &"");
        return;
    }
    let cells = bound as usize;
    let mut lent = lent::cells(rng, cells, left);
    let checked = cases::report(rng, text, known, &mut lent);
    tally.note("report lent the bound", checked, text, &cells);
    *left = lent.now().to_vec();
    let two: Vec<u64> = (1..=flow.instructions.len() as u64).filter(|i| flow.has_exits(*i)).collect();
    if rng.percent(40) && !two.is_empty() {
        let case = SampleCase { instruction: *rng.pick(&two), exit: rng.percent(50), row: cells };
        let mut lent = lent::cells(rng, cells, left);
        let (checked, _) = cases::sample(rng, text, known, &mut lent, &case);
        tally.note("sample lent the bound", checked, text, &(&case, cells));
        *left = lent.now().to_vec();
    }
}

/// Whether a report of this text is to be lent as many cells as its bound says: often if they are few, since to fill many takes time.
fn asks_for_bound(rng: &mut Rng, known: &Known) -> bool {
    match known.as_ref().ok().and_then(|(flow, _)| bound::bound(flow)) {
        Some(bound) if bound <= 3000 => rng.percent(20),
        Some(_) => rng.percent(3),
        None => false,
    }
}

/// How many cells are lent for a text.
type CellsFor = fn(&mut Rng, &Known) -> usize;

/// The report of a text, and samples for some of its exits.
fn report_and_samples(rng: &mut Rng, tally: &mut Tally, left: &mut Vec<Words>, text: &[u8], samples: usize, cells_for: CellsFor) {
    let known = known(text);
    confirm(tally, text, &known);
    confirm_padded(rng, tally, text, &known);
    if let Ok((_, Some(census))) = &known {
        tally.configurations = tally.configurations.max(census.configurations);
        tally.distance = tally.distance.max(census.p.iter().chain(&census.m).filter_map(|d| *d).max().unwrap_or(0));
    }
    let cells = cells_for(rng, &known);
    report(rng, tally, left, text, &known, cells);
    for _ in 0..samples {
        let case = sample_case(rng, &known);
        let cells = cells_for(rng, &known);
        sample(rng, tally, left, text, &known, cells, &case);
    }
    if asks_for_bound(rng, &known) {
        lent_the_bound(rng, tally, left, text, &known);
    }
}

/// Flows of 65,535 to 65,537 configurations, with about as many cells, none of them 0.
fn edges(rng: &mut Rng, tally: &mut Tally) {
    for n in 0..3 {
        for (flow, instruction, exit) in [
            (gen::edge(n), n + 3, false),
            (gen::edge_of_one(n as i64), 4, true),
            (gen::edge_of_two(n as i64), 5, true),
            (gen::edge_of_four(n, n == 1), n + 10, true),
        ] {
            let text = flow.text().into_bytes();
            let known = known(&text);
            let count = if n < 2 { Ok(MOST - 1 + n) } else { Err(Refusal { number: 9, place: 0 }) };
            assert_eq!(search::census(&flow, usize::MAX).map(|c| c.configurations), count, "counted by hand");
            for cells in [MOST - 2 + n, MOST - 1 + n, MOST + n, MOST + 3000] {
                report(rng, tally, &mut Vec::new(), &text, &known, cells);
                sample(rng, tally, &mut Vec::new(), &text, &known, cells, &SampleCase { instruction: instruction as u64, exit, row: 12 });
            }
        }
    }
}

/// Samples of a large distance that need a record beyond the constants.
fn late(rng: &mut Rng, tally: &mut Tally) {
    for (above, far) in [(true, 9999), (false, -9999)] {
        let flow = gen::late(above);
        let text = flow.text().into_bytes();
        let known = known(&text);
        let instruction = flow.instructions.len() as u64 - 1;
        let d = search::census(&flow, MOST).ok().and_then(|c| c.p[instruction as usize - 1]).expect("a distance");
        let bound = far + if above { d as i32 } else { -(d as i32) };
        let faults = |record: i32| sample::faults(&flow, instruction, true, d, &vec![record; d as usize], &[1]).len();
        assert_eq!([bound, bound + far.signum(), far].map(faults), [0, 1, 1], "the bound of a record, one past it, and the constant");
        report(rng, tally, &mut Vec::new(), &text, &known, MOST);
        for row in [d as usize - 1, d as usize, d as usize + 3] {
            sample(rng, tally, &mut Vec::new(), &text, &known, MOST, &SampleCase { instruction, exit: true, row });
        }
    }
}

/// A generated flow: its text, read back and run twice.
fn run_twice(rng: &mut Rng, tally: &mut Tally, flow: &Flow) -> Vec<u8> {
    let text = flow.text().into_bytes();
    let read = reader::read(&text);
    assert_eq!(read.as_ref(), Ok(flow), "a generated flow is read back");
    tally.note_text(&text, &read);
    for _ in 0..2 {
        let case = run_case(rng, Some(flow));
        let checked = cases::run(rng, &text, &case);
        tally.note("run", checked, &text, &case);
    }
    tally.note("bound", cases::bound(rng, &text), &text, &"");
    text
}

fn main() -> ExitCode {
    let mut args = std::env::args().skip(1).map(|a| a.parse::<u64>().expect("a number"));
    let seed = args.next().unwrap_or(20_260_101);
    let rounds = args.next().unwrap_or(16_000);
    let program = std::env::var("REPORT").ok();
    let of_bounds = std::env::var("BOUND").ok();
    println!("seed {seed}");
    pieces::check();
    let rng = &mut Rng::new(seed);
    let mut tally = Tally { seed, ..Tally::default() };
    edges(rng, &mut tally);
    late(rng, &mut tally);
    let left = &mut Vec::new();
    for round in 0..rounds {
        let flow = gen::flow(rng);
        let text = run_twice(rng, &mut tally, &flow);
        if round % 2 == 0 {
            report_and_samples(rng, &mut tally, left, &text, 3, cells_for);
        }
        if let (0, Some(program)) = (round % 16, &program) {
            tally.note("program", program::report(program, &text), &text, &"");
        }
        if round % 16 == 0 {
            let flow = gen::wide(rng);
            let text = run_twice(rng, &mut tally, &flow);
            // A search of so many configurations takes time.
            if round % 256 == 0 {
                report_and_samples(rng, &mut tally, left, &text, 3, cells_for_many);
            }
            if let (0, Some(program)) = (round % 256, &program) {
                tally.note("program", program::report(program, &text), &text, &"");
            }
        }
        if round % 2 == 0 {
            let flow = gen::bounded(rng);
            let text = flow.text().into_bytes();
            assert_eq!(reader::read(&text).as_ref(), Ok(&flow), "a generated flow is read back");
            tally.note("bound", cases::bound(rng, &text), &text, &"");
            if round % 128 == 0 {
                lent_the_bound(rng, &mut tally, left, &text, &known(&text));
            }
            if let (0, Some(program)) = (round % 64, &of_bounds) {
                tally.note("program bound", program::bound(program, &text), &text, &"");
            }
        }
        let text = gen::damaged(rng);
        let read = reader::read(&text);
        tally.note_text(&text, &read);
        let read = read.ok();
        if let Some(flow) = &read {
            pieces::written_back(&text, flow);
        }
        if let (0, Some(program)) = (round % 8, &program) {
            tally.note("program", program::report(program, &text), &text, &"");
        }
        // Few texts are too long, so all of those.
        if let (true, Some(program)) = (round % 16 == 8 || text.len() > 4096, &of_bounds) {
            tally.note("program bound", program::bound(program, &text), &text, &"");
        }
        tally.note("bound", cases::bound(rng, &text), &text, &"");
        let case = run_case(rng, read.as_ref());
        let checked = cases::run(rng, &text, &case);
        tally.note("run", checked, &text, &case);
        if round % 8 == 0 {
            report_and_samples(rng, &mut tally, left, &text, 1, cells_for);
        }
        let case = tape_case(rng);
        let checked = cases::tape(rng, &case);
        tally.note("tape", checked, b"", &case);
    }
    tally.print();
    let missing = tally.missing(|sort| match sort {
        "program" => program.is_some(),
        "program bound" => of_bounds.is_some(),
        _ => true,
    });
    for outcome in &missing {
        println!("never met: {outcome}");
    }
    println!("{} cases, {} differences", tally.cases(), tally.differences);
    if tally.differences > 0 || !missing.is_empty() {
        return ExitCode::FAILURE;
    }
    ExitCode::SUCCESS
}
