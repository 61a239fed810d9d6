//! Prints how many cells the flow in a file takes at most, lends as many, and prints its report; then for each exit a sample, and whether the
//! run on its tapes takes the exit.
//! A file without bytes is a flow, so one that cannot be read must not be taken for it. A row is a pointer and its length, and the values of
//! an answer stand as include/tilsando.h says.
const CELLS: usize = 65536;
const EACH: usize = 64;
type Row<T> = [T; CELLS];
type Each<T> = [T; EACH];
type Cell = [u32; 10];

#[link(name = "tilsando", kind = "static")]
extern "C" {
    fn tilsando_bound(text: *const u8, _: usize, answer: &mut [u64; 1], _: usize) -> u32;
    fn tilsando_report(text: *const u8, _: usize, cells: *mut Cell, _: usize, two: &mut Each<u8>, _: usize, p: &mut Each<u32>, _: usize,
        m: &mut Each<u32>, _: usize, answer: &mut [u64; 2], _: usize) -> u32;
    fn tilsando_sample(text: *const u8, _: usize, instruction: u64, exit: u8, cells: *mut Cell, _: usize, row: &mut Row<i32>, _: usize,
        answer: &mut [u64; 5], _: usize) -> u32;
    fn tilsando_tape(row: &Row<i32>, _: usize, lengths: *const usize, _: usize, tape: usize, answer: &mut [u64; 2], _: usize) -> u32;
    fn tilsando_run(text: *const u8, _: usize, limit: u64, records: &Row<i32>, _: usize, lengths: *const usize, _: usize, numbers: &mut Row<u8>, _: usize,
        values: &mut Row<i32>, _: usize, p: &mut Each<u32>, _: usize, m: &mut Each<u32>, _: usize, answer: &mut [u64; 3], _: usize) -> u32;
}

/// The sample for an exit: its tapes one after another, as `(6,9)()`, and whether its run takes the exit.
fn try_exit(cells: &mut [Cell], text: &[u8], i: usize, exit: char) -> String {
    let (mut row, mut answer, mut part, mut ran) = ([0; CELLS], [0; 5], [0; 2], [0; 3]);
    let why = unsafe { tilsando_sample(text.as_ptr(), text.len(), i as u64, (exit == 'p') as u8, cells.as_mut_ptr(), cells.len(), &mut row, CELLS, &mut answer, 5) };
    let [distance, tapes, lengths @ ..] = answer;
    if why != 0 || distance == 0 {
        return if why != 0 { format!("refused,{}", why % 256) } else { "none".to_string() };
    }
    let lengths: Vec<usize> = lengths[..tapes as usize].iter().map(|n| *n as usize).collect();
    let total = lengths.iter().sum();
    let mut told = String::new();
    for tape in 1..=lengths.len() {
        unsafe { tilsando_tape(&row, total, lengths.as_ptr(), lengths.len(), tape, &mut part, 2) };
        let [start, count] = part;
        let records = &row[start as usize..][..count as usize];
        told += &format!("({})", records.iter().map(i32::to_string).collect::<Vec<_>>().join(","));
    }
    let (mut numbers, mut values, mut p, mut m) = ([0; CELLS], [0; CELLS], [0; EACH], [0; EACH]);
    // a sample takes its exit within as many steps as there are configurations, and so within as many as there can be cells, and with no more puts
    let why = unsafe { tilsando_run(text.as_ptr(), text.len(), CELLS as u64, &row, total, lengths.as_ptr(), lengths.len(), &mut numbers, CELLS,
        &mut values, CELLS, &mut p, EACH, &mut m, EACH, &mut ran, 3) };
    let taken = why == 0 && if exit == 'p' { p } else { m }[i - 1] > 0;
    told + if taken { ",taken" } else { ",NOT TAKEN" }
}

fn main() {
    let Some(Ok(text)) = std::env::args_os().nth(1).map(std::fs::read) else {
        eprintln!("the flow cannot be read");
        std::process::exit(2);
    };
    let mut bound = [0];
    let why = unsafe { tilsando_bound(text.as_ptr(), text.len(), &mut bound, 1) };
    if why != 0 {
        return println!("refused,{},{}", why % 256, why / 256);
    }
    let [bound] = bound;
    println!("bound,{}", if bound == 0 { "over".to_string() } else { bound.to_string() });
    let lent = if bound == 0 { CELLS } else { bound as usize };
    let (mut cells, mut two, mut p, mut m, mut answer) = (vec![[0; 10]; lent], [0; EACH], [0; EACH], [0; EACH], [0; 2]);
    let why = unsafe { tilsando_report(text.as_ptr(), text.len(), cells.as_mut_ptr(), cells.len(), &mut two, EACH, &mut p, EACH, &mut m, EACH, &mut answer, 2) };
    if why != 0 {
        return println!("refused,{},{}", why % 256, why / 256);
    }
    let [instructions, configurations] = answer;
    println!("report,{instructions},{configurations}");
    let exits: Vec<_> = (0..EACH).filter(|i| two[*i] == 1).flat_map(|i| [(i + 1, 'p', p[i]), (i + 1, 'm', m[i])]).collect();
    exits.iter().for_each(|(i, exit, d)| println!("{i},{exit},{}", if *d == 0 { "none".to_string() } else { d.to_string() }));
    exits.iter().for_each(|(i, exit, _)| println!("sample,{i},{exit},{}", try_exit(&mut cells, &text, *i, *exit)));
}
