//! The programs `report` and `bound`: what they print for a text, held to the lines of documents 01 and 02.

use crate::cases::Checked;
use crate::documents::{bound, report};
use std::io::Write;
use std::process::{Command, Stdio};

/// The program lends so many cells (document 01, "The report").
const CELLS: usize = 4096;

fn printed(program: &str, text: &[u8]) -> std::io::Result<Vec<u8>> {
    let mut child = Command::new(program).stdin(Stdio::piped()).stdout(Stdio::piped()).spawn()?;
    // A program that has read enough may close its input before all is written.
    let _ = child.stdin.take().map(|mut input| input.write_all(text));
    Ok(child.wait_with_output()?.stdout)
}

/// What a program prints, held to what it should print; the outcome is a refusal, or what the second field of the first line is called.
fn checked(program: &str, text: &[u8], want: &str, named: fn(&str) -> &'static str) -> Checked {
    let is = printed(program, text).expect("the program is run");
    let fault = (is != want.as_bytes()).then(|| format!("prints\n{}should print\n{want}", String::from_utf8_lossy(&is)));
    let mut fields = want.lines().next().unwrap_or("").split(',');
    let (first, second) = (fields.next().unwrap_or(""), fields.next().unwrap_or(""));
    let outcome = if first == "refused" { format!("{first} {second}") } else { named(second).to_string() };
    Checked { outcome, faults: fault.into_iter().collect() }
}

pub fn report(program: &str, text: &[u8]) -> Checked {
    checked(program, text, &report::lines(text, CELLS), |_| "given")
}

pub fn bound(program: &str, text: &[u8]) -> Checked {
    checked(program, text, &bound::line(text), |told| if told == "over" { "over" } else { "a number" })
}
