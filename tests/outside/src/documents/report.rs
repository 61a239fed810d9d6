//! What the program `report` prints: document 01, "The report", and for no bytes document 02 (T-08).

use super::flow::Refusal;
use super::reader::read;
use super::search::census;

/// The lines for a text and so many cells, each ended by byte 10.
pub fn lines(text: &[u8], cells: usize) -> String {
    match answer(text, cells) {
        Ok(lines) => lines,
        Err(Refusal { number, place }) => format!("refused,{number},{place}\n"),
    }
}

fn answer(text: &[u8], cells: usize) -> Result<String, Refusal> {
    let flow = read(text)?;
    let census = census(&flow, cells)?;
    let written = |distance: Option<u32>| distance.map_or("none".to_string(), |distance| distance.to_string());
    let mut lines = format!("report,{},{}\n", flow.instructions.len(), census.configurations);
    for (index, instruction) in flow.instructions.iter().enumerate() {
        if instruction.exits().is_some() {
            lines += &format!("{},p,{}\n", index + 1, written(census.p[index]));
            lines += &format!("{},m,{}\n", index + 1, written(census.m[index]));
        }
    }
    Ok(lines)
}
