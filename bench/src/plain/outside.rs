//! The tables of outside patterns, and the row in which they are looked up.

include!("../../../crates/outside_row/src/tables.rt");

pub const SIZE: usize = 5043;

/// Where the row holds the indices of the entries of v variables, at v - 1; and from where to where their keys, at v and v + 1.
const SLOTS: [usize; 4] = [1, 9, 73, 585];
const FIRST: [usize; 6] = [4681, 4681, 4683, 4691, 4735, SIZE];

/// The number of a signed rank: 1 to 4 are 0 to 3, -1 to -4 are 4 to 7.
fn number(rank: i8) -> u16 {
    (if rank < 0 { 3 - rank } else { rank - 1 }) as u16
}

fn enter(table: &mut [u16], v: usize, ranks: &[i8]) {
    for (n, entry) in ranks.chunks_exact(v).enumerate() {
        let key = entry.iter().rev().fold(0, |key, rank| 8 * key + number(*rank));
        table[SLOTS[v - 1] + usize::from(key)] = n as u16;
        table[FIRST[v] + n] = key;
    }
}

/// The row: for each entry its index and its key, which has the numbers of its ranks as digits to the radix 8, the first the lowest.
pub fn table() -> [u16; SIZE] {
    let mut table = [0; SIZE];
    enter(&mut table, 1, &ONE);
    enter(&mut table, 2, &TWO);
    enter(&mut table, 3, &THREE);
    enter(&mut table, 4, &FOUR);
    table
}

/// The key of entry n for v variables, 0 past the last.
pub fn key(table: &[u16], v: usize, n: u64) -> u64 {
    let i = FIRST[v] + n as usize;
    if i < FIRST[v + 1] {
        u64::from(table[i])
    } else {
        0
    }
}
