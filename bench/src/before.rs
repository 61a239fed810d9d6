//! An older library with the same interface, whose `tilsando_run` and `tilsando_report` are linked as `before_run` and `before_report`
//! (Makefile, BEFORE).

use crate::library::{calls, Told};
use crate::plain::Cell;

#[rustfmt::skip]
extern "C" {
    fn before_run(
        text: *const u8, text_len: usize, limit: u64,
        records: *const i32, records_len: usize, lengths: *const usize, lengths_len: usize,
        numbers: *mut u8, numbers_len: usize, values: *mut i32, values_len: usize,
        p: *mut u32, p_len: usize, m: *mut u32, m_len: usize, answer: *mut u64, answer_len: usize,
    ) -> u32;

    fn before_report(
        text: *const u8, text_len: usize, cells: *mut Cell, cells_len: usize,
        two: *mut u8, two_len: usize, p: *mut u32, p_len: usize, m: *mut u32, m_len: usize,
        answer: *mut u64, answer_len: usize,
    ) -> u32;
}

calls!(before_run, before_report);
