//! The functions of the static library, as include/tilsando.h declares them.

#[allow(non_camel_case_types)]
type size_t = usize;

/// A cell of the search.
pub type Words = [u32; 10];

#[rustfmt::skip]
extern "C" {
    pub fn tilsando_run(
        text: *const u8, text_len: size_t, limit: u64,
        records: *const i32, records_len: size_t, lengths: *const usize, lengths_len: size_t,
        numbers: *mut u8, numbers_len: size_t, values: *mut i32, values_len: size_t,
        p: *mut u32, p_len: size_t, m: *mut u32, m_len: size_t, answer: *mut u64, answer_len: size_t,
    ) -> u32;

    pub fn tilsando_report(
        text: *const u8, text_len: size_t, cells: *mut Words, cells_len: size_t,
        two: *mut u8, two_len: size_t, p: *mut u32, p_len: size_t, m: *mut u32, m_len: size_t,
        answer: *mut u64, answer_len: size_t,
    ) -> u32;

    pub fn tilsando_sample(
        text: *const u8, text_len: size_t, instruction: u64, exit: u8, cells: *mut Words, cells_len: size_t,
        row: *mut i32, row_len: size_t, answer: *mut u64, answer_len: size_t,
    ) -> u32;

    pub fn tilsando_bound(text: *const u8, text_len: size_t, answer: *mut u64, answer_len: size_t) -> u32;

    pub fn tilsando_tape(
        row: *const i32, row_len: size_t, lengths: *const usize, lengths_len: size_t, tape: size_t,
        answer: *mut u64, answer_len: size_t,
    ) -> u32;
}
