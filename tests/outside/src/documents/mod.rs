//! What documents 01 and 000 say of a text, a run, a report, a sample: written from these two, to given signatures, by an author who had not
//! seen the crates, the library's header or the project's other documents. Document 02 (T-02, T-08, T-09, T-01, T-04) came in later, by authors
//! who had seen documents 01 and 02 and these tests, and not the crates.

pub mod bound;
pub mod flow;
pub mod interpreter;
pub mod pieces;
pub mod reader;
pub mod report;
pub mod sample;
pub mod search;
