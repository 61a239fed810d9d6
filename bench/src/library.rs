//! The library's functions, called with rows.

#[allow(dead_code)]
#[path = "../../tests/outside/src/ffi.rs"]
mod ffi;

use crate::plain::Cell;

/// What a call tells: the value returned and the rows of results.
#[derive(Debug, PartialEq, Eq)]
pub struct Told {
    pub returned: u32,
    pub answer: [u64; 5],
    pub two: [u8; 64],
    pub p: [u32; 64],
    pub m: [u32; 64],
}

impl Told {
    pub const NOTHING: Told = Told { returned: 0, answer: [0; 5], two: [0; 64], p: [0; 64], m: [0; 64] };
}

/// `run` and `report` by two functions of the interface.
macro_rules! calls {
    ($run:path, $report:path) => {
        pub fn run(text: &[u8], limit: u64, records: &[i32], lengths: &[usize], numbers: &mut [u8], values: &mut [i32]) -> Told {
            let mut told = Told::NOTHING;
            #[rustfmt::skip]
            let returned = unsafe {
                $run(
                    text.as_ptr(), text.len(), limit, records.as_ptr(), records.len(), lengths.as_ptr(), lengths.len(),
                    numbers.as_mut_ptr(), numbers.len(), values.as_mut_ptr(), values.len(),
                    told.p.as_mut_ptr(), 64, told.m.as_mut_ptr(), 64, told.answer.as_mut_ptr(), 5,
                )
            };
            Told { returned, ..told }
        }

        pub fn report(text: &[u8], cells: &mut [Cell]) -> Told {
            let mut told = Told::NOTHING;
            #[rustfmt::skip]
            let returned = unsafe {
                $report(
                    text.as_ptr(), text.len(), cells.as_mut_ptr(), cells.len(),
                    told.two.as_mut_ptr(), 64, told.p.as_mut_ptr(), 64, told.m.as_mut_ptr(), 64, told.answer.as_mut_ptr(), 5,
                )
            };
            Told { returned, ..told }
        }
    };
}

#[cfg(before)]
pub(crate) use calls;

calls!(ffi::tilsando_run, ffi::tilsando_report);

pub fn bound(text: &[u8]) -> Told {
    let mut told = Told::NOTHING;
    let returned = unsafe { ffi::tilsando_bound(text.as_ptr(), text.len(), told.answer.as_mut_ptr(), 1) };
    Told { returned, ..told }
}

pub fn sample(text: &[u8], instruction: u64, exit: bool, cells: &mut [Cell], row: &mut [i32]) -> Told {
    let mut told = Told::NOTHING;
    #[rustfmt::skip]
    let returned = unsafe {
        ffi::tilsando_sample(
            text.as_ptr(), text.len(), instruction, u8::from(exit), cells.as_mut_ptr(), cells.len(),
            row.as_mut_ptr(), row.len(), told.answer.as_mut_ptr(), 5,
        )
    };
    Told { returned, ..told }
}
