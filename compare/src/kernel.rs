//! The kernel itself, through its C boundary (include/sumpnewt.h): there if compare/archive sumpnewt was run.

use crate::model::{Call, Outcome};
use std::ptr::null;

pub(crate) mod c {
    extern "C" {
        pub fn sumpnewt_open(block: *const u8, n: usize) -> u32;
        pub fn sumpnewt_seal(fields: *const u8, n: usize, out: *mut u8, out_n: usize) -> u32;
        pub fn sumpnewt_summary(block: *const u8, n: usize, out: *mut u64, out_n: usize) -> u32;
        pub fn sumpnewt_shown(block: *const u8, n: usize, out: *mut f64, out_n: usize) -> u32;
        pub fn sumpnewt_remove(
            block: *const u8,
            n: usize,
            a: usize,
            b: usize,
            out: *mut u8,
            out_n: usize,
        ) -> u32;
        pub fn sumpnewt_page(
            block: *const u8,
            n: usize,
            a: usize,
            b: usize,
            row: *mut f64,
            row_n: usize,
        ) -> u32;
        pub fn sumpnewt_flip(
            block: *const u8,
            n: usize,
            numbers: *const usize,
            count: usize,
            out: *mut u8,
            out_n: usize,
        ) -> u32;
    }
}

// SAFETY, for every call here: a slice is good for its length, and a `&mut` overlaps nothing.

pub fn open(block: &[u8]) -> u32 {
    unsafe { c::sumpnewt_open(block.as_ptr(), block.len()) }
}

pub fn seal(fields: &[u8], out: &mut [u8]) -> u32 {
    unsafe { c::sumpnewt_seal(fields.as_ptr(), fields.len(), out.as_mut_ptr(), out.len()) }
}

pub fn summary(block: &[u8], out: &mut [u64]) -> u32 {
    unsafe { c::sumpnewt_summary(block.as_ptr(), block.len(), out.as_mut_ptr(), out.len()) }
}

pub fn shown(block: &[u8], out: &mut [f64]) -> u32 {
    unsafe { c::sumpnewt_shown(block.as_ptr(), block.len(), out.as_mut_ptr(), out.len()) }
}

pub fn remove(block: &[u8], [a, b]: [usize; 2], out: &mut [u8]) -> u32 {
    let (bytes, n) = (block.as_ptr(), block.len());
    unsafe { c::sumpnewt_remove(bytes, n, a, b, out.as_mut_ptr(), out.len()) }
}

pub fn page(block: &[u8], [a, b]: [usize; 2], row: &mut [f64]) -> u32 {
    let (bytes, n) = (block.as_ptr(), block.len());
    unsafe { c::sumpnewt_page(bytes, n, a, b, row.as_mut_ptr(), row.len()) }
}

/// No numbers go as a null pointer.
pub fn flip(block: &[u8], numbers: &[usize], out: &mut [u8]) -> u32 {
    let (bytes, n) = (block.as_ptr(), block.len());
    let first = numbers.first().map_or(null(), |_| numbers.as_ptr());
    let count = numbers.len();
    unsafe { c::sumpnewt_flip(bytes, n, first, count, out.as_mut_ptr(), out.len()) }
}

/// The kernel's outcome of a call; none for a printout, which is the program's.
pub fn run(call: &Call) -> Option<Outcome> {
    Some(match call.clone() {
        Call::Open { block } => Outcome::Answer(open(&block)),
        Call::Seal { fields, mut out } => Outcome::Bytes(seal(&fields, &mut out), out),
        Call::Summary { block, mut out } => Outcome::Numbers(summary(&block, &mut out), out),
        Call::Shown { block, mut out } => {
            let number = shown(&block, &mut out);
            Outcome::Shown(number, out.into_iter().map(f64::to_bits).collect())
        }
        Call::Remove {
            block,
            ends,
            mut out,
        } => Outcome::Bytes(remove(&block, ends, &mut out), out),
        Call::Page {
            block,
            ends,
            mut row,
        } => {
            let number = page(&block, ends, &mut row);
            Outcome::Page(number, row.into_iter().map(f64::to_bits).collect())
        }
        Call::Flip {
            block,
            numbers,
            mut out,
        } => Outcome::Bytes(flip(&block, &numbers, &mut out), out),
        Call::Printout { .. } => return None,
    })
}
