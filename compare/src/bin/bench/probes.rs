//! The probes: the kernel's inner functions behind C names. A slice is a pointer and a length.

use compare::quick::Parts;

mod c {
    extern "C" {
        pub fn probe_quality(corners: *const u8, bytes: usize, out: *mut u64, numbers: usize);
        pub fn probe_less(n1: u64, d1: u64, n2: u64, d2: u64) -> bool;
        pub fn probe_score(num: u64, den: u64) -> u64;
        pub fn probe_ring(block: *const u8, bytes: usize, e: usize, f: usize) -> u64;
        pub fn probe_table(block: *const u8, bytes: usize, e: usize, f: usize) -> u64;
    }
}

// SAFETY, for every call here: a slice is good for its length, and a `&mut` overlaps nothing.

pub fn quality(corners: &[u8], parts: &mut Parts) {
    let (bytes, n) = (corners.as_ptr(), corners.len());
    unsafe { c::probe_quality(bytes, n, parts.as_mut_ptr(), parts.len()) }
}

pub fn less(n1: u64, d1: u64, n2: u64, d2: u64) -> bool {
    unsafe { c::probe_less(n1, d1, n2, d2) }
}

pub fn score(num: u64, den: u64) -> u64 {
    unsafe { c::probe_score(num, den) }
}

/// The length of the ring round an edge, its ends in order; 0 where there is none.
pub fn ring_length(block: &[u8], [a, b]: [usize; 2]) -> u64 {
    unsafe { c::probe_ring(block.as_ptr(), block.len(), a, b) }
}

/// The apex of that ring, by the table of its pieces; 0 where there is none.
pub fn top_apex(block: &[u8], [a, b]: [usize; 2]) -> u64 {
    unsafe { c::probe_table(block.as_ptr(), block.len(), a, b) }
}
