//! "Summary: counts of upright, flat and inverted rows, the score of the worst row, and the octave."

use super::block::{open, Patch};
use super::measure::{badness, determinant, score, Quality};
use super::mesh::Row;

/// A summary; `None` is a mark, not a number.
#[derive(Clone, Copy, Debug, PartialEq, Eq)]
pub struct Summary {
    pub upright: usize,
    pub flat: usize,
    pub inverted: usize,
    pub worst: Option<u32>,
    pub octave: Option<u32>,
}

/// The summary of a block, or why it does not open (1 to 8 and 22).
pub fn summary(block: &[u8]) -> Result<Summary, u32> {
    Ok(Summary::of(&open(block)?))
}

impl Summary {
    pub fn of(patch: &Patch) -> Summary {
        let signs = || {
            patch
                .rows
                .iter()
                .map(|row| determinant(patch.corners(row)).signum())
        };
        Summary {
            upright: signs().filter(|sign| *sign == 1).count(),
            flat: signs().filter(|sign| *sign == 0).count(),
            inverted: signs().filter(|sign| *sign == -1).count(),
            worst: worst_row(patch).map(|row| score(patch.corners(row))),
            octave: octave(patch),
        }
    }
}

/// The first row of the patch than which none is worse; "a patch with no rows has no worst score".
pub fn worst_row(patch: &Patch) -> Option<&Row> {
    patch
        .rows
        .iter()
        .min_by_key(|row| Quality::of(patch.corners(row)))
}

/// "The octave is the largest e with 2^e·n ≤ the sum of badness over the n upright rows."
fn octave(patch: &Patch) -> Option<u32> {
    let upright: Vec<u64> = patch
        .rows
        .iter()
        .filter_map(|row| badness(patch.corners(row)))
        .collect();
    let n = upright.len() as u128;
    let sum: u128 = upright.iter().map(|b| u128::from(*b)).sum();
    (0..64).rev().find(|e| n > 0 && n << e <= sum)
}
