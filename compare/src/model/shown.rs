//! "For any row the page also gets one shown quality".

use super::block::{open, Patch};
use super::measure::{Quality, Shown};
use super::mesh::Row;

/// The shown quality of each row of a block with its sign, or why it does not open (1 to 8 and 22).
pub fn shown(block: &[u8]) -> Result<Vec<f64>, u32> {
    let patch = open(block)?;
    Ok(patch
        .rows
        .iter()
        .map(|row| shown_row(&patch, row))
        .collect())
}

/// The shown quality of a row with its sign.
pub fn shown_row(patch: &Patch, row: &Row) -> f64 {
    Shown::of(Quality::of(patch.corners(row))).signed()
}
