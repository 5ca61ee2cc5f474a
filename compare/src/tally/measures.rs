//! Fine points of the measure: how large and how small its numbers get, and what the f64 make of them.

use crate::model::measure::{determinant, edge_sum};
use crate::model::summary::worst_row;
use crate::model::{Patch, Quality, Shown};

/// 2·255³: |D| of the largest tetrahedron over corners of the box.
const LARGEST_D: i64 = 33_162_750;
/// |D| of a row that is nearly flat, and S of one that is large.
const SMALL_D: i64 = 4;
const LARGE_S: i64 = 100_000;

/// What the rows of a patch show, by name.
pub fn row_points(patch: &Patch) -> [(&'static str, bool); 4] {
    let mut coordinates = patch.points.iter().flatten();
    let corners = || patch.rows.iter().map(|row| patch.corners(row));
    let sizes = || corners().map(|c| (determinant(c).abs(), edge_sum(c)));
    let nearly_flat = |(d, s): (i64, i64)| (1..=SMALL_D).contains(&d) && s > LARGE_S;
    [
        ("a coordinate of 255", coordinates.any(|c| *c == u8::MAX)),
        ("the largest D", sizes().any(|(d, _)| d == LARGEST_D)),
        ("a nearly flat row", sizes().any(nearly_flat)),
        (
            "a part that is no f64",
            corners().any(|c| has_rounded_part(Quality::of(c))),
        ),
    ]
}

fn has_rounded_part(quality: Quality) -> bool {
    let parts = [quality.numerator, quality.denominator];
    parts.into_iter().any(|part| part as f64 as i128 != part)
}

/// What the f64 of a patch with rows make of its worst row, by name.
pub fn worst_points(patch: &Patch) -> [(&'static str, bool); 2] {
    let quality = |row| Quality::of(patch.corners(row));
    let shown = |row| Shown::of(quality(row)).signed();
    let worst = worst_row(patch).expect("the patch has rows");
    let as_bad = |row| quality(row) == quality(worst);
    [
        (
            "by f64 another row is the worst",
            patch.rows.iter().any(|row| shown(row) < shown(worst)),
        ),
        (
            "a row as bad as the worst has another f64",
            patch
                .rows
                .iter()
                .any(|row| as_bad(row) && shown(row) != shown(worst)),
        ),
    ]
}
