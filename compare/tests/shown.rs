//! Shown qualities against their sentences, row by row.

mod common;

use common::sizes::{fraction, quotient_bits, shows};
use common::*;
use compare::gen::{cases, ONE_FRACTION, OTHER_ORDER};
use compare::model::measure::{determinant, Corners};
use compare::model::removal::removal;
use compare::model::{open, run, shown, Call, Outcome, Patch, Quality, Row};
use compare::rivals::whole_part_order;
use std::cmp::Ordering;

/// The patches of generated calls that show their rows, each with the bits of what is shown.
fn shown_patches() -> impl Iterator<Item = (Patch, Vec<u64>)> {
    cases(22, 3_000).filter_map(|case| {
        let (Call::Shown { block, .. }, Outcome::Shown(0, out)) = (&case.call, run(&case.call))
        else {
            return None;
        };
        let patch = open(block).expect("it is shown");
        Some((patch, out))
    })
}

/// By whole numbers: the sign of D, a size that is near the fraction, and it is the quotient of the two rounded parts.
#[test]
fn each_row_shows_its_sign_and_a_size_near_its_fraction() {
    let mut seen = [0; 3];
    let mut rounded = 0;
    for (patch, out) in shown_patches() {
        for (row, bits) in patch.rows.iter().zip(out) {
            let quality = Quality::of(patch.corners(row));
            shows(bits, quality);
            let [t, u] = fraction(quality);
            if t > 0 {
                assert_eq!(bits << 1, quotient_bits(t, u) << 1);
            }
            rounded += usize::from(u >= 1 << 53);
            let d = determinant(patch.corners(row));
            seen[(d.signum() + 1) as usize] += 1;
        }
    }
    assert!(seen.iter().all(|count| *count > 1_000), "{seen:?}");
    assert!(rounded > 1_000, "{rounded}");
}

#[test]
fn zeros_stand_behind_the_rows() {
    for (patch, out) in shown_patches() {
        assert_eq!(out.len(), 60);
        let behind = &out[patch.rows.len()..];
        assert!(behind.iter().all(|bits| *bits == 0));
    }
}

/// The order of two qualities by whole parts and remainders.
fn order(x: Quality, y: Quality) -> Ordering {
    let [[t, u], [v, w]] = [x, y].map(fraction);
    match (x.numerator.signum(), y.numerator.signum()) {
        (1, 1) => whole_part_order(t, u, v, w),
        (-1, -1) => whole_part_order(v, w, t, u),
        (left, right) => left.cmp(&right),
    }
}

/// The first of the rows than which none is worse.
fn exactly_worst(patch: &Patch) -> Quality {
    let qualities = patch.rows.iter().map(|row| Quality::of(patch.corners(row)));
    let worst = qualities.reduce(|worst, next| match order(next, worst) {
        Ordering::Less => next,
        _ => worst,
    });
    worst.expect("rows")
}

/// The f64 of the others may be below it.
#[test]
fn the_page_row_has_the_f64_of_the_exactly_worst_row() {
    let mut removals = 0;
    for (patch, [a, b]) in edges(6, 3_000) {
        if let Ok(removal) = removal(patch, a, b) {
            let page = removal.page;
            for (size, patch) in [(page.before, &removal.before), (page.after, &removal.after)] {
                let worst = exactly_worst(patch);
                shows(size.to_bits(), worst);
                let [t, u] = fraction(worst);
                let bits = match t {
                    0 => 0,
                    _ => quotient_bits(t, u),
                };
                assert_eq!(size.to_bits() << 1, bits << 1);
            }
            removals += 1;
        }
    }
    assert!(removals > 100, "{removals}");
}

/// Block A with two rows that are worse than all of its own, and the bits of their f64 and of the page row.
fn beside_block_a(rows: [Corners; 2]) -> ([u64; 2], [u64; 2]) {
    let mut patch = block_a();
    for corners in rows {
        let at = patch.points.len() as u8;
        patch.points.extend(corners);
        patch.rows.push(Row::plain([at, at + 1, at + 2, at + 3], 0));
    }
    let shown = shown(&patch.to_bytes()).expect("it opens");
    let page = removal(patch, 0, 1).expect("done").page;
    let bits = |sizes: [f64; 2]| sizes.map(f64::to_bits);
    (bits([shown[3], shown[4]]), bits([page.before, page.after]))
}

/// In either order of the rows.
#[test]
fn the_page_row_goes_by_the_fractions_where_the_f64_stand_in_the_other_order() {
    let [worse, better] = OTHER_ORDER;
    let ([of_worse, of_better], page) = beside_block_a([worse, better]);
    assert!(of_worse > of_better);
    assert_eq!(page, [of_worse; 2]);
    assert_eq!(beside_block_a([better, worse]).1, [of_worse; 2]);
}

#[test]
fn of_equal_worst_rows_the_page_row_shows_the_first() {
    let [one, other] = ONE_FRACTION;
    let ([of_one, of_other], page) = beside_block_a([one, other]);
    assert_ne!(of_one, of_other);
    assert_eq!(page, [of_one; 2]);
    assert_eq!(beside_block_a([other, one]).1, [of_other; 2]);
}
