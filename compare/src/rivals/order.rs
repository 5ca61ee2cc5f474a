//! The order of qualities, a second time: by whole parts and remainders in 64 bits.

use super::{seen_quality, Fault};
use crate::model::{Patch, Quality, Row, Shown};
use std::cmp::Ordering;

/// The order of n/d and o/e, denominators positive: whole parts first, then the remainders turned
/// over.
pub fn whole_part_order(n: u64, d: u64, o: u64, e: u64) -> Ordering {
    match (n / d).cmp(&(o / e)) {
        Ordering::Equal => match (n % d, o % e) {
            (0, 0) => Ordering::Equal,
            (0, _) => Ordering::Less,
            (_, 0) => Ordering::Greater,
            (left, right) => whole_part_order(e, right, d, left),
        },
        unequal => unequal,
    }
}

/// The order of two qualities as a rival takes it.
pub fn compare(x: Quality, y: Quality, fault: Fault) -> Ordering {
    if fault == Fault::ComparesRounded {
        let [x, y] = [x, y].map(|quality| Shown::of(quality).signed());
        return x.total_cmp(&y);
    }
    let parts = |q: Quality| (q.numerator.unsigned_abs() as u64, q.denominator as u64);
    let ((n, d), (o, e)) = (parts(x), parts(y));
    match (x.numerator.signum(), y.numerator.signum()) {
        (1, 1) => whole_part_order(n, d, o, e),
        (-1, -1) => whole_part_order(o, e, n, d),
        (left, right) => left.cmp(&right),
    }
}

/// The worst of some rows.
pub fn worst(patch: &Patch, rows: &[Row], fault: Fault) -> Quality {
    let qualities = rows
        .iter()
        .map(|row| seen_quality(patch, row.numbers, fault));
    let least = qualities.min_by(|x, y| compare(*x, *y, fault));
    least.expect("an edge that is held has rows")
}

/// Is the new worst better than the old?
pub fn good_enough(new: Quality, old: Quality, fault: Fault) -> bool {
    match compare(new, old, fault) {
        Ordering::Greater => true,
        Ordering::Equal => fault == Fault::TakesEqualForBetter,
        Ordering::Less => false,
    }
}
