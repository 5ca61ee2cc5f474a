//! "Quality, score and badness": D, S and what is made of them.

use super::limits::{BEST_SCORE, LEAST_SCORE, QUALITY_FACTOR, SCORE_SCALE};
use std::cmp::Ordering;

/// "x, y, z, each 0 to 255".
pub type Point = [u8; 3];
/// The four points of a row, in the row's order.
pub type Corners = [Point; 4];

/// "D(p,q,r,s) is the determinant with rows p-s, q-s, r-s".
pub fn determinant([p, q, r, s]: Corners) -> i64 {
    let minus_s = |t: Point| [0, 1, 2].map(|c| i64::from(t[c]) - i64::from(s[c]));
    let [a, b, c] = [minus_s(p), minus_s(q), minus_s(r)];
    a[0] * (b[1] * c[2] - b[2] * c[1]) - a[1] * (b[0] * c[2] - b[2] * c[0])
        + a[2] * (b[0] * c[1] - b[1] * c[0])
}

/// "S is the sum of the six squared edge lengths."
pub fn edge_sum([p, q, r, s]: Corners) -> i64 {
    let edges = [(p, q), (p, r), (p, s), (q, r), (q, s), (r, s)];
    edges.into_iter().map(squared_length).sum()
}

fn squared_length((p, q): (Point, Point)) -> i64 {
    let steps = [0, 1, 2].map(|c| i64::from(p[c]) - i64::from(q[c]));
    steps.into_iter().map(|step| step * step).sum()
}

/// A quality as an exact fraction: the numerator carries the sign, the denominator is positive.
#[derive(Clone, Copy, Debug)]
pub struct Quality {
    pub numerator: i128,
    pub denominator: i128,
}

impl Quality {
    /// The quality of every flat row.
    pub const ZERO: Quality = Quality {
        numerator: 0,
        denominator: 1,
    };

    /// "432·D²/S³ for D > 0, 0 for D = 0, and minus that fraction for D < 0."
    pub fn of(corners: Corners) -> Quality {
        let d = i128::from(determinant(corners));
        let s = i128::from(edge_sum(corners));
        match d.cmp(&0) {
            Ordering::Equal => Quality::ZERO,
            sign => Quality {
                numerator: QUALITY_FACTOR * d * d * (sign as i128),
                denominator: s * s * s,
            },
        }
    }
}

/// "Qualities are ordered as exact fractions": by cross products, both denominators positive.
impl Ord for Quality {
    fn cmp(&self, other: &Quality) -> Ordering {
        (self.numerator * other.denominator).cmp(&(other.numerator * self.denominator))
    }
}

impl PartialOrd for Quality {
    fn partial_cmp(&self, other: &Quality) -> Option<Ordering> {
        Some(self.cmp(other))
    }
}

impl PartialEq for Quality {
    fn eq(&self, other: &Quality) -> bool {
        self.cmp(other) == Ordering::Equal
    }
}

impl Eq for Quality {}

/// "one shown quality: flat, upright with an f64, or inverted with the f64 of the size".
#[derive(Clone, Copy, Debug, PartialEq)]
pub enum Shown {
    Flat,
    Upright(f64),
    Inverted(f64),
}

impl Shown {
    /// Both whole numbers become f64, each rounded to the nearest, and then comes one division.
    pub fn of(quality: Quality) -> Shown {
        let size = quality.numerator.unsigned_abs() as f64 / quality.denominator as f64;
        match quality.numerator.cmp(&0) {
            Ordering::Equal => Shown::Flat,
            Ordering::Greater => Shown::Upright(size),
            Ordering::Less => Shown::Inverted(size),
        }
    }

    /// "each 0 for flat and negative for inverted".
    pub fn signed(self) -> f64 {
        match self {
            Shown::Flat => 0.0,
            Shown::Upright(size) => size,
            Shown::Inverted(size) => -size,
        }
    }
}

/// "a record of two such f64 sizes, worst before and worst after".
#[derive(Clone, Copy, Debug, PartialEq)]
pub struct PageRow {
    pub before: f64,
    pub after: f64,
}

/// "Score: the largest n from 0 to 1000 with n³·S³ ≤ 10^9·432·D² for D > 0; otherwise 0."
pub fn score(corners: Corners) -> u32 {
    let d = determinant(corners);
    if d <= 0 {
        return LEAST_SCORE;
    }
    let right = SCORE_SCALE * QUALITY_FACTOR as u128 * squared(d);
    let s_cubed = u128::from(edge_sum(corners) as u64).pow(3);
    (LEAST_SCORE..=BEST_SCORE)
        .rev()
        .find(|n| u128::from(*n).pow(3) * s_cubed <= right)
        .expect("n = 0 always holds")
}

/// "Badness, for D > 0 only: S³/(432·D²) rounded up."
pub fn badness(corners: Corners) -> Option<u64> {
    let d = determinant(corners);
    if d <= 0 {
        return None;
    }
    let s_cubed = u128::from(edge_sum(corners) as u64).pow(3);
    let below = QUALITY_FACTOR as u128 * squared(d);
    Some(s_cubed.div_ceil(below) as u64)
}

/// D², for either sign of D.
fn squared(d: i64) -> u128 {
    u128::from(d.unsigned_abs()).pow(2)
}
