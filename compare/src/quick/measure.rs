//! Quality, comparison and score: `i32` for D and S, 128 bits for cross products.

use super::block::{numbers, Fields};
use crate::model::limits::{
    BEST_SCORE, LEAST_SCORE, MAX_POINTS, MAX_ROWS, QUALITY_FACTOR, SCORE_SCALE,
};
use crate::model::Point;
use std::cmp::Ordering;

const FACTOR: i64 = QUALITY_FACTOR as i64;

/// Kind (0 upright, 1 flat, 2 inverted), numerator and denominator.
pub type Parts = [u64; 3];

/// A place, or the way from one to another.
pub type Vector = [i32; 3];

/// The exact fraction D |D| / S^3: a quality without its factor, in the same order. Both are below 2^59 in size.
#[derive(Clone, Copy)]
pub struct Quality {
    numerator: i64,
    denominator: i64,
}

impl Quality {
    /// Better than every quality: what two neighbours of a ring count for.
    pub const INFINITE: Quality = Quality {
        numerator: 1,
        denominator: 0,
    };
    /// Worse than every quality: no D^2 is as much as S^3.
    pub const NONE: Quality = Quality {
        numerator: -1,
        denominator: 1,
    };

    /// The quality of a row with this D and S. S is 0 only where D is.
    #[inline]
    pub fn new(d: i32, spread: i32) -> Quality {
        let (d, spread) = (i64::from(d), i64::from(spread.max(1)));
        Quality {
            numerator: d * d.abs(),
            denominator: spread * spread * spread,
        }
    }

    #[inline]
    pub fn worse(self, other: Quality) -> bool {
        let product = |x: i64, y: i64| i128::from(x) * i128::from(y);
        product(self.numerator, other.denominator) < product(other.numerator, self.denominator)
    }

    /// The worse of both, of equals this one.
    #[inline]
    pub fn worse_of(self, other: Quality) -> Quality {
        match other.worse(self) {
            true => other,
            false => self,
        }
    }

    /// Whether the row is upright, flat or inverted: above, at or below 0.
    pub fn sign(self) -> i64 {
        self.numerator.signum()
    }

    pub fn score(self) -> u32 {
        match self.numerator > 0 {
            true => score((FACTOR * self.numerator) as u64, self.denominator as u64),
            false => LEAST_SCORE,
        }
    }

    /// The badness of an upright quality.
    pub fn badness(self) -> u64 {
        let numerator = FACTOR * self.numerator;
        (self.denominator as u64).div_ceil(numerator as u64)
    }

    /// What the page shows: the size with its sign.
    pub fn shown(self) -> f64 {
        (FACTOR * self.numerator) as f64 / self.denominator as f64
    }
}

/// D and S of each row of a table.
pub struct Measures {
    d: [i32; MAX_ROWS],
    spread: [i32; MAX_ROWS],
}

impl Measures {
    /// S is four times the squares of a row's points less that of their sum, so each point is squared once.
    #[inline(never)]
    pub fn of(fields: Fields) -> Measures {
        let mut squares = [0; MAX_POINTS];
        for (square, point) in squares.iter_mut().zip(fields.points).take(fields.count) {
            *square = squared(point.map(i32::from));
        }
        let mut measures = Measures {
            d: [0; MAX_ROWS],
            spread: [0; MAX_ROWS],
        };
        let places = measures.d.iter_mut().zip(&mut measures.spread);
        for (row, (d, spread)) in fields.rows.iter().zip(places) {
            let numbers = numbers(row);
            let corners = numbers.map(|number| fields.point(number));
            let [p, q, r, s] = numbers.map(|number| squares[usize::from(number) % MAX_POINTS]);
            *d = volume(corners);
            *spread = 4 * (p + q + r + s) - squared(sum(corners));
        }
        measures
    }

    #[inline]
    pub fn quality(&self, row: usize) -> Quality {
        Quality::new(self.d[row], self.spread[row])
    }
}

/// The quality of the row over four points of three bytes; another length has none.
#[inline(never)]
pub fn quality(corners: &[u8], parts: &mut Parts) {
    let Ok(corners) = <&[u8; 12]>::try_from(corners) else {
        return;
    };
    let (&[p, q, r, s], _) = corners.as_chunks() else {
        return;
    };
    let d = volume([p, q, r, s]);
    let squares = corners.map(|number| i32::from(number) * i32::from(number));
    let spread = 4 * squares.iter().sum::<i32>() - squared(sum([p, q, r, s]));
    let kind = match d.cmp(&0) {
        Ordering::Greater => 0,
        Ordering::Equal => {
            *parts = [1, 0, 1];
            return;
        }
        Ordering::Less => 2,
    };
    let (d, spread) = (i64::from(d), i64::from(spread));
    let [numerator, denominator] = [FACTOR * d * d, spread * spread * spread];
    *parts = [kind, numerator as u64, denominator as u64];
}

/// The sum of four points.
#[inline]
fn sum([p, q, r, s]: [Point; 4]) -> Vector {
    let [p, q, r, s] = [p, q, r, s].map(|point| point.map(i32::from));
    [0, 1, 2].map(|axis: usize| p[axis] + q[axis] + r[axis] + s[axis])
}

/// D of a row over four points.
#[inline]
pub fn volume([p, q, r, s]: [Point; 4]) -> i32 {
    dot(way(s, p), cross(way(s, q), way(s, r)))
}

/// The way from one point to another.
#[inline]
pub fn way(from: Point, to: Point) -> Vector {
    [0, 1, 2].map(|axis: usize| i32::from(to[axis]) - i32::from(from[axis]))
}

#[inline]
pub fn cross(a: Vector, b: Vector) -> Vector {
    [
        a[1] * b[2] - a[2] * b[1],
        a[2] * b[0] - a[0] * b[2],
        a[0] * b[1] - a[1] * b[0],
    ]
}

#[inline]
pub fn dot(a: Vector, b: Vector) -> i32 {
    a[0] * b[0] + a[1] * b[1] + a[2] * b[2]
}

#[inline]
pub fn squared(a: Vector) -> i32 {
    dot(a, a)
}

/// Whether n1 / d1 is less than n2 / d2.
#[inline(never)]
pub fn less(n1: u64, d1: u64, n2: u64, d2: u64) -> bool {
    product(n1, d2) < product(n2, d1)
}

/// The score of the upright quality `numerator` / `denominator`: the root rounded, or one less where that is too much.
#[inline(never)]
pub fn score(numerator: u64, denominator: u64) -> u32 {
    let root = (numerator as f64 / denominator as f64).cbrt();
    let rounded = (root * f64::from(BEST_SCORE) + 0.5) as u32;
    let rounded = rounded.min(BEST_SCORE);
    let limit = SCORE_SCALE * u128::from(numerator);
    match product(u64::from(rounded).pow(3), denominator) <= limit {
        true => rounded,
        false => rounded - 1,
    }
}

fn product(a: u64, b: u64) -> u128 {
    u128::from(a) * u128::from(b)
}
