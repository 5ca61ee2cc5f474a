//! What the rows over an edge and its ring have in common: lengths and products of two ring points each, and used faces.

use super::block::{numbers, Fields};
use super::measure::{cross, dot, squared, way, Quality, Vector};
use super::ring::Ring;
use crate::model::limits::{LONGEST_RING, MAX_POINTS};

/// Pairs of ring places.
pub const PAIRS: usize = LONGEST_RING * (LONGEST_RING - 1) / 2;

/// The number of a pair of ring places, of which the second is the larger.
#[inline]
pub fn pair(i: usize, j: usize) -> usize {
    j * (j - 1) / 2 + i
}

/// What two ring points have, each as the way from a.
#[derive(Clone, Copy)]
struct Side {
    /// The cross product of both.
    product: Vector,
    /// The determinant of the way to b and both.
    d: i32,
    /// The squared length between them.
    length: i32,
    /// That length and the square of the first one's way from a, or the second one's, and the same from b.
    first_a: i32,
    second_a: i32,
    first_b: i32,
    second_b: i32,
}

/// The ring seen from a.
pub struct Rim {
    /// The squared length of the edge.
    edge: i32,
    /// The squared lengths to a and to b, added.
    to_ends: [i32; LONGEST_RING],
    ways: [Vector; LONGEST_RING],
    sides: [Side; PAIRS],
}

impl Rim {
    pub fn of(fields: Fields, a: u8, b: u8, ring: &[u8]) -> Rim {
        let a = fields.point(a);
        let b = way(a, fields.point(b));
        let idle = Side {
            product: [0; 3],
            length: 0,
            d: 0,
            first_a: 0,
            second_a: 0,
            first_b: 0,
            second_b: 0,
        };
        let mut rim = Rim {
            edge: squared(b),
            to_ends: [0; LONGEST_RING],
            ways: [[0; 3]; LONGEST_RING],
            sides: [idle; PAIRS],
        };
        let mut to_a = [0; LONGEST_RING];
        let mut to_b = [0; LONGEST_RING];
        for (j, number) in ring.iter().enumerate() {
            let w = way(a, fields.point(*number));
            rim.ways[j] = w;
            to_a[j] = squared(w);
            to_b[j] = squared(between(b, w));
            rim.to_ends[j] = to_a[j] + to_b[j];
            for i in 0..j {
                let v = rim.ways[i];
                let product = cross(v, w);
                let length = squared(between(v, w));
                rim.sides[pair(i, j)] = Side {
                    product,
                    length,
                    d: dot(b, product),
                    first_a: length + to_a[i],
                    second_a: length + to_a[j],
                    first_b: length + to_b[i],
                    second_b: length + to_b[j],
                };
            }
        }
        rim
    }

    /// The worst of the rows round the edge, by value: of equals it is not always the first in the table.
    #[inline]
    pub fn worst_removed(&self, m: usize, closed: bool) -> Quality {
        let row = |i: usize, j: usize, sign: i32| {
            let side = &self.sides[pair(i, j)];
            let spread = self.edge + self.to_ends[i] + self.to_ends[j] + side.length;
            Quality::new(sign * side.d, spread)
        };
        let links = (1..m).map(|j| row(j - 1, j, -1));
        let worst = links.fold(Quality::INFINITE, Quality::worse_of);
        match closed {
            true => worst.worse_of(row(0, m - 1, 1)),
            false => worst,
        }
    }

    /// The worse of the a-row and the b-row of the triangle.
    #[inline]
    pub fn worst(&self, i: usize, k: usize, j: usize) -> Quality {
        let left = &self.sides[pair(i, k)];
        let right = &self.sides[pair(k, j)];
        let across = &self.sides[pair(i, j)];
        let d = dot(self.ways[i], right.product);
        let of_a = Quality::new(-d, left.first_a + right.first_a + across.second_a);
        let of_b = Quality::new(
            d - left.d - right.d + across.d,
            left.first_b + right.first_b + across.second_b,
        );
        of_a.worse_of(of_b)
    }
}

fn between(a: Vector, b: Vector) -> Vector {
    [0, 1, 2].map(|axis: usize| b[axis] - a[axis])
}

/// Places on the rim: the ring's, then those of a and b.
const A: usize = LONGEST_RING;
const B: usize = LONGEST_RING + 1;
const PLACES: usize = LONGEST_RING + 2;

/// The faces of kept rows over a, b and the ring, either way round: for its first and its last place, those between.
pub struct UsedFaces {
    between: [[u16; PLACES]; PLACES],
}

impl UsedFaces {
    #[inline(never)]
    pub fn of(fields: Fields, a: u8, b: u8, ring: &Ring) -> UsedFaces {
        let mut bit = [0u16; MAX_POINTS];
        for (place, number) in ring.points().iter().enumerate() {
            bit[usize::from(*number)] = 1 << place;
        }
        bit[usize::from(a)] = 1 << A;
        bit[usize::from(b)] = 1 << B;
        let mut used = UsedFaces {
            between: [[0; PLACES]; PLACES],
        };
        for (i, row) in fields.rows.iter().enumerate() {
            let bits = numbers(row).map(|number| bit[usize::from(number) % MAX_POINTS]);
            let all = bits[0] | bits[1] | bits[2] | bits[3];
            if has_three(all) && ring.rows >> i & 1 == 0 {
                for bit in bits {
                    used.put(all & !bit);
                }
            }
        }
        used
    }

    /// Puts in the set of three places; one of two is no face.
    fn put(&mut self, face: u16) {
        if has_three(face) {
            let (first, last) = (face.trailing_zeros(), face.ilog2());
            self.between[first as usize][last as usize] |= face & !(1 << first | 1 << last);
        }
    }

    /// The places k with which the triangle i, k, j is used.
    #[inline]
    pub fn apexes(&self, i: usize, j: usize) -> u16 {
        self.between[i][j]
    }

    /// The places j with which a face of a or b with i and j is used.
    #[inline]
    pub fn diagonals(&self, i: usize) -> u16 {
        self.between[i][A] | self.between[i][B]
    }
}

/// Whether there are at least three bits.
#[inline]
fn has_three(bits: u16) -> bool {
    let but_one = bits & bits.wrapping_sub(1);
    but_one & but_one.wrapping_sub(1) != 0
}
