//! The table of pieces: the best worst and the apex of every piece of a ring or a chain, from the smaller to the larger.

use super::bits::Members;
use super::block::{numbers, Fields, RowBytes};
use super::measure::Quality;
use super::rim::{pair, Rim, UsedFaces, PAIRS};
use crate::model::limits::LONGEST_RING;

/// The best worst and the apex of the pieces (i,j) of ring places counted from 0, where it is better than the floor.
pub struct Pieces {
    /// What every row must be better than.
    floor: Quality,
    worst: [Quality; PAIRS],
    apex: [u8; PAIRS],
}

impl Pieces {
    /// The table of a ring or chain of m.
    #[inline(never)]
    pub fn above(floor: Quality, rim: &Rim, used: &UsedFaces, m: usize) -> Pieces {
        let mut pieces = Pieces {
            floor,
            worst: [Quality::INFINITE; PAIRS],
            apex: [0; PAIRS],
        };
        for_each_piece(used, m, |apexes, i, j| pieces.choose(rim, apexes, i, j));
        pieces
    }

    /// Keeps the best of the apexes, of equals the first; false if none is better than the floor. A triangle behind whose
    /// sides there is nothing better than the best so far is not measured.
    #[inline]
    fn choose(&mut self, rim: &Rim, apexes: u16, i: usize, j: usize) -> bool {
        let mut best = self.floor;
        let mut apex = 0;
        for k in Members(apexes.into()) {
            let sides = self.worst[pair(i, k)].worse_of(self.worst[pair(k, j)]);
            if !best.worse(sides) {
                continue;
            }
            let worst = rim.worst(i, k, j).worse_of(sides);
            if best.worse(worst) {
                best = worst;
                apex = k as u8;
            }
        }
        self.worst[pair(i, j)] = best;
        self.apex[pair(i, j)] = apex;
        apex != 0
    }

    /// The best worst of a piece, if it has one.
    pub fn best(&self, i: usize, j: usize) -> Option<Quality> {
        (self.apex[pair(i, j)] != 0).then_some(self.worst[pair(i, j)])
    }

    /// The apex of a piece that has one, else 0.
    pub fn apex(&self, i: usize, j: usize) -> usize {
        self.apex[pair(i, j)].into()
    }
}

/// Whether a ring or chain of m has a triangulation over faces that are not used.
#[inline(never)]
pub fn any_admissible(used: &UsedFaces, m: usize) -> bool {
    let mut whole = false;
    for_each_piece(used, m, |_, i, j| {
        whole = (i, j) == (0, m - 1);
        true
    });
    whole
}

/// Offers each piece that has apexes over faces that are not used, after the pieces inside it. A piece that is not taken is
/// no side of another.
#[inline]
fn for_each_piece(used: &UsedFaces, m: usize, mut taken: impl FnMut(u16, usize, usize) -> bool) {
    // The places to which a triangle can have a side, from each place.
    let mut to = [0u16; LONGEST_RING];
    for j in 1..m {
        to[j - 1] |= 1 << j;
        // The places from which it can have one to j.
        let mut from = 1u16 << (j - 1);
        for i in (0..j - 1).rev() {
            let apexes = to[i] & from & !used.apexes(i, j);
            if apexes != 0 && taken(apexes, i, j) {
                let free = !used.diagonals(i) >> j & 1;
                to[i] |= free << j;
                from |= free << i;
            }
        }
    }
}

/// Whether a row has the face of a or b that closes a chain, in the direction of the new row. No row round the edge of a
/// chain holds both v1 and vm.
pub fn across_stands(fields: Fields, a: u8, b: u8, ring: &[u8]) -> bool {
    let (v1, vm) = (ring[0], ring[ring.len() - 1]);
    let stands = |face: [u8; 3]| place_of(fields, face).is_some();
    stands([a, v1, vm]) || stands([b, vm, v1])
}

/// Whether a row has the directed face and has it marked.
pub fn stands_marked(fields: Fields, face: [u8; 3]) -> bool {
    place_of(fields, face).is_some_and(|(row, place)| fields.marks(row) >> place & 1 == 1)
}

/// The row that has the directed face, and the face's place in it.
fn place_of(fields: Fields<'_>, [x, y, z]: [u8; 3]) -> Option<(&RowBytes, usize)> {
    let turns = [[x, y, z], [y, z, x], [z, x, y]];
    fields.rows.iter().find_map(|row| {
        let [p, q, r, s] = numbers(row);
        let faces = [[q, r, s], [p, s, r], [p, q, s], [p, r, q]];
        let place = faces.iter().position(|face| turns.contains(face))?;
        Some((row, place))
    })
}
