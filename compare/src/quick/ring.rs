//! The ring or the chain round an edge: where each link goes, and the points that links leave and reach as bits.

use super::bits::Members;
use super::block::{word, Fields, RowBytes, EACH_BYTE, REGION_AT};
use crate::model::answer;
use crate::model::limits::{LONGEST_RING, MAX_POINTS, SHORTEST_RING};

/// The places behind those of a and b in a row, so that all four make an even arrangement.
const BEHIND: [[[usize; 2]; 4]; 4] = [
    [[0, 0], [2, 3], [3, 1], [1, 2]],
    [[3, 2], [0, 0], [0, 3], [2, 0]],
    [[1, 3], [3, 0], [0, 0], [0, 1]],
    [[2, 1], [0, 2], [1, 0], [0, 0]],
];

/// v1 to vm, whether a link leads back from vm to v1, the region of the rows if they have one, and their marks.
pub struct Ring {
    m: usize,
    pub closed: bool,
    /// The rows round the edge.
    pub rows: u64,
    pub region: Option<u8>,
    /// Whether a face with both ends is marked.
    pub mark_goes: bool,
    /// The points whose link has a marked face with a, and with b.
    pub marked: [u64; 2],
    points: [u8; LONGEST_RING],
}

impl Ring {
    pub fn points(&self) -> &[u8] {
        &self.points[..self.m]
    }

    /// The ring or the chain round the edge a, b in a table that keeps the mesh rule, or the first of the answers 10 to 13.
    /// A point starts at most one link and ends at most one, so all links close when the same points do both, and each
    /// point that only starts one is the start of a chain.
    pub fn find(fields: Fields, a: u8, b: u8) -> Result<Ring, u32> {
        let rows = rows_round(fields.rows, a, b);
        if rows == 0 {
            return Err(answer::NOT_HELD);
        }
        let mut next = [0; MAX_POINTS];
        let (mut starts, mut ends) = (0u64, 0u64);
        // The bits that all regions have, and those that any has: the same if there is one region.
        let (mut in_all, mut in_any) = (u8::MAX, 0);
        let mut mark_goes = false;
        let mut marked = [0u64; 2];
        for row in Members(rows) {
            let row = &fields.rows[row];
            let ends_at = [a, b].map(|end| (zeros(word(row), end).trailing_zeros() / 8) as usize);
            let behind = BEHIND[ends_at[0] & 3][ends_at[1] & 3];
            let [v, w] = behind.map(|place| row[place]);
            let marks = fields.marks(row);
            let [opposite_a, opposite_b] = ends_at.map(|place| u64::from(marks >> place & 1));
            mark_goes |= behind.iter().any(|place| marks >> place & 1 == 1);
            marked[0] |= opposite_b << v;
            marked[1] |= opposite_a << v;
            next[usize::from(v)] = w;
            starts |= 1 << v;
            ends |= 1 << w;
            in_all &= row[REGION_AT];
            in_any |= row[REGION_AT];
        }
        let closed = starts == ends;
        let first = match closed {
            true => starts.trailing_zeros() as u8,
            false => (starts & !ends).trailing_zeros() as u8,
        };
        let mut ring = Ring {
            m: 0,
            closed,
            rows,
            region: ((in_all ^ in_any) & fields.region_bits == 0)
                .then_some(in_all & fields.region_bits),
            mark_goes,
            marked,
            points: [0; LONGEST_RING],
        };
        let mut here = first;
        loop {
            if let Some(place) = ring.points.get_mut(ring.m) {
                *place = here;
            }
            ring.m += 1;
            if starts >> here & 1 == 0 {
                break;
            }
            here = next[usize::from(here)];
            if here == first {
                break;
            }
        }
        if ring.m < (starts | ends).count_ones() as usize {
            return Err(match closed {
                true => answer::CIRCLES,
                false => answer::OPEN,
            });
        }
        match ring.m {
            SHORTEST_RING..=LONGEST_RING => Ok(ring),
            _ => Err(answer::RING_LENGTH),
        }
    }
}

/// The rows that hold both ends.
#[inline(never)]
fn rows_round(rows: &[RowBytes], a: u8, b: u8) -> u64 {
    rows.iter().enumerate().fold(0, |round, (i, row)| {
        let holds = (zeros(word(row), a) != 0) & (zeros(word(row), b) != 0);
        round | u64::from(holds) << i
    })
}

/// Not 0 if a byte of the word is the number, and then the lowest bit is the top one of the first such byte.
#[inline]
fn zeros(word: u32, number: u8) -> u32 {
    let differ = word ^ (u32::from(number) * EACH_BYTE);
    differ.wrapping_sub(EACH_BYTE) & !differ & (EACH_BYTE << 7)
}
