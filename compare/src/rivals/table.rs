//! FILLTABLES of the published method (Shewchuk 2002), with the kept rows' faces in it; places are counted from 0.

use super::order::compare;
use super::{seen_quality, Fault};
use crate::model::mesh::faces;
use crate::model::{Patch, Quality, Row};
use std::cmp::Ordering;

type Cell = Option<(Quality, usize)>;

/// Best worst and apex of each piece of one ring or chain.
pub struct Table<'r> {
    cells: Vec<Vec<Cell>>,
    ends: [u8; 2],
    ring: &'r [u8],
    closed: bool,
    fault: Fault,
}

impl Table<'_> {
    pub fn fill<'r>(
        patch: &Patch,
        kept: &[Row],
        ends: [u8; 2],
        (ring, closed): (&'r [u8], bool),
        fault: Fault,
    ) -> Table<'r> {
        let m = ring.len();
        let mut table = Table {
            cells: vec![vec![None; m]; m],
            ends,
            ring,
            closed,
            fault,
        };
        for i in (0..m - 2).rev() {
            for j in i + 2..m {
                for k in i + 1..j {
                    let candidate = table.candidate(patch, kept, i, k, j);
                    let current = table.cells[i][j];
                    table.cells[i][j] = table.better(current, candidate.map(|q| (q, k)));
                }
            }
        }
        table
    }

    /// The best worst of the piece (i,j) with the apex k.
    fn candidate(
        &self,
        patch: &Patch,
        kept: &[Row],
        i: usize,
        k: usize,
        j: usize,
    ) -> Option<Quality> {
        let [vi, vk, vj] = [i, k, j].map(|x| self.ring[x]);
        if self.triangle_blocked(kept, vi, vk, vj) || self.whole_side_blocked(kept, i, j) {
            return None;
        }
        let [a, b] = self.ends;
        let mut parts = vec![
            seen_quality(patch, [a, vi, vk, vj], self.fault),
            seen_quality(patch, [vi, vk, vj, b], self.fault),
        ];
        for (from, to) in [(i, k), (k, j)] {
            if to > from + 1 {
                if self.diagonal_blocked(kept, self.ring[from], self.ring[to]) {
                    return None;
                }
                parts.push(self.cells[from][to]?.0);
            }
        }
        parts.into_iter().min_by(|x, y| compare(*x, *y, self.fault))
    }

    fn better(&self, current: Cell, candidate: Cell) -> Cell {
        let (Some((old, _)), Some((new, _))) = (current, candidate) else {
            return current.or(candidate);
        };
        match compare(new, old, self.fault) {
            Ordering::Greater => candidate,
            Ordering::Equal if self.fault == Fault::TakesLargestApex => candidate,
            _ => current,
        }
    }

    fn triangle_blocked(&self, kept: &[Row], vi: u8, vk: u8, vj: u8) -> bool {
        self.fault != Fault::ForgetsTriangles && self.used(kept, [vi, vk, vj])
    }

    fn diagonal_blocked(&self, kept: &[Row], v: u8, w: u8) -> bool {
        let [a, b] = self.ends;
        match self.fault {
            Fault::ForgetsDiagonals => false,
            Fault::ForgetsDiagonalsOfB => self.used(kept, [a, v, w]),
            _ => self.used(kept, [a, v, w]) || self.used(kept, [b, v, w]),
        }
    }

    /// The side v1 vm: of a chain its two faces, each in one direction; of a ring nothing, but a rival takes it for a diagonal.
    fn whole_side_blocked(&self, kept: &[Row], i: usize, j: usize) -> bool {
        let (v1, vm) = (self.ring[i], self.ring[j]);
        let [a, b] = self.ends;
        let whole = i == 0 && j == self.ring.len() - 1;
        whole
            && match (self.closed, self.fault) {
                (true, Fault::JudgesTheRingSide) => self.diagonal_blocked(kept, v1, vm),
                (true, _) | (false, Fault::ForgetsClosingFaces) => false,
                (false, Fault::ForgetsClosingFaceOfB) => directed(kept, [a, v1, vm]),
                (false, Fault::ClosingFacesEitherWay) => self.diagonal_blocked(kept, v1, vm),
                (false, _) => directed(kept, [a, v1, vm]) || directed(kept, [b, vm, v1]),
            }
    }

    /// Does a kept row hold the three points? A row that holds them has them as a face.
    fn used(&self, kept: &[Row], face: [u8; 3]) -> bool {
        match self.fault {
            Fault::LooksOneWayRound => directed(kept, face),
            _ => kept
                .iter()
                .any(|row| face.iter().all(|point| row.numbers.contains(point))),
        }
    }

    /// The best worst of the whole ring or chain, which has one.
    pub fn best_worst(&self) -> Quality {
        let whole = self.cells[0][self.ring.len() - 1];
        whole.expect("it has an admissible triangulation").0
    }

    /// The new rows in written order, if the whole has an admissible triangulation.
    pub fn expanded(&self) -> Option<Vec<[u8; 4]>> {
        let mut rows = vec![];
        let mut open = vec![(0, self.ring.len() - 1)];
        while let Some((i, j)) = open.pop() {
            if j < i + 2 {
                continue;
            }
            let k = match self.fault == Fault::FansTheRest && !rows.is_empty() {
                true => i + 1,
                false => self.cells[i][j]?.1,
            };
            rows.extend(self.pair([i, k, j].map(|x| self.ring[x])));
            open.extend([(k, j), (i, k)]);
        }
        Some(rows)
    }

    fn pair(&self, [vi, vk, vj]: [u8; 3]) -> [[u8; 4]; 2] {
        let [a, b] = self.ends;
        let (a_row, b_row) = ([a, vi, vk, vj], [vi, vk, vj, b]);
        match self.fault {
            Fault::SwapsRowPair => [b_row, a_row],
            _ => [a_row, b_row],
        }
    }
}

/// Does a kept row have this face in this direction?
fn directed(kept: &[Row], face: [u8; 3]) -> bool {
    let turns = [0, 1, 2].map(|x| [face[x], face[(x + 1) % 3], face[(x + 2) % 3]]);
    kept.iter()
        .flat_map(|row| faces(row.numbers))
        .any(|face| turns.contains(&face))
}
