//! Marks a second time: that of a face is beside the number that the face lies opposite to, and a face is its three points,
//! whichever way round.

use super::Fault;
use crate::model::limits::{MARKED, PLAIN};
use crate::model::{Patch, Row};

/// The mark of a row's face opposite to one of its numbers, as a rival reads it: some do not look where the number stands.
fn opposite(row: &Row, number: u8, order: [u8; 4], fault: Fault) -> bool {
    let of = match fault {
        Fault::ReadsMarksByFixedPlace => &order,
        _ => &row.numbers,
    };
    let place = of.iter().position(|own| *own == number);
    row.marks[place.expect("the row has the number")]
}

/// The edge, and its removed rows each with its numbers in the order a, b, v, w.
pub struct Round<'r> {
    pub ends: [u8; 2],
    pub rows: &'r [(Row, [u8; 4])],
}

impl Round<'_> {
    /// Would a marked face with both ends go?
    pub fn a_mark_goes(&self, fault: Fault) -> bool {
        let seen = match fault {
            Fault::LetsMarkedFacesGo => return false,
            Fault::LooksAtMarksOfFirstRow => &self.rows[..1],
            _ => self.rows,
        };
        seen.iter().any(|(row, order)| {
            let [a, b, v, w] = *order;
            let inner = [(v, w), (w, v)].into_iter().any(|(off, on)| {
                let taken = fault == Fault::LetsEndFacesGo && self.holding(on) == 1;
                !taken && opposite(row, off, *order, fault)
            });
            let mut shell = [a, b].into_iter();
            let refused = fault == Fault::RefusesMarkedShells;
            inner || refused && shell.any(|end| opposite(row, end, *order, fault))
        })
    }

    /// How many removed rows hold the point.
    fn holding(&self, point: u8) -> usize {
        let rows = self.rows.iter();
        rows.filter(|(row, _)| row.numbers.contains(&point)).count()
    }

    /// The marks of a new row.
    pub fn marks_of(&self, numbers: [u8; 4], kept: &[Row], fault: Fault) -> [bool; 4] {
        numbers.map(|number| {
            let mut face = numbers.into_iter().filter(|other| *other != number);
            let face = [0; 3].map(|_: u8| face.next().expect("three others"));
            let shell = self.shell(face, fault);
            let of_kept = match fault {
                Fault::ForgetsMarksOfKeptRows => None,
                _ => kept.iter().find_map(|row| mark_in(row, face)),
            };
            shell.or(of_kept).unwrap_or(false)
        })
    }

    /// The mark that a removed row has there.
    fn shell(&self, face: [u8; 3], fault: Fault) -> Option<bool> {
        let (row, order) = self.rows.iter().find(|(row, _)| row.holds(&face))?;
        let off = row.numbers.into_iter().find(|own| !face.contains(own))?;
        let [a, b] = self.ends;
        let read = match fault {
            Fault::DropsShellMarks => return Some(false),
            Fault::SwapsMarksOfEnds if off == a => b,
            Fault::SwapsMarksOfEnds if off == b => a,
            _ => off,
        };
        Some(opposite(row, read, *order, fault))
    }
}

/// The mark of three points in a row that holds them.
fn mark_in(row: &Row, face: [u8; 3]) -> Option<bool> {
    let off = row.numbers.iter().position(|own| !face.contains(own))?;
    row.holds(&face).then(|| row.marks[off])
}

/// Each row of version 2 with its last byte read the other way: marks in the lower four bits, the region in the upper.
pub fn halves_swapped(patch: &Patch) -> Patch {
    let mut swapped = patch.clone();
    if patch.version == MARKED {
        for row in &mut swapped.rows {
            let marks = row.marks;
            row.marks = [0, 1, 2, 3].map(|bit| row.region >> bit & 1 == 1);
            row.region = (0..4).map(|bit| u8::from(marks[bit]) << bit).sum();
        }
    }
    swapped
}

/// The version that a rival writes.
pub fn version_after(patch: &Patch, fault: Fault) -> u8 {
    match fault {
        Fault::WritesVersion1 => PLAIN,
        _ => patch.version,
    }
}
