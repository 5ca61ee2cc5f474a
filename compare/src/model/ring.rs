//! The links round an edge, and the ring or the chain they make: answers 9 to 12.

use super::answer;
use super::block::Patch;
use super::mesh::{a_marked_face_holds, even_arrangements, new_row, region_of, Numbers, Row};

/// "Each row holding both is rearranged evenly as (a,b,v,w) and gives a link v to w."
#[derive(Clone, Copy, Debug, PartialEq, Eq)]
pub struct Link {
    pub v: u8,
    pub w: u8,
}

/// An edge whose rows make one ring or one open chain.
#[derive(Clone, Debug)]
pub struct Site {
    /// "The edge's two ends are put in order, a < b".
    pub a: u8,
    pub b: u8,
    /// v1 to vm.
    pub ring: Vec<u8>,
    /// A ring, and no chain.
    pub closed: bool,
    /// The rows that hold both ends, in the table's order.
    pub removed: Vec<Row>,
    /// All other rows, in the table's order.
    pub kept: Vec<Row>,
    /// "every new row has the region of all the old ones"; none where they have more than one.
    pub region: Option<u8>,
}

impl Site {
    /// m, the length of the ring or the chain in points.
    pub fn m(&self) -> usize {
        self.ring.len()
    }

    /// vi, with i counted from 1.
    pub fn v(&self, i: usize) -> u8 {
        self.ring[i - 1]
    }

    /// "The new block has the kept rows in order. Then come the new rows"; "points stay", and so does the version. The site
    /// has one region.
    pub fn patch_after(&self, patch: &Patch, new: &[Numbers]) -> Patch {
        let region = self.region.expect("the removed rows have one region");
        let row = |numbers: &Numbers| new_row(*numbers, region, &self.removed, &self.kept);
        Patch {
            version: patch.version,
            points: patch.points.clone(),
            rows: self
                .kept
                .iter()
                .copied()
                .chain(new.iter().map(row))
                .collect(),
        }
    }

    /// Would a marked face go? Those with a and b do, of a chain its two end faces with them.
    pub fn a_mark_goes(&self) -> bool {
        a_marked_face_holds(&self.removed, &[self.a, self.b])
    }
}

/// The site of an edge, or the first of the answers 9 to 12.
pub fn site(patch: &Patch, end: usize, other_end: usize) -> Result<Site, u32> {
    let count = patch.points.len();
    if end >= count || other_end >= count || end == other_end {
        return Err(answer::BAD_NUMBER);
    }
    let (a, b) = (end.min(other_end) as u8, end.max(other_end) as u8);
    let (removed, kept): (Vec<Row>, Vec<Row>) =
        patch.rows.iter().partition(|row| row.holds(&[a, b]));
    if removed.is_empty() {
        return Err(answer::NOT_HELD);
    }
    let links: Vec<Link> = removed.iter().map(|row| link(row.numbers, a, b)).collect();
    let closed = links.iter().all(|first| walk(&links, *first).closed);
    let ring = match closed {
        true => ring_of(&links)?,
        false => chain_of(&links)?,
    };
    Ok(Site {
        a,
        b,
        ring,
        closed,
        region: region_of(&removed),
        removed,
        kept,
    })
}

/// The link of a row that holds both ends.
pub fn link(numbers: Numbers, a: u8, b: u8) -> Link {
    let arranged = even_arrangements(numbers).find(|n| n[0] == a && n[1] == b);
    let [_, _, v, w] = arranged.expect("the row holds both ends");
    Link { v, w }
}

/// "The ring starts at its smallest point number, v1, and follows the links to vm": every link closes.
fn ring_of(links: &[Link]) -> Result<Vec<u8>, u32> {
    let first = links.iter().min_by_key(|link| link.v).expect("some link");
    let ring = walk(links, *first).points;
    match ring.len() == links.len() {
        true => Ok(ring),
        false => Err(answer::CIRCLES),
    }
}

/// "The chain keeps its own start and end": the one walk from a point that no link enters takes every link.
fn chain_of(links: &[Link]) -> Result<Vec<u8>, u32> {
    let entered = |point: u8| links.iter().any(|link| link.w == point);
    let starts: Vec<&Link> = links.iter().filter(|link| !entered(link.v)).collect();
    let [first] = starts[..] else {
        return Err(answer::OPEN);
    };
    let chain = walk(links, *first).points;
    match chain.len() == links.len() + 1 {
        true => Ok(chain),
        false => Err(answer::OPEN),
    }
}

/// The points that a walk meets, and whether it came back to its start.
struct Walk {
    points: Vec<u8>,
    closed: bool,
}

/// "The walk round the edge ends at the first missing link, or when it is back at its start."
/// In a table that keeps the mesh rule a point starts at most one link and ends at most one, so a
/// walk meets no point twice before its start.
fn walk(links: &[Link], first: Link) -> Walk {
    let mut points = vec![first.v];
    let mut at = first.w;
    while at != first.v {
        points.push(at);
        let Some(link) = links.iter().find(|link| link.v == at) else {
            return Walk {
                points,
                closed: false,
            };
        };
        at = link.w;
    }
    Walk {
        points,
        closed: true,
    }
}
