//! Fine points of edges whose links do not all close: each by name, and whether it was seen.

use super::coincide;
use crate::model::limits::SHORTEST_RING;
use crate::model::measure::determinant;
use crate::model::mesh::{faces, turned, Face};
use crate::model::pieces::closing_faces;
use crate::model::removal::is_flat;
use crate::model::ring::{link, Link, Site};
use crate::model::{answer, Patch};
use crate::rivals::{removal, Fault};

type Points = Vec<(&'static str, bool)>;

/// A 3-2 flip where a removal would take the chain.
pub fn flip_points(patch: &Patch, site: Option<&Site>, number: u32) -> Points {
    let flat_three = |site: &Site| {
        let three = !site.closed && site.m() == SHORTEST_RING;
        three && is_flat(patch, site) && number == answer::OPEN
    };
    let seen = site.is_some_and(flat_three);
    vec![("3-2 flip, 11: a flat chain of 3", seen)]
}

/// What stands beside the first chain where a removal is refused with 11.
pub fn open_points(patch: &Patch, ends: [usize; 2], number: u32) -> Points {
    if number != answer::OPEN {
        return vec![];
    }
    let counts = chains_and_circles(patch, ends);
    vec![
        ("11: two chains", counts == (2, 0)),
        ("11: a chain and a circle", counts == (1, 1)),
        ("11: a chain and two circles", counts == (1, 2)),
    ]
}

/// The numbers and places of a, b, v1 and vm in a removal at one chain.
pub fn outer_points(patch: &Patch, site: &Site, number: u32) -> Points {
    let done = number == answer::DONE;
    let bent = number == answer::NOT_FLAT;
    let (v1, vm) = (site.v(1), site.v(site.m()));
    let smallest = site.ring.iter().min() == Some(&v1);
    let outer = [site.a, site.b, v1, vm];
    let together = coincide(patch, &outer);
    let d = determinant(outer.map(|number| patch.points[usize::from(number)]));
    let none_better = number == answer::NONE_BETTER;
    let without_room = Err(answer::ROOM);
    vec![
        ("chain, 0: v1 is the smallest", done && smallest),
        ("chain, 0: v1 is not the smallest", done && !smallest),
        ("chain, 0: v1 is larger than vm", done && v1 > vm),
        ("chain, 0: outer places coincide", done && together),
        ("chain, 16: outer places coincide", none_better && together),
        ("chain, 19: D is 1 to 128 in size", bent && d.abs() <= 128),
        (
            "chain, 19 and 14 at once",
            bent && by_rival(patch, site, Fault::TestsFlatAfterRoom) == without_room,
        ),
    ]
}

/// Kept rows on the closing faces in a removal at one chain: along, as the new rows use them, and against.
pub fn closing_points(patch: &Patch, site: &Site, number: u32) -> Points {
    let used = site.kept.iter().flat_map(|row| faces(row.numbers));
    let used: Vec<Face> = used.map(turned).collect();
    let along = closing_faces(site).map(|face| used.contains(&face));
    let against = closing_faces(site).map(|[p, q, r]| used.contains(&turned([p, r, q])));
    let both_ways = (0..2).any(|end| along[end] && against[end]);
    let done = number == answer::DONE;
    let blocked = Err(answer::NOT_ADMISSIBLE);
    let shut = number == answer::NOT_ADMISSIBLE
        && by_rival(patch, site, Fault::ForgetsClosingFaces) != blocked;
    vec![
        ("chain, 0: face of a used against", done && against[0]),
        ("chain, 0: face of b used against", done && against[1]),
        ("chain, 0: both used against", done && against == [true; 2]),
        ("chain, 15 by a's face", shut && along == [true, false]),
        ("chain, 15 by b's face", shut && along == [false, true]),
        ("chain, 15 by both faces", shut && along == [true; 2]),
        ("chain, 15 by a face used both ways", shut && both_ways),
    ]
}

/// What a wrong kernel makes of the edge.
fn by_rival(patch: &Patch, site: &Site, fault: Fault) -> Result<Patch, u32> {
    removal(patch, [site.a, site.b].map(usize::from), fault)
}

/// How many chains and circles the links of a held edge make.
fn chains_and_circles(patch: &Patch, ends: [usize; 2]) -> (usize, usize) {
    let [a, b] = [ends[0].min(ends[1]) as u8, ends[0].max(ends[1]) as u8];
    let held = patch.rows.iter().filter(|row| row.holds(&[a, b]));
    let mut links: Vec<Link> = held.map(|row| link(row.numbers, a, b)).collect();
    let (mut chains, mut circles) = (0, 0);
    while let Some(any) = links.first().copied() {
        let entered = |at: u8| links.iter().any(|link| link.w == at);
        let start = links.iter().find(|link| !entered(link.v)).copied();
        match start {
            Some(_) => chains += 1,
            None => circles += 1,
        }
        let mut at = start.unwrap_or(any).v;
        while let Some(next) = links.iter().position(|link| link.v == at) {
            at = links.swap_remove(next).w;
        }
    }
    (chains, circles)
}
