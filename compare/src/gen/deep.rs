//! Inputs on which the calls go deepest into the stack: full tables, the longest rings and chains, and the fans among their
//! triangulations, which are expanded piece within piece.

use super::chains::chain_in_table;
use super::obstacles::fill;
use super::random::Random;
use super::rings::ring_in_table;
use super::scene::{chain, circle, Naming, Scene, A, B, FIRST};
use super::shapes::{from_middle, CIRCLE};
use super::{cases, faces, shell_marked};
use crate::model::call::calls_on;
use crate::model::limits::{LONGEST_RING, MAX_ROWS, SHORTEST_RING};
use crate::model::{Call, Point};

const SEED: u64 = 1;
/// Generated cases, and sites of each kind.
const CASES: u64 = 3000;
const DRAWN: usize = 64;

/// A block and three numbers: the first two are the ends of an edge, all three may be a face.
type Site = (Vec<u8>, [usize; 3]);

/// Generated calls, and every call on each deep site and on those of the generated calls.
pub fn deep_calls() -> impl Iterator<Item = Call> {
    let generated = cases(SEED, CASES).flat_map(|case| {
        let on_site = site_of(&case.call).map(|(block, numbers)| calls_on(&block, numbers));
        let on_site = on_site.into_iter().flatten();
        std::iter::once(case.call).chain(on_site)
    });
    let deep = deep_sites().into_iter();
    generated.chain(deep.flat_map(|(block, numbers)| calls_on(&block, numbers)))
}

fn site_of(call: &Call) -> Option<Site> {
    match call {
        Call::Remove { block, ends, .. } | Call::Page { block, ends, .. } => {
            Some((block.clone(), with_third(*ends)))
        }
        Call::Flip { block, numbers, .. } => {
            let numbers = match numbers[..] {
                [a, b] => with_third([a, b]),
                [u, v, w] => [u, v, w],
                _ => return None,
            };
            Some((block.clone(), numbers))
        }
        _ => None,
    }
}

fn with_third([a, b]: [usize; 2]) -> [usize; 3] {
    [a, b, 0]
}

/// Edges and faces in tables as full as their removal or flip allows, and in full ones: each in version 1, and in version 2 with
/// marks on the shell.
pub fn deep_sites() -> Vec<Site> {
    let random = &mut Random::of_case(SEED, 0);
    let mut edges = vec![];
    let mut sites = vec![];
    for _ in 0..DRAWN {
        for blocked in [false, true] {
            edges.push(ring_in_table(random, LONGEST_RING, RING_ROWS, blocked));
            edges.push(chain_in_table(random, LONGEST_RING, CHAIN_ROWS, blocked));
            edges.push(ring_in_table(random, SHORTEST_RING, MAX_ROWS, blocked));
        }
        sites.extend(site_of(&faces::room(random).0));
    }
    for at_first in [true, false] {
        edges.push(fan(random, true, at_first));
        edges.push(fan(random, false, at_first));
    }
    let marked_faces: Vec<Site> = sites
        .iter()
        .map(|(block, face)| (shell_marked(random, block, face), *face))
        .collect();
    sites.extend(marked_faces);
    for (block, ends) in edges {
        let marked = shell_marked(random, &block, &ends);
        sites.extend([block, marked].map(|block| (block, with_third(ends))));
    }
    sites
}

/// The most rows with which there is room for the new rows of the longest ring, and of the longest chain.
const RING_ROWS: usize = MAX_ROWS + 4 - LONGEST_RING;
const CHAIN_ROWS: usize = MAX_ROWS + 3 - LONGEST_RING;

/// The longest ring or flat chain whose best triangulation is the fan at its first point, which has the pieces (1,10), (1,9),
/// (1,8), ... one within the other, or that at its last point: (1,10), (2,10), (3,10), ...
fn fan(random: &mut Random, closed: bool, at_first: bool) -> (Vec<u8>, [usize; 2]) {
    let mut scene = Scene::new(fan_places(at_first));
    scene.upright = true;
    let around: Vec<u8> = (FIRST..FIRST + LONGEST_RING as u8).collect();
    let (links, rows) = match closed {
        true => (circle(&around), RING_ROWS),
        false => (chain(&around), CHAIN_ROWS),
    };
    scene.link(random, &links);
    fill(&mut scene, random, rows, Some(LONGEST_RING));
    let finished = scene.finish(random, Naming::Ascending, 0);
    (finished.block(), [A, B].map(|end| finished.number(end)))
}

/// All points but one on an arc round that one; the edge halfway to the end of the arc, where the chain is flat.
fn fan_places(at_first: bool) -> Vec<Point> {
    let radius = 60;
    let on_arc =
        |(cosine, sine): &(i64, i64)| from_middle(radius * cosine / 1000, radius * sine / 1000, 0);
    let mut ring = vec![from_middle(0, 0, 0)];
    ring.extend(CIRCLE[2..=LONGEST_RING].iter().map(on_arc));
    let [x, y] = [-radius / 2, 0];
    let mut ends = [from_middle(x, y, radius), from_middle(x, y, -radius)];
    if !at_first {
        ring.reverse();
        ends.reverse();
    }
    [&ends[..], &ring].concat()
}
