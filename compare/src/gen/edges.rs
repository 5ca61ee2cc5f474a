//! Edges with neither one closed ring of 3 to 10 nor one chain: answers 9 to 13.

use super::obstacles::fill;
use super::random::Random;
use super::rings::{call_at, edge_call};
use super::scene::{any_out, chain, circle, Naming, Scene, FIRST};
use super::shapes::{places, SHAPES};
use crate::model::answer;
use crate::model::limits::{LONGEST_RING, MAX_ROWS, SHORTEST_RING};
use crate::model::Call;

/// The points FIRST + from up to FIRST + to - 1.
fn span(from: usize, to: usize) -> Vec<u8> {
    (from..to).map(|place| FIRST + place as u8).collect()
}

/// A scene with these links and perhaps other rows, finished and asked about.
fn with_links(random: &mut Random, points: usize, links: &[(u8, u8)]) -> Call {
    let shape = random.pick(&SHAPES);
    let mut scene = Scene::new(places(random, shape, points));
    scene.link(random, links);
    if random.percent(30) {
        let room = MAX_ROWS - scene.rows.len();
        let rows = scene.rows.len() + random.within(0..=room);
        fill(&mut scene, random, rows, None);
    }
    let finished = scene.finish(random, Naming::Any, 4);
    edge_call(random, &finished)
}

/// Two chains (11), a circle beside a chain (11), several circles (12).
pub fn open_or_many(random: &mut Random) -> (Call, Option<u32>) {
    let first = random.within(2..=11);
    let second = first + random.within(2..=11);
    let third = second + random.within(2..=5);
    let (links, number) = match random.below(4) {
        0 => {
            let two = [chain(&span(0, first)), chain(&span(first, second))];
            (two.concat(), answer::OPEN)
        }
        1 => {
            let both = [circle(&span(0, first)), chain(&span(first, second))];
            (both.concat(), answer::OPEN)
        }
        2 => {
            let two = [circle(&span(0, first)), circle(&span(first, second))];
            (two.concat(), answer::CIRCLES)
        }
        _ => {
            let two = [circle(&span(0, first)), circle(&span(first, second))];
            let last = match random.percent(50) {
                true => (circle(&span(second, third)), answer::CIRCLES),
                false => (chain(&span(second, third)), answer::OPEN),
            };
            ([two.concat(), last.0].concat(), last.1)
        }
    };
    (with_links(random, third, &links), Some(number))
}

/// One circle of 2 or of more than 10 points (13); for the 3-2 flip any but 3.
pub fn short_or_long(random: &mut Random) -> (Call, Option<u32>) {
    let m = match random.below(4) {
        0 => SHORTEST_RING - 1,
        1 | 2 => LONGEST_RING + 1,
        _ => random.within(LONGEST_RING + 1..=MAX_ROWS),
    };
    let call = with_links(random, m, &circle(&span(0, m)));
    (call, Some(answer::RING_LENGTH))
}

/// Ends that are equal or not numbers of points (9), also when the edge would be there in 8 bits.
pub fn bad_ends(random: &mut Random) -> (Call, Option<u32>) {
    let m = random.within(2..=12);
    let shape = random.pick(&SHAPES);
    let mut scene = Scene::new(places(random, shape, m));
    let links = circle(&span(0, m));
    scene.link(random, &links);
    let finished = scene.finish(random, Naming::Any, 8);
    let count = finished.patch.points.len();
    let [x, y] = finished.ends(random);
    let beyond = random.within(count..=255);
    let huge = random.pick(&[256, 1 << 16, 1 << 32, 1 << 63]);
    let ends = match random.below(8) {
        0 => [x, x],
        1 => [x, count],
        2 => [beyond, y],
        3 => [beyond, beyond],
        4 => [usize::MAX, y],
        5 => [x, usize::MAX - random.below(300)],
        6 => [x + huge, y],
        _ => [x, y + huge],
    };
    let call = call_at(random, finished.block(), ends);
    (call, Some(answer::BAD_NUMBER))
}

/// Good ends that no row holds together (10); the empty table too.
pub fn not_held(random: &mut Random) -> (Call, Option<u32>) {
    let mut scene = Scene::new(places(random, SHAPES[0], 5));
    let rows = random.pick(&[0, 0, 1, 5, 30, MAX_ROWS]);
    fill(&mut scene, random, rows, None);
    let finished = scene.finish(random, Naming::Any, 0);
    if random.percent(30) {
        let call = Call::Flip {
            numbers: finished.ends(random).to_vec(),
            out: any_out(random),
            block: finished.block(),
        };
        return (call, Some(answer::NOT_HELD));
    }
    (edge_call(random, &finished), Some(answer::NOT_HELD))
}
