//! Edges with one closed ring of 3 to 10.

use super::obstacles::{add, fill, Obstacles, OBSTACLES};
use super::random::Random;
use super::scene::{any_out, circle, Finished, Naming, Scene, FIRST};
use super::shapes::{places, Shape, SHAPES};
use crate::model::answer;
use crate::model::call::PAGE_NUMBERS;
use crate::model::limits::{LONGEST_RING, MAX_ROWS, SHORTEST_RING};
use crate::model::measure::determinant;
use crate::model::Call;

/// A ring of any shape with any obstacles.
pub fn ring(random: &mut Random) -> (Call, Option<u32>) {
    let m = random.within(SHORTEST_RING..=LONGEST_RING);
    let obstacles = random.pick(&OBSTACLES);
    let mut scene = bare_ring(random, m);
    add(&mut scene, random, m, obstacles);
    let extra = random.pick(&[0, 0, 0, 1, 3, 10]);
    let rows = (scene.rows.len() + extra).min(MAX_ROWS - m);
    if extra > 0 {
        fill(&mut scene, random, rows, None);
    }
    let finished = scene.finish(random, Naming::Any, 3);
    let meant = (obstacles == Obstacles::Ears).then_some(answer::NOT_ADMISSIBLE);
    let call = edge_call(random, &finished);
    match call {
        Call::Flip { .. } if m != SHORTEST_RING => (call, Some(answer::RING_LENGTH)),
        _ => (call, meant),
    }
}

/// A table so full that the room for the new rows is just there, or just not.
pub fn full_table(random: &mut Random) -> (Call, Option<u32>) {
    let m = random.within(SHORTEST_RING..=LONGEST_RING);
    let mut scene = bare_ring(random, m);
    let blocked = random.percent(25);
    if blocked {
        add(&mut scene, random, m, Obstacles::Ears);
    }
    let most = MAX_ROWS + 4 - m;
    let rows = random.within(most - 1..=most + 2).min(MAX_ROWS);
    let apart = random.percent(80).then_some(m);
    fill(&mut scene, random, rows, apart);
    let finished = scene.finish(random, Naming::Any, 0);
    let call = edge_call(random, &finished);
    match call {
        Call::Flip { .. } if m != SHORTEST_RING => (call, Some(answer::RING_LENGTH)),
        Call::Flip { .. } => (call, blocked.then_some(answer::NOT_ADMISSIBLE)),
        _ if rows > most => (call, Some(answer::ROOM)),
        _ => (call, blocked.then_some(answer::NOT_ADMISSIBLE)),
    }
}

/// 3-2 flips, with or without a row on the triangle, in a full table too.
pub fn three(random: &mut Random) -> (Call, Option<u32>) {
    let m = SHORTEST_RING;
    let mut scene = bare_ring(random, m);
    let blocked = random.percent(40);
    if blocked {
        add(&mut scene, random, m, Obstacles::Ears);
    }
    if random.percent(50) {
        let rows = random.pick(&[10, 40, MAX_ROWS - 1, MAX_ROWS]);
        fill(&mut scene, random, rows, Some(m));
    }
    let finished = scene.finish(random, Naming::Any, 3);
    let call = Call::Flip {
        block: finished.block(),
        numbers: finished.ends(random).to_vec(),
        out: any_out(random),
    };
    let number = match blocked {
        true => answer::NOT_ADMISSIBLE,
        false => answer::DONE,
    };
    (call, Some(number))
}

/// A ring of m rows that stand upright more often than not.
fn bare_ring(random: &mut Random, m: usize) -> Scene {
    let shape = random.pick(&SHAPES);
    let mut places = places(random, shape, m);
    if total(&places) < 0 && random.percent(90) {
        places[2..].reverse();
    }
    let mut scene = Scene::new(places);
    scene.upright = random.percent(60);
    let around: Vec<u8> = (FIRST..FIRST + m as u8).collect();
    scene.link(random, &circle(&around));
    scene
}

/// A block of `rows` upright rows where they can be, with a ring of m round the returned ends; `blocked` leaves it no
/// triangulation. All other rows stand apart from the ring.
pub fn ring_in_table(
    random: &mut Random,
    m: usize,
    rows: usize,
    blocked: bool,
) -> (Vec<u8>, [usize; 2]) {
    let shape = random.pick(&[Shape::Wheel, Shape::Leaning]);
    let mut scene = Scene::new(places(random, shape, m));
    scene.upright = true;
    let around: Vec<u8> = (FIRST..FIRST + m as u8).collect();
    scene.link(random, &circle(&around));
    if blocked {
        add(&mut scene, random, m, Obstacles::Ears);
    }
    fill(&mut scene, random, rows, Some(m));
    let finished = scene.finish(random, Naming::Any, 0);
    (finished.block(), finished.ends(random))
}

/// The total D of the rows round the edge.
fn total(places: &[[u8; 3]]) -> i64 {
    let ring = &places[2..];
    (0..ring.len())
        .map(|step| {
            let next = ring[(step + 1) % ring.len()];
            determinant([places[0], places[1], ring[step], next])
        })
        .sum()
}

/// A call about the edge of a scene.
pub fn edge_call(random: &mut Random, finished: &Finished) -> Call {
    let ends = finished.ends(random);
    call_at(random, finished.block(), ends)
}

/// Mostly a removal; sometimes its page row, its printout or a 3-2 flip.
pub fn call_at(random: &mut Random, block: Vec<u8>, ends: [usize; 2]) -> Call {
    let as_bytes = ends.map(u8::try_from);
    match (random.below(10), as_bytes) {
        (0, _) => Call::Flip {
            block,
            numbers: ends.to_vec(),
            out: any_out(random),
        },
        (1 | 2, _) => Call::Page {
            block,
            ends,
            row: vec![f64::from(random.byte()); PAGE_NUMBERS],
        },
        (3 | 4, [Ok(a), Ok(b)]) => Call::Printout {
            input: [&block[..], &[a, b]].concat(),
        },
        _ => Call::Remove {
            block,
            ends,
            out: any_out(random),
        },
    }
}
