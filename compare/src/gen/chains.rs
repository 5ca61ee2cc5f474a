//! Edges whose links make one open chain: flat ones of 3 to 10, bent ones, too short and too long ones.

use super::obstacles::{add, fill, Obstacles, OBSTACLES};
use super::plates::{flat_places, outer, PLATES};
use super::random::Random;
use super::rings::edge_call;
use super::scene::{any_point, chain, Naming, Scene, A, B, FIRST};
use crate::model::answer;
use crate::model::limits::{LONGEST_RING, MAX_ROWS, SHORTEST_RING};
use crate::model::measure::determinant;
use crate::model::{Call, Point};

/// A flat chain of any shape with any obstacles.
pub fn flat(random: &mut Random) -> (Call, Option<u32>) {
    let m = random.within(SHORTEST_RING..=LONGEST_RING);
    let obstacles = random.pick(&OBSTACLES);
    let mut scene = bare_chain(random, m);
    add(&mut scene, random, m, obstacles);
    add_others(&mut scene, random, m);
    let blocked = obstacles == Obstacles::Ears;
    asked(random, scene, blocked.then_some(answer::NOT_ADMISSIBLE))
}

/// A flat chain with kept rows on its closing faces: in the direction of the new rows (15), in the other, in both.
pub fn closing(random: &mut Random) -> (Call, Option<u32>) {
    let m = random.within(SHORTEST_RING..=LONGEST_RING);
    let mut scene = bare_chain(random, m);
    let (first, last) = (FIRST, FIRST + m as u8 - 1);
    let along = [[A, first, last], [B, last, first]];
    let against = [[A, last, first], [B, first, last]];
    let shut = random.percent(50);
    if shut {
        let count = random.pick(&[1, 1, 1, 2]);
        for face in random.some(count, &along) {
            stand_on(&mut scene, random, face);
        }
    }
    let count = match shut {
        true => random.below(3),
        false => random.within(1..=2),
    };
    for face in random.some(count, &against) {
        stand_on(&mut scene, random, face);
    }
    if random.percent(30) {
        let rows = random.within(scene.rows.len()..=MAX_ROWS - m);
        fill(&mut scene, random, rows, Some(m));
    }
    asked(random, scene, shut.then_some(answer::NOT_ADMISSIBLE))
}

/// A table so full that the room for the new rows is just there, or just not; some chains are shut, some bent.
pub fn full_table(random: &mut Random) -> (Call, Option<u32>) {
    let m = random.within(SHORTEST_RING..=LONGEST_RING);
    let mut scene = bare_chain(random, m);
    let (blocked, bent) = (random.percent(25), random.percent(30));
    if blocked {
        add(&mut scene, random, m, Obstacles::Ears);
    }
    if bent {
        bend(&mut scene, random, m);
    }
    let most = MAX_ROWS + 3 - m;
    let near = [most - 1, most, most + 1, most + 1, most + 2];
    let rows = random.pick(&near).min(MAX_ROWS);
    fill(&mut scene, random, rows, Some(m));
    let meant = match (bent, rows > most, blocked) {
        (true, _, _) => Some(answer::NOT_FLAT),
        (false, true, _) => Some(answer::ROOM),
        (false, false, true) => Some(answer::NOT_ADMISSIBLE),
        (false, false, false) => None,
    };
    asked(random, scene, meant)
}

/// A chain of 3 to 10 that is not flat (19), by a little or by much.
pub fn bent(random: &mut Random) -> (Call, Option<u32>) {
    let m = random.within(SHORTEST_RING..=LONGEST_RING);
    let obstacles = random.pick(&OBSTACLES);
    let mut scene = bare_chain(random, m);
    bend(&mut scene, random, m);
    add(&mut scene, random, m, obstacles);
    match random.percent(30) {
        true => fill(&mut scene, random, MAX_ROWS, None),
        false => add_others(&mut scene, random, m),
    }
    asked(random, scene, Some(answer::NOT_FLAT))
}

/// A chain of 2, which is an edge in a single row, or of more than 10 points (13), flat or bent.
pub fn short_or_long(random: &mut Random) -> (Call, Option<u32>) {
    let m = match random.below(5) {
        0 | 1 => SHORTEST_RING - 1,
        2 | 3 => LONGEST_RING + 1,
        _ => random.within(LONGEST_RING + 1..=MAX_ROWS + 1),
    };
    let mut scene = bare_chain(random, m);
    if random.percent(50) {
        bend(&mut scene, random, m);
    }
    if random.percent(20) {
        fill(&mut scene, random, MAX_ROWS, None);
    }
    asked(random, scene, Some(answer::RING_LENGTH))
}

/// A call about the edge of the scene; the 3-2 flip refuses every chain with 11.
fn asked(random: &mut Random, scene: Scene, meant: Option<u32>) -> (Call, Option<u32>) {
    let finished = scene.finish(random, Naming::Any, 3);
    let call = edge_call(random, &finished);
    match call {
        Call::Flip { .. } => (call, Some(answer::OPEN)),
        _ => (call, meant),
    }
}

/// A block of `rows` rows with a flat chain of m round the returned ends; `blocked` leaves it no triangulation. All other
/// rows stand apart from the chain.
pub fn chain_in_table(
    random: &mut Random,
    m: usize,
    rows: usize,
    blocked: bool,
) -> (Vec<u8>, [usize; 2]) {
    let mut scene = bare_chain(random, m);
    if blocked {
        add(&mut scene, random, m, Obstacles::Ears);
    }
    fill(&mut scene, random, rows, Some(m));
    let finished = scene.finish(random, Naming::Any, 0);
    (finished.block(), finished.ends(random))
}

/// A flat chain of m points whose rows stand upright more often than not.
fn bare_chain(random: &mut Random, m: usize) -> Scene {
    let plate = random.pick(&PLATES);
    let mut places = flat_places(random, plate, m);
    if total(&places) < 0 && random.percent(90) {
        places[2..].reverse();
    }
    let mut scene = Scene::new(places);
    scene.upright = random.percent(60);
    let along: Vec<u8> = (FIRST..FIRST + m as u8).collect();
    scene.link(random, &chain(&along));
    scene
}

/// The total D of the rows round the edge.
fn total(places: &[Point]) -> i64 {
    let sides = places[2..].windows(2);
    sides
        .map(|side| determinant([places[0], places[1], side[0], side[1]]))
        .sum()
}

/// Moves the last point of the chain by one step, or other points anywhere, until the chain is not flat.
fn bend(scene: &mut Scene, random: &mut Random, m: usize) {
    let (flat, last) = (scene.points.clone(), m + 1);
    let near = random.percent(50);
    for tries in 0.. {
        scene.points.clone_from(&flat);
        match near && tries < 20 {
            true => {
                let coordinate = &mut scene.points[last][random.below(3)];
                *coordinate = match random.percent(50) {
                    true => coordinate.saturating_sub(1),
                    false => coordinate.saturating_add(1),
                };
            }
            false => {
                for place in [0, 1, last] {
                    scene.points[place] = any_point(random);
                }
            }
        }
        if determinant(outer(&scene.points[..m + 2])) != 0 {
            return;
        }
    }
}

/// Some rows anywhere.
fn add_others(scene: &mut Scene, random: &mut Random, m: usize) {
    let extra = random.pick(&[0, 0, 0, 1, 3, 10]);
    let rows = (scene.rows.len() + extra).min(MAX_ROWS - m);
    if extra > 0 {
        fill(scene, random, rows, None);
    }
}

/// A row with this directed face and a point of its own.
fn stand_on(scene: &mut Scene, random: &mut Random, [p, q, r]: [u8; 3]) {
    let apex = scene.add_point(random);
    scene.push(random, [apex, p, q, r]);
}
