//! 2-3 flips of every answer.

use super::obstacles::fill;
use super::random::Random;
use super::scene::{any_out, any_point, Finished, Naming, Scene, A, B, FIRST};
use crate::model::answer;
use crate::model::limits::MAX_ROWS;
use crate::model::Call;

const U: u8 = FIRST;
const V: u8 = FIRST + 1;
const W: u8 = FIRST + 2;

/// The apexes are A and B, the face is U, V, W.
pub fn face(random: &mut Random) -> (Call, Option<u32>) {
    let make = random.pick(&[
        bad_number, not_held, one_row, one_apex, room, used, free, free,
    ]);
    make(random)
}

/// Two rows on the face, both of one region.
fn two_rows(random: &mut Random) -> Scene {
    let mut scene = Scene::new((0..8).map(|_| any_point(random)).collect());
    scene.push(random, [A, U, V, W]);
    scene.push(random, [B, U, W, V]);
    scene.rows[1].region = scene.rows[0].region;
    scene
}

/// Asks for the flip of these three points, in any order.
fn asked(random: &mut Random, finished: &Finished, face: [u8; 3]) -> Call {
    let mut face = face.map(|point| finished.number(point));
    random.shuffle(&mut face);
    Call::Flip {
        block: finished.block(),
        numbers: face.to_vec(),
        out: any_out(random),
    }
}

fn finished(random: &mut Random, mut scene: Scene, most: usize) -> Finished {
    if random.percent(40) {
        let apart = random.percent(50).then_some(3);
        let room = most.saturating_sub(scene.rows.len());
        let rows = scene.rows.len() + random.within(0..=room);
        fill(&mut scene, random, rows, apart);
    }
    scene.finish(random, Naming::Any, 3)
}

fn bad_number(random: &mut Random) -> (Call, Option<u32>) {
    let scene = two_rows(random);
    let finished = finished(random, scene, MAX_ROWS);
    let count = finished.patch.points.len();
    let mut face = [U, V, W].map(|point| finished.number(point));
    let place = random.below(3);
    face[place] = match random.below(6) {
        0 => face[(place + 1) % 3],
        1 => count,
        2 => random.within(count..=255),
        3 => usize::MAX - random.below(2),
        4 => face[place] + 256,
        _ => face[place] + (1 << 32),
    };
    let call = Call::Flip {
        block: finished.block(),
        numbers: face.to_vec(),
        out: any_out(random),
    };
    (call, Some(answer::BAD_NUMBER))
}

/// Three good numbers that no row holds together.
fn not_held(random: &mut Random) -> (Call, Option<u32>) {
    let scene = two_rows(random);
    let finished = scene.finish(random, Naming::Any, 3);
    let faces = [[A, B, U], [A, B, W], [U, V, 7], [5, 6, 7], [A, V, 6]];
    let face = random.pick(&faces);
    (asked(random, &finished, face), Some(answer::NOT_HELD))
}

fn one_row(random: &mut Random) -> (Call, Option<u32>) {
    let scene = two_rows(random);
    let finished = scene.finish(random, Naming::Any, 3);
    let outer = [[A, U, V], [A, V, W], [B, W, U], [B, U, V]];
    let face = random.pick(&outer);
    (asked(random, &finished, face), Some(answer::OPEN))
}

/// 18, also in a full table.
fn one_apex(random: &mut Random) -> (Call, Option<u32>) {
    let mut scene = two_rows(random);
    scene.rows[1].numbers = [A, U, W, V];
    if random.percent(30) {
        fill(&mut scene, random, MAX_ROWS, None);
    }
    let finished = finished(random, scene, MAX_ROWS);
    (asked(random, &finished, [U, V, W]), Some(answer::ONE_APEX))
}

/// 60 rows get 14, also where the mesh rule would break; 59 pass.
pub fn room(random: &mut Random) -> (Call, Option<u32>) {
    let mut scene = two_rows(random);
    let breaks = random.percent(40);
    if breaks {
        scene.push(random, [A, B, V, 6]);
    }
    let rows = random.within(MAX_ROWS - 1..=MAX_ROWS);
    fill(&mut scene, random, rows, Some(3));
    let finished = scene.finish(random, Naming::Any, 0);
    let number = match (rows == MAX_ROWS, breaks) {
        (true, _) => answer::ROOM,
        (false, true) => answer::NOT_ADMISSIBLE,
        (false, false) => answer::DONE,
    };
    (asked(random, &finished, [U, V, W]), Some(number))
}

/// A kept row uses a face of both apexes with a point of the face, either way round.
fn used(random: &mut Random) -> (Call, Option<u32>) {
    let mut scene = two_rows(random);
    let corner = random.pick(&[U, V, W]);
    let row = random.pick(&[[A, B, corner, 6], [B, A, corner, 6]]);
    scene.push(random, row);
    let finished = finished(random, scene, MAX_ROWS - 1);
    let number = answer::NOT_ADMISSIBLE;
    (asked(random, &finished, [U, V, W]), Some(number))
}

/// Nothing in the way, though a kept row may hold both apexes.
fn free(random: &mut Random) -> (Call, Option<u32>) {
    let mut scene = two_rows(random);
    if random.percent(40) {
        let row = random.pick(&[[A, B, 5, 6], [B, A, 5, 6]]);
        scene.push(random, row);
    }
    if random.percent(40) {
        let rows = random.within(scene.rows.len()..=MAX_ROWS - 1);
        fill(&mut scene, random, rows, Some(5));
    }
    let finished = scene.finish(random, Naming::Any, 3);
    (asked(random, &finished, [U, V, W]), Some(answer::DONE))
}
