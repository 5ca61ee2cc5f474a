//! Kept rows: those that stand in the way of triangles and diagonals, and those that only fill.

use super::random::Random;
use super::scene::{any_point, Scene, A, B, FIRST};
use crate::model::limits::MAX_POINTS;

/// What the obstacles use.
#[derive(Clone, Copy, Debug, PartialEq, Eq)]
pub enum Obstacles {
    None,
    /// Some triangles of ring points.
    Triangles,
    /// Some faces of a or b with a diagonal.
    Diagonals,
    /// Faces of a or b with sides of the ring, which stand in nobody's way.
    Sides,
    /// Some of each.
    Mixed,
    /// A triangle or a diagonal of every ear, so that no triangulation is left.
    Ears,
}

pub const OBSTACLES: [Obstacles; 6] = [
    Obstacles::None,
    Obstacles::Triangles,
    Obstacles::Diagonals,
    Obstacles::Sides,
    Obstacles::Mixed,
    Obstacles::Ears,
];

/// Adds the obstacles to a scene that holds a ring of m points and nothing else.
pub fn add(scene: &mut Scene, random: &mut Random, m: usize, obstacles: Obstacles) {
    let count = random.within(1..=m);
    match obstacles {
        Obstacles::None => {}
        Obstacles::Ears => ears(scene, random, m),
        some => {
            for _ in 0..count {
                let face = target(random, m, some);
                obstruct(scene, random, face);
            }
        }
    }
}

fn target(random: &mut Random, m: usize, obstacles: Obstacles) -> [u8; 3] {
    let places: Vec<u8> = (0..m as u8).map(|place| FIRST + place).collect();
    let end = random.pick(&[A, B]);
    match obstacles {
        Obstacles::Triangles => {
            let three = random.some(3, &places);
            [three[0], three[1], three[2]]
        }
        Obstacles::Diagonals => {
            let two = random.some(2, &places);
            [end, two[0], two[1]]
        }
        Obstacles::Sides => {
            let place = random.below(m);
            [end, places[place], places[(place + 1) % m]]
        }
        _ => {
            let kinds = [Obstacles::Triangles, Obstacles::Diagonals, Obstacles::Sides];
            let kind = random.pick(&kinds);
            target(random, m, kind)
        }
    }
}

fn ears(scene: &mut Scene, random: &mut Random, m: usize) {
    for place in 0..m {
        let [before, tip, after] = [0, 1, 2].map(|step| FIRST + ((place + step) % m) as u8);
        let choices = [[before, tip, after], [A, before, after], [B, before, after]];
        let face = match m {
            3 => choices[0],
            _ => random.pick(&choices),
        };
        obstruct(scene, random, face);
    }
}

/// A row on the face, either way round, with a new point or one that is there; the face may be in
/// use both ways already.
fn obstruct(scene: &mut Scene, random: &mut Random, [p, q, r]: [u8; 3]) {
    for _ in 0..8 {
        let [p, q, r] = random.pick(&[[p, q, r], [p, r, q]]);
        let full = scene.points.len() == MAX_POINTS;
        let apex = match full || random.percent(20) {
            true => random.below(scene.points.len()) as u8,
            false => apex_over(scene, random, [p, q, r]),
        };
        let numbers = [apex, p, q, r];
        let holds_edge = numbers.contains(&A) && numbers.contains(&B);
        if !holds_edge && scene.try_push(random, numbers) {
            return;
        }
    }
}

/// A new point; over the face if the scene wants upright rows and one is soon found.
fn apex_over(scene: &mut Scene, random: &mut Random, [p, q, r]: [u8; 3]) -> u8 {
    let apex = scene.add_point(random);
    for _ in 0..20 {
        if !scene.upright || scene.d([apex, p, q, r]) > 0 {
            break;
        }
        scene.points[usize::from(apex)] = any_point(random);
    }
    apex
}

/// Adds rows that do not hold both ends until the table has `rows` of them.
/// `apart` keeps them off the edge and the first m ring points.
pub fn fill(scene: &mut Scene, random: &mut Random, rows: usize, apart: Option<usize>) {
    scene.widen(random, MAX_POINTS);
    let from = apart.map_or(0, |m| m + 2);
    while scene.rows.len() < rows {
        let pool: Vec<u8> = (from as u8..MAX_POINTS as u8).collect();
        let four = random.some(4, &pool);
        let [p, q, r, s] = [four[0], four[1], four[2], four[3]];
        let numbers = match scene.upright && scene.d([p, q, r, s]) < 0 {
            true => [p, q, s, r],
            false => [p, q, r, s],
        };
        if !(four.contains(&A) && four.contains(&B)) {
            scene.try_push(random, numbers);
        }
    }
}
