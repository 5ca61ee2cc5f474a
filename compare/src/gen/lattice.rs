//! Pieces of a mesh of cubes, six rows to a cube, with its points a little out of place: of one material, or of two that meet
//! in a plane.

use super::random::Random;
use super::rings::call_at;
use super::scene::{any_out, Naming, Scene};
use crate::model::mesh::{faces, Numbers};
use crate::model::{Call, Row};

/// The six orders of the three axes, and whether each is even.
pub const AXIS_ORDERS: [([usize; 3], bool); 6] = [
    ([0, 1, 2], true),
    ([1, 2, 0], true),
    ([2, 0, 1], true),
    ([0, 2, 1], false),
    ([1, 0, 2], false),
    ([2, 1, 0], false),
];

/// An edge, a face or the summary of such a piece.
pub fn lattice(random: &mut Random) -> (Call, Option<u32>) {
    let size = random.pick(&[[2, 2, 2], [3, 2, 2], [3, 3, 2], [3, 3, 3]]);
    let mut scene = Scene::new(points(random, size));
    let [one, other] = [0; 2].map(|_| random.byte());
    let rows = rows(size);
    let two_layers = size[0] == 3;
    let joint = match two_layers && random.percent(50) {
        true => rows.len() / 2,
        false => rows.len(),
    };
    for (index, numbers) in rows.into_iter().enumerate() {
        let region = match index < joint {
            true => one,
            false => other,
        };
        if random.percent(97) {
            scene.rows.push(Row::plain(numbers, region));
        }
    }
    if scene.rows.is_empty() {
        scene.push(random, [0, 1, 2, 3]);
    }
    let finished = scene.finish(random, Naming::Any, 2);
    let row = finished.patch.rows[random.below(finished.patch.rows.len())];
    let block = finished.block();
    let call = match random.percent(35) {
        true => Call::Flip {
            block,
            numbers: random.pick(&faces(row.numbers)).map(usize::from).to_vec(),
            out: any_out(random),
        },
        false => {
            let ends = random.some(2, &row.numbers);
            call_at(random, block, [ends[0], ends[1]].map(usize::from))
        }
    };
    (call, None)
}

fn points(random: &mut Random, [x_count, y_count, z_count]: [usize; 3]) -> Vec<[u8; 3]> {
    let step = random.within(4..=100);
    let jitter = random.within(0..=step / 2);
    let mut points = vec![];
    for x in 0..x_count {
        for y in 0..y_count {
            for z in 0..z_count {
                points.push([x, y, z].map(|c| (c * step + random.within(0..=jitter)) as u8));
            }
        }
    }
    points
}

/// Six rows to a cube, layer by layer along x: a corner, three steps to the opposite corner, in each order of the steps.
fn rows(size: [usize; 3]) -> Vec<Numbers> {
    let number = |[x, y, z]: [usize; 3]| ((x * size[1] + y) * size[2] + z) as u8;
    let mut rows = vec![];
    for x in 0..size[0] - 1 {
        for y in 0..size[1] - 1 {
            for z in 0..size[2] - 1 {
                for (path, even) in AXIS_ORDERS {
                    let mut corner = [x, y, z];
                    let mut walk = vec![number(corner)];
                    for direction in path {
                        corner[direction] += 1;
                        walk.push(number(corner));
                    }
                    rows.push(match even {
                        true => [walk[1], walk[0], walk[2], walk[3]],
                        false => [walk[0], walk[1], walk[2], walk[3]],
                    });
                }
            }
        }
    }
    rows
}
