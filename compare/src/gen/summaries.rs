//! Summaries, opening and sealing of good blocks.

use super::obstacles::fill;
use super::random::Random;
use super::scene::{any_out, any_point, Finished, Naming, Scene};
use super::shapes::sheared;
use crate::model::answer;
use crate::model::call::SUMMARY_NUMBERS;
use crate::model::limits::{FIELD_BYTES, MAX_POINTS, MAX_ROWS};
use crate::model::measure::determinant;
use crate::model::{Call, Point};

/// A patch of any rows, of one sign only, or of none.
pub fn any_patch(random: &mut Random) -> Finished {
    let mut scene = Scene::new(any_points(random));
    let rows = random.pick(&[0, 1, 1, 2, 3, 10, 40, MAX_ROWS]);
    fill(&mut scene, random, rows, None);
    let sign = random.pick(&[None, None, None, Some(-1), Some(0), Some(1)]);
    if let Some(sign) = sign {
        let points = scene.points.clone();
        let corners = |numbers: [u8; 4]| numbers.map(|n| points[usize::from(n)]);
        scene
            .rows
            .retain(|row| determinant(corners(row.numbers)).signum() == sign);
    }
    scene.finish(random, Naming::Any, 0)
}

/// In a box of any size, at the far end, enlarged to the whole, or sheared: D is small then and S large.
fn any_points(random: &mut Random) -> Vec<Point> {
    let size = random.pick(&[0, 1, 1, 1, 2, 3, 8, 128, 255, 255]);
    let in_box = |point: Point| point.map(|c| (usize::from(c) % (size + 1)) as u8);
    let drawn = (0..MAX_POINTS).map(|_| in_box(any_point(random)));
    let points: Vec<Point> = drawn.collect();
    let scale = (usize::from(u8::MAX) / size.max(1)) as u8;
    match random.below(4) {
        0 => sheared(random, &points),
        1 => points.iter().map(|p| p.map(|c| u8::MAX - c)).collect(),
        2 => points.iter().map(|p| p.map(|c| scale * c)).collect(),
        _ => points,
    }
}

pub fn summary(random: &mut Random) -> (Call, Option<u32>) {
    let block = any_patch(random).block();
    let call = match random.percent(85) {
        true => Call::Summary {
            block,
            out: vec![random.number(); SUMMARY_NUMBERS],
        },
        false => Call::Open { block },
    };
    (call, Some(answer::DONE))
}

pub fn sealing(random: &mut Random) -> (Call, Option<u32>) {
    let fields = any_patch(random).block()[..FIELD_BYTES].to_vec();
    let out = any_out(random);
    (Call::Seal { fields, out }, Some(answer::DONE))
}
