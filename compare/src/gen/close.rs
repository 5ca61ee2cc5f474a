//! Rings and worst rows that turn on how two fractions compare, turned, enlarged and shifted.

use super::lattice::AXIS_ORDERS;
use super::obstacles::fill;
use super::random::Random;
use super::rings::edge_call;
use super::scene::{circle, Naming, Scene, FIRST};
use super::templates::*;
use crate::model::answer;
use crate::model::call::PAGE_NUMBERS;
use crate::model::{Call, Point};

/// Different fractions with one f64.
pub fn close(random: &mut Random) -> (Call, Option<u32>) {
    let (places, naming) = match random.below(3) {
        0 => (random.pick(&DECIDES), Naming::Any),
        1 => (random.pick(&CHOOSES), Naming::Ascending),
        _ => (random.pick(&CHOOSES_BELOW), Naming::Ascending),
    };
    ring_of(random, places, naming, answer::DONE)
}

/// Equal fractions, mostly with different numerators and denominators.
pub fn equal(random: &mut Random) -> (Call, Option<u32>) {
    match random.below(5) {
        0 => ring_of(random, OCTAHEDRON, Naming::Any, answer::NONE_BETTER),
        1 | 2 => {
            let places = random.pick(&EQUAL_DECIDES);
            ring_of(random, places, Naming::Any, answer::NONE_BETTER)
        }
        _ => {
            let places = random.pick(&EQUAL_CHOOSES);
            ring_of(random, places, Naming::Ascending, answer::DONE)
        }
    }
}

/// An accepted removal beside two kept rows that are worse than all others, upright or inverted. Their f64 do not say which is
/// the worst: they stand in the other order than the fractions, or the fractions are equal and the f64 differ.
pub fn two_worst(random: &mut Random) -> (Call, Option<u32>) {
    let mut scene = Scene::new(moved(random, BLOCK_A));
    scene.link(random, &circle(&[FIRST, FIRST + 1, FIRST + 2]));
    let two = random.pick(&[OTHER_ORDER, ONE_FRACTION]);
    let inverted = random.percent(50);
    for corners in two {
        let at = scene.points.len() as u8;
        scene.points.extend(moved_by(random, &corners, 1));
        let numbers = match inverted {
            true => [at + 1, at, at + 2, at + 3],
            false => [at, at + 1, at + 2, at + 3],
        };
        scene.push(random, numbers);
    }
    let finished = scene.finish(random, Naming::Any, 3);
    let call = match random.percent(50) {
        true => Call::Page {
            block: finished.block(),
            ends: finished.ends(random),
            row: vec![f64::from(random.byte()); PAGE_NUMBERS],
        },
        false => edge_call(random, &finished),
    };
    (call, Some(answer::DONE))
}

fn ring_of(
    random: &mut Random,
    places: &[Point],
    naming: Naming,
    meant: u32,
) -> (Call, Option<u32>) {
    let m = places.len() - 2;
    let mut scene = Scene::new(moved(random, places));
    let around: Vec<u8> = (FIRST..FIRST + m as u8).collect();
    scene.link(random, &circle(&around));
    if random.percent(30) {
        let rows = random.within(m..=40);
        fill(&mut scene, random, rows, Some(m));
    }
    let finished = scene.finish(random, naming, 3);
    let call = edge_call(random, &finished);
    match call {
        Call::Flip { .. } => (call, Some(answer::RING_LENGTH)),
        _ => (call, Some(meant)),
    }
}

/// The places turned, enlarged and shifted inside the box; handedness stays.
pub fn moved(random: &mut Random, places: &[Point]) -> Vec<Point> {
    let widest = sizes(places).into_iter().max().expect("three axes").max(1);
    let scale = random.within(1..=usize::from(u8::MAX) / widest);
    moved_by(random, places, scale)
}

/// How far the places reach along each axis.
fn sizes(places: &[Point]) -> [usize; 3] {
    [0, 1, 2].map(|c| {
        let along = || places.iter().map(|place| place[c]);
        let (low, high) = (along().min(), along().max());
        usize::from(high.expect("places") - low.expect("places"))
    })
}

/// The same with this enlargement.
fn moved_by(random: &mut Random, places: &[Point], scale: usize) -> Vec<Point> {
    let (axes, even) = random.pick(&AXIS_ORDERS);
    let mut mirror = [random.percent(50), random.percent(50), false];
    mirror[2] = mirror[0] ^ mirror[1] ^ !even;
    let low = |c: usize| places.iter().map(|p| p[c]).min().expect("places");
    let size = sizes(places);
    let shift = axes.map(|axis| random.within(0..=usize::from(u8::MAX) - scale * size[axis]));
    let placed = |place: &Point, c: usize| {
        let from_low = usize::from(place[axes[c]] - low(axes[c]));
        let turned = match mirror[c] {
            true => size[axes[c]] - from_low,
            false => from_low,
        };
        (scale * turned + shift[c]) as u8
    };
    places
        .iter()
        .map(|place| [0, 1, 2].map(|c| placed(place, c)))
        .collect()
}
