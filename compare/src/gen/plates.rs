//! Places for an edge on a flat outer face and its chain: a, b, then v1 to vm, with D(a,b,v1,vm) = 0.

use super::close::moved;
use super::random::Random;
use super::scene::any_point;
use super::shapes::{any_size, crowded, from_middle, CIRCLE, MIDDLE};
use crate::model::measure::determinant;
use crate::model::Point;

/// The kinds of places.
#[derive(Clone, Copy, Debug, PartialEq, Eq)]
pub enum Plate {
    /// Half a wheel round the edge: rows round the edge are good.
    Half,
    /// The edge near the chain or outside it: some rows round it are thin or inverted.
    Leaning,
    /// Half a wheel whose outer face has no axis for a side.
    Slanted,
    /// Half a wheel that is its own mirror image: exact ties.
    Mirrored,
    /// Few places, so points coincide and fractions repeat.
    Crowded,
    /// Anywhere, but with two of a, b, v1 and vm in one place.
    Coincident,
    /// Anywhere, but with a, b, v1 and vm on one level.
    Anywhere,
}

pub const PLATES: [Plate; 7] = [
    Plate::Half,
    Plate::Leaning,
    Plate::Slanted,
    Plate::Mirrored,
    Plate::Crowded,
    Plate::Coincident,
    Plate::Anywhere,
];

/// The places of a and b, and of the first and the last point of the chain.
pub fn outer(places: &[Point]) -> [Point; 4] {
    [places[0], places[1], places[2], places[places.len() - 1]]
}

pub fn flat_places(random: &mut Random, plate: Plate, m: usize) -> Vec<Point> {
    match plate {
        Plate::Half => half(random, m, 10),
        Plate::Leaning => half(random, m, 130),
        Plate::Slanted => slanted(random, m),
        Plate::Mirrored => mirrored(random, m),
        Plate::Crowded => crowded_flat(random, m),
        Plate::Coincident => coincident(random, m),
        Plate::Anywhere => on_one_level(random, m),
    }
}

/// Half a circle of radius r, the edge at most `lean` percent of r away from its middle, and v1 and vm level with the edge.
fn half(random: &mut Random, m: usize, lean: usize) -> Vec<Point> {
    let places = level_half(random, m, lean);
    moved(random, &places)
}

fn level_half(random: &mut Random, m: usize, lean: usize) -> Vec<Point> {
    let size = any_size(random);
    let radius = random.within(16..=size) as i64;
    let jitter = random.within(0..=8);
    let away = radius * random.within(0..=lean) as i64 / 100;
    let x = random.pick(&[away, -away]);
    let [up, down] = [0; 2].map(|_| random.within(4..=size) as i64);
    let mut places = vec![from_middle(x, 0, up), from_middle(x, 0, -down)];
    for step in 0..m {
        let (cosine, sine) = on_half(step, m);
        let [dx, dy, dz] = [0; 3].map(|_| random.within(0..=2 * jitter) as i64 - jitter as i64);
        let last_or_first = step == 0 || step == m - 1;
        let y = match last_or_first {
            true => 0,
            false => radius * sine / 1000 + dy,
        };
        places.push(from_middle(radius * cosine / 1000 + dx, y, dz));
    }
    places
}

/// A thousand times cosine and sine of the step's place on half a circle.
fn on_half(step: usize, m: usize) -> (i64, i64) {
    let half = CIRCLE.len() / 2;
    CIRCLE[step * half / (m - 1).max(1)]
}

/// a and b, and v1 and vm, each opposite each other in the middle of the box.
fn slanted(random: &mut Random, m: usize) -> Vec<Point> {
    let reach = random.pick(&[40, 80]);
    let mut direction = || [0; 3].map(|_| random.within(0..=2 * reach) as i64 - reach as i64);
    let [along, across, up] = [direction(), direction(), direction()];
    let jitter = random.within(0..=6);
    let place = |[x, y, z]: [i64; 3]| from_middle(x, y, z);
    let mut places = vec![place(along), place(along.map(|c| -c))];
    for step in 0..m {
        let (cosine, sine) = on_half(step, m);
        let last_or_first = step == 0 || step == m - 1;
        let mut shift = || match last_or_first {
            true => 0,
            false => random.within(0..=2 * jitter) as i64 - jitter as i64,
        };
        let shifts = [shift(), shift(), shift()];
        let coordinate = |c: usize| (cosine * across[c] + sine * up[c]) / 1000 + shifts[c];
        places.push(place([0, 1, 2].map(coordinate)));
    }
    places
}

/// vi and v(m+1-i) are mirror images, a and b their own.
fn mirrored(random: &mut Random, m: usize) -> Vec<Point> {
    let mut places = level_half(random, m, 0);
    for step in 0..m {
        let [x, y, z] = places[2 + step];
        let image = m - 1 - step;
        places[2 + image] = match image == step {
            true => [MIDDLE, y, z],
            false => [2 * MIDDLE - x, y, z],
        };
    }
    moved(random, &places)
}

/// Few places, drawn until they are flat.
fn crowded_flat(random: &mut Random, m: usize) -> Vec<Point> {
    loop {
        let places = crowded(random, m);
        if determinant(outer(&places)) == 0 {
            return places;
        }
    }
}

fn coincident(random: &mut Random, m: usize) -> Vec<Point> {
    let last = m + 1;
    let pairs = [(0, 1), (0, 2), (0, last), (1, 2), (1, last), (2, last)];
    let (one, other) = random.pick(&pairs);
    let mut places = anywhere(random, m);
    places[other] = places[one];
    places
}

fn on_one_level(random: &mut Random, m: usize) -> Vec<Point> {
    let axis = random.below(3);
    let mut places = anywhere(random, m);
    for place in [1, 2, m + 1] {
        places[place][axis] = places[0][axis];
    }
    places
}

fn anywhere(random: &mut Random, m: usize) -> Vec<Point> {
    (0..m + 2).map(|_| any_point(random)).collect()
}
