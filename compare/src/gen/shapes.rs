//! Places for an edge and its ring: a, b, then v1 to vm.

use super::random::Random;
use super::scene::any_point;
use crate::model::Point;

/// The middle of the box, on each axis.
pub const MIDDLE: u8 = u8::MAX / 2;

/// A thousand times cosine and sine of each twentieth of a circle.
pub const CIRCLE: [(i64, i64); 20] = [
    (1000, 0),
    (951, 309),
    (809, 588),
    (588, 809),
    (309, 951),
    (0, 1000),
    (-309, 951),
    (-588, 809),
    (-809, 588),
    (-951, 309),
    (-1000, 0),
    (-951, -309),
    (-809, -588),
    (-588, -809),
    (-309, -951),
    (0, -1000),
    (309, -951),
    (588, -809),
    (809, -588),
    (951, -309),
];

/// The kinds of places.
#[derive(Clone, Copy, Debug, PartialEq, Eq)]
pub enum Shape {
    /// A ring round the middle of the edge: rows round the edge are good.
    Wheel,
    /// The edge near the ring or outside it: some rows round it are thin or inverted.
    Leaning,
    /// The edge crosses a side of the ring: a flat row among upright ones.
    OnSide,
    /// Mirrored in a plane through the edge: exact ties.
    Mirrored,
    /// Ring and one end in one plane: flat rows, ties at zero.
    Level,
    /// Few places, so points coincide and fractions repeat.
    Crowded,
    /// Few places, sheared: D is small and S large.
    Sheared,
    /// Anywhere.
    Anywhere,
}

pub const SHAPES: [Shape; 8] = [
    Shape::Wheel,
    Shape::Leaning,
    Shape::OnSide,
    Shape::Mirrored,
    Shape::Level,
    Shape::Crowded,
    Shape::Sheared,
    Shape::Anywhere,
];

pub fn places(random: &mut Random, shape: Shape, m: usize) -> Vec<Point> {
    match shape {
        Shape::Wheel => wheel(random, m, 10),
        Shape::Leaning => wheel(random, m, 130),
        Shape::OnSide => on_side(random, m),
        Shape::Mirrored => mirrored(random, m),
        Shape::Level => level(random, m),
        Shape::Crowded => crowded(random, m),
        Shape::Sheared => sheared_few(random, m),
        Shape::Anywhere => (0..m + 2).map(|_| any_point(random)).collect(),
    }
}

/// A ring of radius r in space, the edge at most `lean` percent of r away from its middle.
fn wheel(random: &mut Random, m: usize, lean: usize) -> Vec<Point> {
    let size = any_size(random);
    let radius = random.within(16..=size) as i64;
    let jitter = random.within(0..=8);
    let away = radius * random.within(0..=lean) as i64 / 100;
    let (towards_x, towards_y) = random.pick(&CIRCLE);
    let (x, y) = (away * towards_x / 1000, away * towards_y / 1000);
    let [up, down] = [0; 2].map(|_| random.within(4..=size) as i64);
    let mut places = vec![from_middle(x, y, up), from_middle(x, y, -down)];
    for step in 0..m {
        let (cosine, sine) = CIRCLE[step * CIRCLE.len() / m.max(1) % CIRCLE.len()];
        let [dx, dy, dz] = [0; 3].map(|_| random.within(0..=2 * jitter) as i64 - jitter as i64);
        places.push(from_middle(
            radius * cosine / 1000 + dx,
            radius * sine / 1000 + dy,
            dz,
        ));
    }
    places
}

/// The most that a wheel reaches from the middle of the box: half of it, or nearly all.
pub fn any_size(random: &mut Random) -> usize {
    random.pick(&[56, 112])
}

/// The edge goes through the middle of the side from the last ring point to the first.
fn on_side(random: &mut Random, m: usize) -> Vec<Point> {
    let mut places = wheel(random, m, 0);
    let last = m + 1;
    for axis in [0, 1] {
        let from = places[last][axis];
        let middle = (u16::from(from) + u16::from(places[2][axis])) / 2;
        places[2][axis] = (2 * middle - u16::from(from)) as u8;
        places[0][axis] = middle as u8;
        places[1][axis] = middle as u8;
    }
    turned_to_start(random, places)
}

/// vi and v(m+1-i) are mirror images, and so are a and b with their own images.
fn mirrored(random: &mut Random, m: usize) -> Vec<Point> {
    let regular = random.percent(60);
    let lean = if random.percent(50) { 130 } else { 0 };
    let mut places = match regular {
        true => wheel(random, m, lean),
        false => crowded(random, m),
    };
    for end in &mut places[..2] {
        end[0] = MIDDLE;
    }
    for step in 0..m {
        let image = m - 1 - step;
        let [x, y, z] = places[2 + step];
        let x = x.min(2 * MIDDLE);
        places[2 + step] = [x, y, z];
        places[2 + image] = match image == step {
            true => [MIDDLE, y, z],
            false => [2 * MIDDLE - x, y, z],
        };
    }
    turned_to_start(random, places)
}

/// The same ring with another first point.
fn turned_to_start(random: &mut Random, mut places: Vec<Point>) -> Vec<Point> {
    let m = places.len() - 2;
    places[2..].rotate_left(random.below(m.max(1)));
    places
}

/// One end in the plane of the ring.
fn level(random: &mut Random, m: usize) -> Vec<Point> {
    let mut places = wheel(random, m, 130);
    let end = random.below(2);
    for place in places.iter_mut().skip(2) {
        place[2] = MIDDLE;
    }
    places[end][2] = MIDDLE;
    places
}

/// Coordinates from a few values, a step apart or as far as can be, at an end of the box or anywhere.
pub fn crowded(random: &mut Random, m: usize) -> Vec<Point> {
    let values = random.pick(&[2, 2, 3, 4, 5, 6]);
    let step = one_end_or_between(random, 1, usize::from(u8::MAX) / (values - 1));
    let shift = one_end_or_between(random, 0, usize::from(u8::MAX) - step * (values - 1));
    let mut coordinate = || (shift + step * random.below(values)) as u8;
    (0..m + 2)
        .map(|_| [coordinate(), coordinate(), coordinate()])
        .collect()
}

fn one_end_or_between(random: &mut Random, least: usize, most: usize) -> usize {
    let between = random.within(least..=most);
    random.pick(&[least, most, most, between])
}

fn sheared_few(random: &mut Random, m: usize) -> Vec<Point> {
    let values = random.within(2..=4);
    let few = (0..m + 2).map(|_| [0; 3].map(|_: u8| random.below(values) as u8));
    let few: Vec<Point> = few.collect();
    sheared(random, &few)
}

/// The places with one coordinate added to another or taken from it, again and again, as long as they fit the box, then shifted
/// anywhere: every D stays, and most S grow.
pub fn sheared(random: &mut Random, places: &[Point]) -> Vec<Point> {
    let mut axes = [0, 1, 2].map(|c| {
        let along = places.iter().map(|place| i64::from(place[c]));
        along.collect::<Vec<i64>>()
    });
    for _ in 0..24 {
        let two = random.some(2, &[0, 1, 2]);
        let sign = random.pick(&[1, -1]);
        let [to, from] = [&axes[two[0]], &axes[two[1]]];
        let moved: Vec<i64> = to.iter().zip(from).map(|(x, y)| x + sign * y).collect();
        if extent(&moved) <= i64::from(u8::MAX) {
            axes[two[0]] = moved;
        }
    }
    let shifts = [0, 1, 2].map(|c| {
        let room = i64::from(u8::MAX) - extent(&axes[c]);
        one_end_or_between(random, 0, room as usize) as i64 - low(&axes[c])
    });
    (0..places.len())
        .map(|at| [0, 1, 2].map(|c| (axes[c][at] + shifts[c]) as u8))
        .collect()
}

fn low(along: &[i64]) -> i64 {
    along.iter().copied().min().expect("places")
}

fn extent(along: &[i64]) -> i64 {
    along.iter().copied().max().expect("places") - low(along)
}

/// A place given from the middle of the box.
pub fn from_middle(x: i64, y: i64, z: i64) -> Point {
    [x, y, z].map(|c| (c + i64::from(MIDDLE)).clamp(0, i64::from(u8::MAX)) as u8)
}
