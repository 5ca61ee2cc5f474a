//! A patch being built. The edge is 0 and 1, the ring is 2, 3, ..., other points come behind;
//! `finish` gives every point its number in the block and puts the rows in random order.

use super::random::Random;
use crate::model::limits::{BLOCK_BYTES, MAX_POINTS, PLAIN};
use crate::model::measure::determinant;
use crate::model::mesh::{mesh_rule, Numbers, EVEN};
use crate::model::{Patch, Point, Row};

/// The edge's ends while a scene is built.
pub const A: u8 = 0;
pub const B: u8 = 1;
/// The first ring point while a scene is built.
pub const FIRST: u8 = 2;

#[derive(Clone)]
pub struct Scene {
    pub points: Vec<Point>,
    pub rows: Vec<Row>,
    /// Obstacles and filling rows stand upright where they can.
    pub upright: bool,
}

/// How `finish` numbers the points.
#[derive(Clone, Copy, PartialEq, Eq)]
pub enum Naming {
    /// Any numbers.
    Any,
    /// Numbers in the scene's order, so that the ring starts where it does in the scene.
    Ascending,
}

/// A patch with the number of each point of the scene.
pub struct Finished {
    pub patch: Patch,
    pub names: Vec<u8>,
}

impl Scene {
    pub fn new(points: Vec<Point>) -> Scene {
        Scene {
            points,
            rows: vec![],
            upright: false,
        }
    }

    /// The point number of a new point anywhere.
    pub fn add_point(&mut self, random: &mut Random) -> u8 {
        self.points.push(any_point(random));
        (self.points.len() - 1) as u8
    }

    /// Adds points anywhere until there are `count`.
    pub fn widen(&mut self, random: &mut Random, count: usize) {
        while self.points.len() < count {
            self.add_point(random);
        }
    }

    /// Adds a row of any region.
    pub fn push(&mut self, random: &mut Random, numbers: Numbers) {
        let region = random.byte();
        self.rows.push(Row::plain(numbers, region));
    }

    /// D of a row.
    pub fn d(&self, numbers: Numbers) -> i64 {
        determinant(numbers.map(|number| self.points[usize::from(number)]))
    }

    /// Adds the row if the table still keeps the mesh rule.
    pub fn try_push(&mut self, random: &mut Random, numbers: Numbers) -> bool {
        self.push(random, numbers);
        let fits = mesh_rule(&self.rows, self.points.len());
        if !fits {
            self.rows.pop();
        }
        fits
    }

    /// The links `from` to `to` round the edge, each as a row, all of one region.
    pub fn link(&mut self, random: &mut Random, links: &[(u8, u8)]) {
        let region = random.byte();
        for (v, w) in links {
            let numbers = [A, B, *v, *w];
            self.rows.push(Row::plain(numbers, region));
        }
    }

    /// Gives the points their numbers, adds up to `idle` unused ones, and puts rows in random order
    /// and random even arrangement.
    pub fn finish(mut self, random: &mut Random, naming: Naming, idle: usize) -> Finished {
        let used = self.points.len();
        let count = (used + idle).min(MAX_POINTS);
        self.widen(random, count);
        let mut names: Vec<u8> = (0..count as u8).collect();
        random.shuffle(&mut names);
        if naming == Naming::Ascending {
            names[..used].sort_unstable();
        }
        let mut points = vec![[0; 3]; count];
        for (point, name) in self.points.iter().zip(&names) {
            points[usize::from(*name)] = *point;
        }
        let mut rows = self.rows;
        random.shuffle(&mut rows);
        for row in &mut rows {
            let renamed = row.numbers.map(|number| names[usize::from(number)]);
            row.numbers = random.pick(&EVEN).map(|place| renamed[place]);
        }
        let patch = Patch {
            version: PLAIN,
            points,
            rows,
        };
        Finished { patch, names }
    }
}

impl Finished {
    pub fn block(&self) -> Vec<u8> {
        self.patch.to_bytes().to_vec()
    }

    pub fn number(&self, of: u8) -> usize {
        usize::from(self.names[usize::from(of)])
    }

    /// The edge's ends in either order.
    pub fn ends(&self, random: &mut Random) -> [usize; 2] {
        let mut ends = [self.number(A), self.number(B)];
        random.shuffle(&mut ends);
        ends
    }
}

/// The links of a circle through these points.
pub fn circle(points: &[u8]) -> Vec<(u8, u8)> {
    let next = points.iter().cycle().skip(1);
    points.iter().copied().zip(next.copied()).collect()
}

/// The links of a chain through these points.
pub fn chain(points: &[u8]) -> Vec<(u8, u8)> {
    points.windows(2).map(|pair| (pair[0], pair[1])).collect()
}

/// Anywhere in the box, one in ten at its corners or a step from them.
pub fn any_point(random: &mut Random) -> Point {
    let at_corner = random.percent(10);
    let ends = [0, 0, 1, u8::MAX - 1, u8::MAX, u8::MAX];
    [0; 3].map(|_| match at_corner {
        true => random.pick(&ends),
        false => random.byte(),
    })
}

/// An output block as it comes: any bytes.
pub fn any_out(random: &mut Random) -> Vec<u8> {
    random.bytes(BLOCK_BYTES)
}
