//! What both sides are called with: rows, fractions and blocks of the generator's cases, and rings made to measure.

use compare::gen::{cases, freely_marked, ring_in_table, shell_marked, Case, Random};
use compare::model::limits::{BLOCK_BYTES, MAX_POINTS, MAX_ROWS, PLAIN};
use compare::model::{answer, open, Call, Patch};
use compare::quick;
use std::cell::OnceCell;

pub const SEED: u64 = 1;
const CASES: u64 = 4000;
/// Blocks for each line about an edge.
const EDGES: usize = 256;

/// Numerator and denominator.
pub type Fraction = (u64, u64);

/// A block and the ends of an edge in it, in order.
pub type Edge = (Vec<u8>, [usize; 2]);

/// How large coordinates get: as the generator draws them, or each halved.
#[derive(Clone, Copy)]
pub enum Coordinates {
    UpTo255,
    UpTo127,
}

impl Coordinates {
    fn patch(self, block: &[u8]) -> Option<Patch> {
        let mut patch = open(block).ok()?;
        if let Coordinates::UpTo127 = self {
            patch.points.iter_mut().flatten().for_each(|c| *c /= 2);
        }
        Some(patch)
    }
}

/// Blocks of version 1, or the same in version 2 with marks on faces that stay.
#[derive(Clone, Copy, PartialEq, Eq)]
pub enum Version {
    Plain,
    Marked,
}

impl Version {
    pub const BOTH: [Version; 2] = [Version::Plain, Version::Marked];

    /// What a line's name has behind it.
    pub fn name(self) -> &'static str {
        match self {
            Version::Plain => "",
            Version::Marked => ", version 2",
        }
    }
}

/// Which rings a line is about. With more rows than there is room for, a removal would have this answer if there were room.
#[derive(Clone, Copy)]
pub struct Rings {
    pub version: Version,
    pub m: usize,
    /// The rows of the whole table.
    pub rows: usize,
    /// What their removal has as its answer.
    pub answer: u32,
}

impl Rings {
    pub fn accepted(version: Version, m: usize, rows: usize) -> Rings {
        Rings {
            version,
            m,
            rows,
            answer: answer::DONE,
        }
    }
}

/// The most rows with which there is room for the new rows of a ring of m.
pub const fn most_rows(m: usize) -> usize {
    MAX_ROWS + 4 - m
}

/// The inputs of one kind of coordinates, made when a line asks for them.
pub struct Inputs {
    coordinates: Coordinates,
    of_cases: OnceCell<OfCases>,
}

impl Inputs {
    pub fn new(coordinates: Coordinates) -> Inputs {
        Inputs {
            coordinates,
            of_cases: OnceCell::new(),
        }
    }

    /// What the generator's cases give, made once.
    pub fn of_cases(&self) -> &OfCases {
        self.of_cases.get_or_init(|| OfCases::new(self.coordinates))
    }

    /// Blocks with such rings; those of version 2 are those of version 1 with marks.
    pub fn edges(&self, rings: Rings) -> Vec<Edge> {
        let random = &mut Random::of_case(SEED, (100 * rings.m + rings.rows) as u64);
        let drawn = std::iter::repeat_with(|| self.drawn(random, rings));
        let right = drawn.filter(|edge| has_answer(edge, rings.answer));
        let right = right.take(EDGES);
        match rings.version {
            Version::Plain => right.collect(),
            Version::Marked => {
                let random = &mut Random::of_case(SEED, 1);
                let marked = |(block, ends): Edge| (shell_marked(random, &block, &ends), ends);
                right.map(marked).collect()
            }
        }
    }

    /// A block of version 1 with a ring whose removal may have the answer.
    fn drawn(&self, random: &mut Random, rings: Rings) -> Edge {
        let blocked = rings.answer == answer::NOT_ADMISSIBLE;
        let (block, [a, b]) = ring_in_table(random, rings.m, rings.rows, blocked);
        let patch = self.coordinates.patch(&block).expect("it opens");
        (patch.to_bytes().to_vec(), [a.min(b), a.max(b)])
    }
}

/// What the patches of the generator's cases of version 1 give.
#[derive(Default)]
pub struct OfCases {
    /// The four points of a row.
    pub corners: Vec<[u8; 12]>,
    /// Upright qualities.
    pub fractions: Vec<Fraction>,
    /// Two upright qualities of one patch.
    pub pairs: Vec<[Fraction; 2]>,
    /// The same, next to each other in their order.
    pub close_pairs: Vec<[Fraction; 2]>,
    /// Blocks with 64 points and 60 rows that open.
    full_plain: Vec<Vec<u8>>,
    /// The same in version 2, with some faces marked.
    full_marked: Vec<Vec<u8>>,
}

impl OfCases {
    fn new(coordinates: Coordinates) -> OfCases {
        let mut of_cases = OfCases::default();
        let random = &mut Random::of_case(SEED, 0);
        let blocks = cases(SEED, CASES).filter_map(block_of);
        let patches = blocks.filter_map(|block| coordinates.patch(&block));
        for patch in patches.filter(|patch| patch.version == PLAIN) {
            of_cases.add_rows(&patch);
            if patch.points.len() == MAX_POINTS && patch.rows.len() == MAX_ROWS {
                of_cases.add_full(random, &patch);
            }
        }
        of_cases
    }

    fn add_rows(&mut self, patch: &Patch) {
        let corners = patch.rows.iter().map(|row| flat(patch.corners(row)));
        let corners: Vec<[u8; 12]> = corners.collect();
        let mut upright: Vec<Fraction> = corners.iter().filter_map(upright_quality).collect();
        self.corners.extend(corners);
        self.fractions.extend(&upright);
        self.pairs.extend(neighbours(&upright));
        upright.sort_by(|x, y| product(x.0, y.1).cmp(&product(y.0, x.1)));
        self.close_pairs.extend(neighbours(&upright));
    }

    fn add_full(&mut self, random: &mut Random, patch: &Patch) {
        let block = patch.to_bytes().to_vec();
        self.full_marked.push(freely_marked(random, &block));
        self.full_plain.push(block);
    }

    /// Blocks with 64 points and 60 rows.
    pub fn full(&self, version: Version) -> &[Vec<u8>] {
        match version {
            Version::Plain => &self.full_plain,
            Version::Marked => &self.full_marked,
        }
    }
}

/// Whether the removal has this answer, or would have if there were room.
fn has_answer((block, [a, b]): &Edge, answer: u32) -> bool {
    let outcome = quick::remove(block, *a, *b, &mut [0; BLOCK_BYTES]);
    let number = outcome.err().unwrap_or(answer::DONE);
    number == answer || number == answer::ROOM
}

fn block_of(case: Case) -> Option<Vec<u8>> {
    match case.call {
        Call::Remove { block, .. } | Call::Page { block, .. } => Some(block),
        _ => None,
    }
}

fn flat(corners: [[u8; 3]; 4]) -> [u8; 12] {
    let mut bytes = [0; 12];
    bytes.copy_from_slice(corners.as_flattened());
    bytes
}

fn upright_quality(corners: &[u8; 12]) -> Option<Fraction> {
    let mut parts = [0; 3];
    quick::quality(corners, &mut parts);
    (parts[0] == 0).then_some((parts[1], parts[2]))
}

fn product(a: u64, b: u64) -> u128 {
    u128::from(a) * u128::from(b)
}

fn neighbours(fractions: &[Fraction]) -> impl Iterator<Item = [Fraction; 2]> + '_ {
    fractions.windows(2).map(|pair| [pair[0], pair[1]])
}
