//! "Ring and replacement": which triangulations are admissible, the best worst and the apex.

use super::block::Patch;
use super::limits::LONGEST_RING;
use super::measure::Quality;
use super::mesh::{faces, mesh_rule, turned, Face, Numbers, Row};
use super::ring::Site;
use super::triangulations::{diagonals, new_rows, rows_of, ways, Triangle, Triangulation};
use std::collections::{HashMap, HashSet};

/// "It is admissible if the whole table afterwards keeps the mesh rule", which asks for numbers only.
pub fn ring_admissible(patch: &Patch, site: &Site, way: &[Triangle]) -> bool {
    let new = new_rows(site, way);
    let new = new.into_iter().map(|numbers| Row::plain(numbers, 0));
    let after: Vec<Row> = site.kept.iter().copied().chain(new).collect();
    mesh_rule(&after, patch.points.len())
}

/// "A triangulation of a piece is admissible if no kept row uses one of its triangles, or a face of
/// a or b with a diagonal inside the piece; the closing side is judged by the larger piece".
pub fn piece_admissible(
    site: &Site,
    used: &UsedFaces,
    i: usize,
    j: usize,
    way: &[Triangle],
) -> bool {
    let triangle_used = |t: &Triangle| used.uses(site.v(t.i), site.v(t.k), site.v(t.j));
    let diagonal_used = |(from, to): (usize, usize)| {
        let (v, w) = (site.v(from), site.v(to));
        used.uses(site.a, v, w) || used.uses(site.b, v, w)
    };
    !way.iter().any(triangle_used) && !diagonals(i, j, way).into_iter().any(diagonal_used)
}

/// "the faces a v1 vm and b v1 vm count too, each only in the direction its new row uses": what the mesh rule asks of a whole
/// chain beyond `piece_admissible`.
pub fn closing_faces(site: &Site) -> [Face; 2] {
    let (v1, vm) = (site.v(1), site.v(site.m()));
    [[site.a, v1, vm], [site.b, vm, v1]].map(turned)
}

/// The faces that a list of rows uses, "either way round".
pub struct UsedFaces {
    sorted: HashSet<[u8; 3]>,
}

impl UsedFaces {
    pub fn of(rows: &[Row]) -> UsedFaces {
        let all = rows.iter().flat_map(|row| faces(row.numbers));
        UsedFaces {
            sorted: all.map(ascending).collect(),
        }
    }

    pub fn uses(&self, p: u8, q: u8, r: u8) -> bool {
        self.sorted.contains(&ascending([p, q, r]))
    }
}

fn ascending(mut face: [u8; 3]) -> [u8; 3] {
    face.sort_unstable();
    face
}

/// What a piece that has an admissible triangulation keeps.
#[derive(Clone, Copy, Debug, PartialEq, Eq)]
pub struct Best {
    pub worst: Quality,
    pub apex: usize,
}

/// The best worst and the apex of each piece, or the mark (`None`).
pub struct Pieces {
    best: HashMap<(usize, usize), Option<Best>>,
}

impl Pieces {
    /// The whole ring or chain is judged by the mesh rule of the whole table, each lower piece by itself.
    pub fn of(patch: &Patch, site: &Site) -> Pieces {
        let m = site.m();
        let used = UsedFaces::of(&site.kept);
        let worsts = TriangleWorsts::of(patch, site);
        let mut best = HashMap::new();
        for i in 1..=m {
            for j in i + 2..=m {
                let admissible = |way: &&Triangulation| match (i, j) == (1, m) {
                    true => ring_admissible(patch, site, way),
                    false => piece_admissible(site, &used, i, j, way),
                };
                let judged: Vec<(usize, Quality)> = ways(i, j)
                    .iter()
                    .filter(admissible)
                    .map(|way| (way[0].k, worsts.of_way(way)))
                    .collect();
                best.insert((i, j), best_of(&judged));
            }
        }
        Pieces { best }
    }

    /// What the piece (i,j) keeps, with j at least i + 2.
    pub fn best(&self, i: usize, j: usize) -> Option<Best> {
        self.best[&(i, j)]
    }

    /// "the triangle of the whole piece (a-row, b-row), then the piece (1,k), then (k,m), each in
    /// the same way". The piece has a best.
    pub fn chosen(&self, i: usize, j: usize) -> Triangulation {
        if j < i + 2 {
            return vec![];
        }
        let k = self.best(i, j).expect("the piece has a best").apex;
        let root = Triangle { i, k, j };
        [vec![root], self.chosen(i, k), self.chosen(k, j)].concat()
    }
}

/// "For every piece the apex is the smallest k with which some admissible triangulation of the piece
/// reaches the piece's best worst." Given: apex and worst of each admissible triangulation.
fn best_of(judged: &[(usize, Quality)]) -> Option<Best> {
    let worst = judged.iter().map(|(_, worst)| *worst).max()?;
    let reaching = judged.iter().filter(|(_, reached)| *reached == worst);
    let apex = reaching.map(|(k, _)| *k).min()?;
    Some(Best { worst, apex })
}

/// The worse quality of the two rows of each triangle, computed once for a site.
pub struct TriangleWorsts {
    worst: Vec<Quality>,
}

impl TriangleWorsts {
    pub fn of(patch: &Patch, site: &Site) -> TriangleWorsts {
        let mut worst = vec![Quality::ZERO; (LONGEST_RING + 1).pow(3)];
        for i in 1..=site.m() {
            for k in i + 1..=site.m() {
                for j in k + 1..=site.m() {
                    let triangle = Triangle { i, k, j };
                    let [a_row, b_row] = rows_of(site, triangle).map(|n| quality_of(patch, n));
                    worst[place(triangle)] = a_row.min(b_row);
                }
            }
        }
        TriangleWorsts { worst }
    }

    /// The worst of all new rows of a triangulation; a piece has at least one triangle.
    pub fn of_way(&self, way: &[Triangle]) -> Quality {
        let worsts = way.iter().map(|t| self.worst[place(*t)]);
        worsts.min().expect("a piece has a triangle")
    }
}

fn place(Triangle { i, k, j }: Triangle) -> usize {
    (i * (LONGEST_RING + 1) + k) * (LONGEST_RING + 1) + j
}

/// The quality of four points given by number.
pub fn quality_of(patch: &Patch, numbers: Numbers) -> Quality {
    Quality::of(numbers.map(|number| patch.points[usize::from(number)]))
}
