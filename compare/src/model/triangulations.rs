//! The triangulations of a ring and of its pieces, every one of them.

use super::limits::LONGEST_RING;
use super::mesh::Numbers;
use super::ring::Site;
use std::collections::HashMap;
use std::sync::LazyLock;

/// A triangle (i < k < j) of ring places, counted from 1.
#[derive(Clone, Copy, Debug, PartialEq, Eq, Hash)]
pub struct Triangle {
    pub i: usize,
    pub k: usize,
    pub j: usize,
}

/// The triangles of a piece (i,j) in written order: the tree whose root is the triangle at the
/// closing side, then the tree of the piece (i,k), then that of (k,j).
pub type Triangulation = Vec<Triangle>;

type Ways = HashMap<(usize, usize), Vec<Triangulation>>;

/// All triangulations of each piece (i,j), for places up to the longest ring.
static WAYS: LazyLock<Ways> = LazyLock::new(|| {
    let mut ways = Ways::new();
    for span in 1..LONGEST_RING {
        for i in 1..=LONGEST_RING - span {
            let j = i + span;
            ways.insert((i, j), join(&ways, i, j));
        }
    }
    ways
});

/// Every way to triangulate the piece (i,j).
pub fn ways(i: usize, j: usize) -> &'static [Triangulation] {
    &WAYS[&(i, j)]
}

/// Every apex k, with every way of the piece (i,k) and every way of (k,j).
/// "two neighbouring points make no piece and give no rows": one way, without triangles.
fn join(ways: &Ways, i: usize, j: usize) -> Vec<Triangulation> {
    if j == i + 1 {
        return vec![vec![]];
    }
    let mut joined = vec![];
    for k in i + 1..j {
        for left in &ways[&(i, k)] {
            for right in &ways[&(k, j)] {
                let root = Triangle { i, k, j };
                joined.push([&[root][..], left, right].concat());
            }
        }
    }
    joined
}

/// "Each gives two rows, (a,vi,vk,vj) and (vi,vk,vj,b)."
pub fn rows_of(site: &Site, triangle: Triangle) -> [Numbers; 2] {
    let Triangle { i, k, j } = triangle;
    let [vi, vk, vj] = [site.v(i), site.v(k), site.v(j)];
    [[site.a, vi, vk, vj], [vi, vk, vj, site.b]]
}

/// The new rows of a triangulation, in written order.
pub fn new_rows(site: &Site, way: &[Triangle]) -> Vec<Numbers> {
    way.iter().flat_map(|t| rows_of(site, *t)).collect()
}

/// The sides of the triangles that are neither sides of the ring nor the closing side.
pub fn diagonals(i: usize, j: usize, way: &[Triangle]) -> Vec<(usize, usize)> {
    way.iter()
        .flat_map(|t| [(t.i, t.k), (t.k, t.j), (t.i, t.j)])
        .filter(|(from, to)| *to != from + 1 && (*from, *to) != (i, j))
        .collect()
}
