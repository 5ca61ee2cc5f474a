//! The list of triangulations, and what the carried-out one has to be among them.

mod common;

use common::*;
use compare::model::limits::LONGEST_RING;
use compare::model::measure::determinant;
use compare::model::mesh::{faces, turned, Face};
use compare::model::pieces::{
    closing_faces, piece_admissible, ring_admissible, Pieces, TriangleWorsts, UsedFaces,
};
use compare::model::removal::removable_site;
use compare::model::ring::site;
use compare::model::triangulations::{diagonals, new_rows, ways};
use compare::model::Row;
use std::collections::{HashMap, HashSet};

#[test]
fn there_are_as_many_as_catalan_says() {
    let catalan = [1, 2, 5, 14, 42, 132, 429, 1430];
    for (m, count) in (3..=10).zip(catalan) {
        let different: HashSet<_> = ways(1, m).iter().collect();
        assert_eq!((ways(1, m).len(), different.len()), (count, count));
    }
}

#[test]
fn each_has_m_minus_2_triangles_every_side_once_and_every_diagonal_twice() {
    for m in 3..=10 {
        for way in ways(1, m) {
            assert_eq!(way.len(), m - 2);
            let mut uses: HashMap<(usize, usize), usize> = HashMap::new();
            for t in way {
                assert!(t.i < t.k && t.k < t.j);
                for side in [(t.i, t.k), (t.k, t.j), (t.i, t.j)] {
                    *uses.entry(side).or_default() += 1;
                }
            }
            for ((from, to), count) in &uses {
                let ring_side = *to == from + 1 || (*from, *to) == (1, m);
                assert_eq!(*count, if ring_side { 1 } else { 2 });
            }
            let inner: HashSet<_> = diagonals(1, m, way).into_iter().collect();
            assert_eq!((inner.len(), uses.len()), (m - 3, m + m - 3));
        }
    }
}

/// Of rings and chains that are refused too: also those of two points, bent ones, and where there is no room. Each region has
/// its own total, of kept rows too; only rows of more than one region have no triangulation.
#[test]
fn total_d_of_each_region_is_kept_by_every_triangulation_but_those_of_a_bent_chain() {
    let [mut rings, mut flat, mut bent] = [0; 3];
    for (patch, [a, b]) in edges(18, 1_500) {
        let Ok(site) = site(&patch, a, b) else {
            continue;
        };
        let Some(region) = site.region.filter(|_| site.m() <= LONGEST_RING) else {
            continue;
        };
        let back = [site.a, site.b, site.v(site.m()), site.v(1)];
        let back = determinant(back.map(|number| patch.points[usize::from(number)]));
        let (change, met) = match (site.closed, back) {
            (true, _) => (0, &mut rings),
            (false, 0) => (0, &mut flat),
            (false, _) => (back, &mut bent),
        };
        *met += 1;
        let mut totals = d_by_region(&patch);
        totals[usize::from(region)] += change;
        for way in ways(1, site.m()) {
            let after = site.patch_after(&patch, &new_rows(&site, way));
            assert_eq!(total_d(&after), total_d(&patch) + change);
            assert_eq!(d_by_region(&after), totals);
        }
    }
    assert!(
        rings > 200 && flat > 50 && bent > 30,
        "{rings} {flat} {bent}"
    );
}

/// Does one of the rows have this directed face?
fn stands(rows: &[Row], face: Face) -> bool {
    let all = rows.iter().flat_map(|row| faces(row.numbers));
    all.map(turned).any(|other| other == face)
}

#[test]
fn admissible_by_the_whole_table_is_admissible_by_faces() {
    let (mut yes, mut no) = ([0; 2], [0; 2]);
    for (patch, [a, b]) in edges(19, 2_000) {
        let Ok(site) = removable_site(&patch, a, b) else {
            continue;
        };
        let used = UsedFaces::of(&site.kept);
        let shut = !site.closed
            && closing_faces(&site)
                .iter()
                .any(|face| stands(&site.kept, *face));
        for way in ways(1, site.m()) {
            let by_table = ring_admissible(&patch, &site, way);
            let by_faces = piece_admissible(&site, &used, 1, site.m(), way);
            assert_eq!(by_table, by_faces && !shut);
            let seen = match by_table {
                true => &mut yes,
                false => &mut no,
            };
            seen[usize::from(site.closed)] += 1;
        }
    }
    assert!(yes.into_iter().chain(no).all(|seen| seen > 1_000));
}

#[test]
fn the_chosen_one_is_admissible_and_no_other_has_a_better_worst() {
    for (patch, [a, b]) in edges(20, 3_000) {
        let Ok(site) = removable_site(&patch, a, b) else {
            continue;
        };
        let m = site.m();
        let worsts = TriangleWorsts::of(&patch, &site);
        let pieces = Pieces::of(&patch, &site);
        let admissible = ways(1, m)
            .iter()
            .filter(|way| ring_admissible(&patch, &site, way));
        let best = admissible.map(|way| worsts.of_way(way)).max();
        assert_eq!(pieces.best(1, m).map(|best| best.worst), best);
        if let Some(best) = best {
            let chosen = pieces.chosen(1, m);
            assert!(ring_admissible(&patch, &site, &chosen));
            assert_eq!(worsts.of_way(&chosen), best);
            assert!(ways(1, m).contains(&chosen));
        }
    }
}
