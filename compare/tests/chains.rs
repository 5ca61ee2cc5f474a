//! Edges on a flat outer face: the links make one open chain.

mod common;

use common::*;
use compare::model::mesh::mesh_rule;
use compare::model::pieces::Pieces;
use compare::model::removal::{is_flat, removable_site};
use compare::model::ring::{site, Site};
use compare::model::{answer, printout, remove, Patch, Removal, Row};

/// The plate with two points above it, 6 and 7, and these rows more.
fn with_rows(rows: &[[u8; 4]]) -> Patch {
    let mut patch = plate();
    patch.points.extend([[12, 8, 30], [12, 8, 40]]);
    patch
        .rows
        .extend(rows.iter().map(|numbers| Row::plain(*numbers, 0)));
    patch
}

fn removed(patch: &Patch, a: usize, b: usize) -> Removal {
    let mut out = UNTOUCHED;
    remove(&patch.to_bytes(), a, b, &mut out).expect("done")
}

#[test]
fn the_chain_keeps_its_own_start_and_end() {
    let new = [[0, 3, 5, 2], [3, 5, 2, 1], [0, 5, 4, 2], [5, 4, 2, 1]];
    for (a, b) in [(0, 1), (1, 0)] {
        let removal = removed(&plate(), a, b);
        assert_eq!(removal.ring, [3, 5, 4, 2]);
        assert_eq!(removal.after, patch(&plate().points, &new, 7));
        assert_eq!(total_d(&removal.after), total_d(&plate()));
    }
}

#[test]
fn the_direction_is_that_of_the_smaller_end() {
    let mut swapped = plate();
    swapped.points.swap(0, 1);
    for row in &mut swapped.rows {
        row.numbers.swap(0, 1);
        row.numbers.swap(2, 3);
        for number in &mut row.numbers {
            *number ^= u8::from(*number < 2);
        }
    }
    assert_eq!(removed(&swapped, 0, 1).ring, [2, 4, 5, 3]);
}

#[test]
fn the_printout_has_the_chain() {
    let input = [&plate().to_bytes()[..], &[0, 1]].concat();
    let text = printout(&input);
    let start = "answer 0\nbefore 3 0 0 608 2\nafter 4 0 0 809 1\nring 3 5 4 2\nrow 0 3 5 2 7\n";
    assert!(text.starts_with(start), "{text}");
}

#[test]
fn a_closing_face_shuts_the_chain_only_in_the_direction_of_the_new_rows() {
    let (a, b, v1, vm) = (0, 1, 3, 2);
    let along = [[6, a, v1, vm], [6, b, vm, v1]];
    let against = [[7, a, vm, v1], [7, b, v1, vm]];
    for row in along {
        assert_eq!(
            remove_answer(&with_rows(&[row]), 0, 1),
            answer::NOT_ADMISSIBLE
        );
        let both_ways = with_rows(&[row, against[0]]);
        assert_eq!(remove_answer(&both_ways, 0, 1), answer::NOT_ADMISSIBLE);
    }
    for rows in [&against[..1], &against[1..], &against] {
        let removal = removed(&with_rows(rows), 0, 1);
        assert_eq!(removal.ring, [3, 5, 4, 2]);
    }
}

#[test]
fn a_shut_chain_has_the_mark_though_its_pieces_have_none() {
    let shut = with_rows(&[[6, 0, 3, 2]]);
    let site = removable_site(&shut, 0, 1).expect("a flat chain");
    let pieces = Pieces::of(&shut, &site);
    assert!(pieces.best(1, 4).is_none());
    assert!(pieces.best(1, 3).is_some() && pieces.best(2, 4).is_some());
}

#[test]
fn length_comes_before_flat_flat_before_room_and_room_before_admissible() {
    for flat in [true, false] {
        assert_eq!(remove_answer(&chain(2, flat), 0, 1), answer::RING_LENGTH);
        assert_eq!(remove_answer(&chain(11, flat), 0, 1), answer::RING_LENGTH);
    }
    for m in 3..=10 {
        let full = filled(chain(m, false), 60, m + 2);
        assert_eq!(remove_answer(&full, 0, 1), answer::NOT_FLAT);
    }
    let ears: Vec<[u8; 4]> = (0..5)
        .map(|step| [40 + step, 2 + step, 2 + (step + 1) % 5, 2 + (step + 2) % 5])
        .collect();
    let blocked = |flat: bool| {
        let mut patch = chain(5, flat);
        let rows = ears.iter().map(|numbers| Row::plain(*numbers, 0));
        patch.rows.extend(rows);
        patch
    };
    assert_eq!(remove_answer(&blocked(false), 0, 1), answer::NOT_FLAT);
    let passing = filled(blocked(true), 58, 7);
    assert_eq!(remove_answer(&passing, 0, 1), answer::NOT_ADMISSIBLE);
    let full = filled(blocked(true), 59, 7);
    assert_eq!(remove_answer(&full, 0, 1), answer::ROOM);
}

#[test]
fn room_is_rows_and_m_less_3() {
    for m in 3..=10 {
        let gets = |rows: usize| remove_answer(&filled(chain(m, true), rows, m + 2), 0, 1);
        let most = 63 - usize::from(m);
        assert!(
            [answer::DONE, answer::NONE_BETTER].contains(&gets(most)),
            "{m}"
        );
        if most < 60 {
            assert_eq!(gets(most + 1), answer::ROOM, "{m}");
        }
    }
}

#[test]
fn other_open_cases_and_every_chain_of_a_3_2_flip_get_11() {
    let links = |links: &[[u8; 2]]| {
        let mut patch = chain(3, true);
        let rows = links.iter().map(|[v, w]| Row::plain([0, 1, *v, *w], 0));
        patch.rows.extend(rows);
        patch
    };
    let two_chains = links(&[[20, 21]]);
    let beside_a_circle = links(&[[20, 21], [21, 22], [22, 20]]);
    for open in [&two_chains, &beside_a_circle] {
        assert_eq!(remove_answer(open, 0, 1), answer::OPEN);
        assert_eq!(flip_answer(open, &[0, 1]), answer::OPEN);
    }
    for m in [2, 3, 4, 11] {
        assert_eq!(flip_answer(&chain(m, true), &[0, 1]), answer::OPEN);
        assert_eq!(flip_answer(&chain(m, false), &[0, 1]), answer::OPEN);
    }
    assert_eq!(flip_answer(&plate(), &[0, 1]), answer::OPEN);
}

#[test]
fn flat_is_d_of_the_outer_four_and_nothing_more() {
    let mut inside = plate();
    inside.points[4] = [3, 90, 77];
    assert_ne!(remove_answer(&inside, 0, 1), answer::NOT_FLAT);
    for (one, other) in [(0, 1), (0, 2), (0, 3), (1, 2), (1, 3), (2, 3)] {
        let mut bent = plate();
        bent.points[2][2] = 11;
        assert_eq!(remove_answer(&bent, 0, 1), answer::NOT_FLAT);
        bent.points[other] = bent.points[one];
        assert_ne!(remove_answer(&bent, 0, 1), answer::NOT_FLAT);
    }
}

/// The patch with the flat row that closes the chain to a ring.
fn closed_by_a_flat_row(patch: &Patch, site: &Site) -> Patch {
    let mut closed = patch.clone();
    let numbers = [site.a, site.b, site.v(site.m()), site.v(1)];
    let region = site.region.expect("one region");
    closed.rows.push(Row::plain(numbers, region));
    closed
}

#[test]
fn a_flat_chain_is_a_ring_without_its_flat_row() {
    let (mut same, mut shut) = (0, 0);
    for (patch, [a, b]) in edges(25, 8_000) {
        let Ok(chain) = removable_site(&patch, a, b) else {
            continue;
        };
        if chain.closed {
            continue;
        }
        assert!(is_flat(&patch, &chain));
        let best = Pieces::of(&patch, &chain).best(1, chain.m());
        let closed = closed_by_a_flat_row(&patch, &chain);
        if !mesh_rule(&closed.rows, closed.points.len()) {
            assert_eq!(best, None);
            shut += 1;
            continue;
        }
        let ring = site(&closed, a, b).expect("a ring");
        assert!(ring.closed && ring.m() == chain.m());
        let of_ring = Pieces::of(&closed, &ring).best(1, ring.m());
        assert_eq!(best.map(|best| best.worst), of_ring.map(|best| best.worst));
        same += 1;
    }
    assert!(same > 200 && shut > 50, "{same} and {shut}");
}
