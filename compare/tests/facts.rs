//! "Facts to hold": the twelve facts of the requirement, one test each.

mod common;

use common::*;
use compare::model::limits::BLOCK_BYTES;
use compare::model::measure::{badness, determinant, edge_sum, score, Corners};
use compare::model::{answer, flip, remove, seal, Patch, Summary};

fn of_rows<T>(patch: &Patch, what: impl Fn(Corners) -> T) -> Vec<T> {
    let corners = patch.rows.iter().map(|row| patch.corners(row));
    corners.map(what).collect()
}

fn after_removal(patch: &Patch, a: usize, b: usize) -> Patch {
    let mut out = [0; BLOCK_BYTES];
    remove(&patch.to_bytes(), a, b, &mut out).unwrap().after
}

#[test]
fn fact_1_block_a_has_these_d_and_s() {
    assert_eq!(of_rows(&block_a(), determinant), [576, 576, 576]);
    assert_eq!(of_rows(&block_a(), edge_sum), [656, 896, 656]);
}

#[test]
fn fact_2_its_new_rows_have_these_d_and_s() {
    let after = after_removal(&block_a(), 0, 1);
    assert_eq!(after, block_a_after());
    assert_eq!(of_rows(&after, determinant), [864, 864]);
    assert_eq!(of_rows(&after, edge_sum), [876, 876]);
}

#[test]
fn fact_3_scores_before_and_after() {
    assert_eq!(of_rows(&block_a(), score), [797, 584, 797]);
    assert_eq!(of_rows(&block_a_after(), score), [782, 782]);
}

#[test]
fn fact_4_badness_and_octave() {
    assert_eq!(of_rows(&block_a(), badness), [Some(2), Some(6), Some(2)]);
    assert_eq!(Summary::of(&block_a()).octave, Some(1));
}

#[test]
fn fact_5_point_0_lower_gives_16() {
    let mut lower = block_a();
    lower.points[0] = [4, 4, 7];
    assert_eq!(remove_answer(&lower, 0, 1), answer::NONE_BETTER);
    assert_eq!(Summary::of(&lower).worst, Some(499));
    let a_row = [0, 2, 3, 4].map(|number: usize| lower.points[number]);
    assert_eq!((determinant(a_row), score(a_row)), (144, 269));
}

#[test]
fn fact_6_octahedron_equal_is_not_better() {
    let points = [
        [6, 6, 12],
        [6, 6, 0],
        [12, 6, 6],
        [6, 12, 6],
        [0, 6, 6],
        [6, 0, 6],
    ];
    let old = [[0, 1, 2, 3], [0, 1, 3, 4], [0, 1, 4, 5], [0, 1, 5, 2]];
    let new = [[0, 2, 3, 5], [2, 3, 5, 1], [0, 3, 4, 5], [3, 4, 5, 1]];
    let octahedron = patch(&points, &old, 0);
    for patch in [&octahedron, &patch(&points, &new, 0)] {
        assert_eq!(of_rows(patch, determinant), [432; 4]);
        assert_eq!(of_rows(patch, edge_sum), [504; 4]);
    }
    assert_eq!(remove_answer(&octahedron, 0, 1), answer::NONE_BETTER);
}

#[test]
fn fact_7_without_its_third_row_19_and_the_3_2_flip_11() {
    let mut open = block_a();
    open.rows.pop();
    assert_eq!(remove_answer(&open, 0, 1), answer::NOT_FLAT);
    assert_eq!(flip_answer(&open, &[0, 1]), answer::OPEN);
}

#[test]
fn fact_8_a_kept_row_on_the_triangle_15() {
    let mut blocked = block_a();
    blocked.points.push([1, 2, 3]);
    let mut row = blocked.rows[0];
    row.numbers = [5, 2, 3, 4];
    blocked.rows.push(row);
    assert_eq!(remove_answer(&blocked, 0, 1), answer::NOT_ADMISSIBLE);
}

#[test]
fn fact_9_bad_ends_9_and_an_edge_in_no_row_10() {
    assert_eq!(remove_answer(&block_a(), 0, 0), answer::BAD_NUMBER);
    assert_eq!(remove_answer(&block_a(), 0, 5), answer::BAD_NUMBER);
    let mut sixth = block_a();
    sixth.points.push([9, 9, 9]);
    assert_eq!(remove_answer(&sixth, 0, 5), answer::NOT_HELD);
}

#[test]
fn fact_10_the_2_3_flip_gives_block_a_back() {
    let mut out = [0; BLOCK_BYTES];
    let number = flip(&block_a_after().to_bytes(), &[2, 3, 4], &mut out);
    assert_eq!((number, out), (answer::DONE, block_a().to_bytes()));
}

#[test]
fn fact_11_the_empty_block_ends_in_1_0_252_1() {
    let empty = patch(&[], &[], 0);
    assert_eq!(empty.to_bytes()[508..], [1, 0, 252, 1]);
    let mut out = [0; BLOCK_BYTES];
    assert_eq!(seal(&empty.to_fields(), &mut out), answer::DONE);
    assert_eq!(out[508..], [1, 0, 252, 1]);
}

#[test]
fn fact_12_the_best_tetrahedron() {
    let corners = [[0, 0, 0], [12, 12, 0], [12, 0, 12], [0, 12, 12]];
    let upright = match determinant(corners) > 0 {
        true => corners,
        false => [corners[1], corners[0], corners[2], corners[3]],
    };
    assert_eq!(determinant(upright), 3456);
    assert_eq!(edge_sum(upright), 1728);
    assert_eq!(score(upright), 1000);
    assert_eq!(badness(upright), Some(1));
}
