//! Summaries against their sentences, row by row.

use compare::gen::cases;
use compare::model::measure::{badness, determinant, score};
use compare::model::{open, summary, Call, Patch};

/// The patches of generated summaries.
fn patches() -> impl Iterator<Item = Patch> {
    cases(21, 6_000).filter_map(|case| match case.call {
        Call::Summary { block, .. } => open(&block).ok(),
        _ => None,
    })
}

#[test]
fn counts_are_of_the_sign_of_d() {
    for patch in patches() {
        let counts = summary(&patch.to_bytes()).unwrap();
        let of_sign = |sign: i64| {
            let signs = patch.rows.iter().map(|row| determinant(patch.corners(row)));
            signs.filter(|d| d.signum() == sign).count()
        };
        assert_eq!(counts.upright, of_sign(1));
        assert_eq!(counts.flat, of_sign(0));
        assert_eq!(counts.inverted, of_sign(-1));
    }
}

#[test]
fn the_worst_score_is_the_smallest_and_missing_without_rows() {
    for patch in patches() {
        let scores = patch.rows.iter().map(|row| score(patch.corners(row)));
        assert_eq!(summary(&patch.to_bytes()).unwrap().worst, scores.min());
    }
}

#[test]
fn the_octave_is_of_the_upright_rows_only() {
    let (mut marks, mut mixed) = (0, 0);
    for patch in patches() {
        let upright = patch
            .rows
            .iter()
            .filter_map(|row| badness(patch.corners(row)));
        let upright: Vec<u64> = upright.collect();
        let (n, sum) = (upright.len() as u64, upright.iter().sum::<u64>());
        match summary(&patch.to_bytes()).unwrap().octave {
            None => {
                assert_eq!(n, 0);
                marks += 1;
            }
            Some(e) => {
                assert!(n > 0 && n << e <= sum && sum < n << (e + 1));
                mixed += u32::from(upright.len() < patch.rows.len());
            }
        }
    }
    assert!(marks > 20 && mixed > 20);
}
