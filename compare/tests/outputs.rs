//! What a call may write: a refusal nothing, answer 0 a block that keeps what has to be kept.

mod common;

use common::{d_by_region, marked_set, total_d};
use compare::gen::cases;
use compare::model::mesh::mesh_rule;
use compare::model::{open, run, summary, Call, Outcome, Patch};

fn came_with(call: &Call) -> Outcome {
    match call.clone() {
        Call::Seal { out, .. } | Call::Remove { out, .. } | Call::Flip { out, .. } => {
            Outcome::Bytes(0, out)
        }
        Call::Summary { out, .. } => Outcome::Numbers(0, out),
        Call::Shown { out, .. } => Outcome::Shown(0, out.into_iter().map(f64::to_bits).collect()),
        Call::Page { row, .. } => Outcome::Page(0, row.into_iter().map(f64::to_bits).collect()),
        Call::Open { .. } | Call::Printout { .. } => Outcome::Answer(0),
    }
}

#[test]
fn a_refusal_leaves_every_element_of_the_output() {
    for case in cases(12, 4_000) {
        match (run(&case.call), came_with(&case.call)) {
            (Outcome::Bytes(number, out), Outcome::Bytes(_, came)) if number != 0 => {
                assert_eq!(out, came);
            }
            (Outcome::Numbers(number, out), Outcome::Numbers(_, came)) if number != 0 => {
                assert_eq!(out, came);
            }
            (Outcome::Shown(number, out), Outcome::Shown(_, came)) if number != 0 => {
                assert_eq!(out, came);
            }
            (Outcome::Page(number, row), Outcome::Page(_, came)) if number != 0 => {
                assert_eq!(row, came);
            }
            (Outcome::Text(text), _) => {
                assert!(text.starts_with("answer 0\n") || text.lines().count() == 1);
            }
            _ => {}
        }
    }
}

/// The rows of the input that the call does not touch.
fn untouched(call: &Call, before: &Patch) -> Patch {
    let numbers: &[usize] = match call {
        Call::Remove { ends, .. } => ends,
        Call::Flip { numbers, .. } => numbers,
        _ => unreachable!("calls that write a block"),
    };
    let touched: Vec<u8> = numbers.iter().map(|n| *n as u8).collect();
    let mut kept = before.clone();
    kept.rows.retain(|row| !row.holds(&touched));
    kept
}

#[test]
fn a_written_block_keeps_version_points_kept_rows_marks_mesh_rule_and_total_d_of_each_region() {
    let [mut removals, mut edges, mut faces] = [0; 3];
    let mut marked = [0; 3];
    for case in cases(13, 8_000) {
        let block = match &case.call {
            Call::Remove { block, .. } | Call::Flip { block, .. } => block,
            _ => continue,
        };
        let Outcome::Bytes(0, out) = run(&case.call) else {
            continue;
        };
        let (before, after) = (open(block).unwrap(), open(&out).unwrap());
        let kept = untouched(&case.call, &before);
        assert_eq!(
            (after.version, &after.points),
            (before.version, &before.points)
        );
        assert_eq!(marked_set(&after), marked_set(&before));
        assert_eq!(after.rows[..kept.rows.len()], kept.rows[..]);
        assert!(mesh_rule(&after.rows, after.points.len()));
        assert_eq!(total_d(&after), total_d(&before));
        assert_eq!(d_by_region(&after), d_by_region(&before));
        assert_eq!(after.to_bytes()[..], out[..]);
        let counts = summary(&out).unwrap();
        assert_eq!(
            counts.upright + counts.flat + counts.inverted,
            after.rows.len()
        );
        let has_marks = usize::from(!marked_set(&before).is_empty());
        match &case.call {
            Call::Flip { numbers, .. } if numbers.len() == 3 => {
                faces += 1;
                marked[2] += has_marks;
            }
            Call::Flip { .. } => {
                edges += 1;
                marked[1] += has_marks;
            }
            _ => {
                removals += 1;
                marked[0] += has_marks;
            }
        }
    }
    assert!(
        removals > 500 && edges > 80 && faces > 200,
        "{removals} {edges} {faces}"
    );
    assert!(
        marked[0] > 100 && marked[1] > 30 && marked[2] > 50,
        "{marked:?}"
    );
}
