//! What does not matter: the order of the ends, and of the rows and their numbers up to what the requirement says of kept
//! rows.

mod common;

use common::*;
use compare::gen::{cases, Random};
use compare::model::removal::removal;
use compare::model::summary::worst_row;
use compare::model::{answer, flip, open, run, Call, Outcome, Patch, Quality, Row, Summary};

fn swapped(call: &Call) -> Option<Call> {
    let mut other = call.clone();
    match &mut other {
        Call::Remove { ends, .. } | Call::Page { ends, .. } => ends.reverse(),
        Call::Flip { numbers, .. } => numbers.reverse(),
        Call::Printout { input } => {
            let last = input.len().checked_sub(1)?;
            input.swap(last.checked_sub(1)?, last);
        }
        _ => return None,
    }
    Some(other)
}

#[test]
fn either_order_of_the_numbers_has_the_same_outcome() {
    let right_length = |call: &Call| match call {
        Call::Printout { input } => input.len() == 514,
        _ => true,
    };
    for case in cases(2, 2_000).filter(|case| right_length(&case.call)) {
        if let Some(other) = swapped(&case.call) {
            assert_eq!(run(&case.call), run(&other));
        }
    }
}

/// Both patches have the same worst, and the same is shown of it; only equal fractions with other parts may be shown as two f64.
#[track_caller]
fn one_worst(patches: [&Patch; 2], shown: [f64; 2]) {
    let worst = |patch: &Patch| {
        let row = worst_row(patch).expect("rows");
        Quality::of(patch.corners(row))
    };
    let [one, two] = patches.map(worst);
    assert_eq!(one, two);
    assert!(shown[0] == shown[1] || one.numerator != two.numerator);
}

#[test]
fn row_order_and_even_rearrangement_change_only_kept_rows() {
    let mut random = Random::of_case(3, 0);
    let mut marked = 0;
    for (patch, [a, b]) in edges(3, 2_500) {
        let other = rearranged(&patch, &mut random);
        assert_eq!(Summary::of(&patch), Summary::of(&other));
        let kept: Vec<Row> = other
            .rows
            .iter()
            .copied()
            .filter(|row| !holds(row, a, b))
            .collect();
        match (removal(patch, a, b), removal(other, a, b)) {
            (Ok(one), Ok(two)) => {
                assert_eq!(one.ring, two.ring);
                assert_eq!(one.new_rows, two.new_rows);
                assert_eq!(tetrahedra(&one.after), tetrahedra(&two.after));
                marked += usize::from(!marked_set(&two.after).is_empty());
                let pages = [one.page, two.page];
                one_worst([&one.before, &two.before], pages.map(|page| page.before));
                one_worst([&one.after, &two.after], pages.map(|page| page.after));
                assert_eq!(Summary::of(&one.after), Summary::of(&two.after));
                assert_eq!(two.after.rows[..kept.len()], kept[..]);
            }
            (one, two) => assert_eq!(one.err(), two.err()),
        }
    }
    assert!(marked > 30, "{marked}");
}

/// The three numbers of a face in any order, too.
#[test]
fn a_flip_writes_the_same_rows_behind_the_kept_ones_whatever_their_order() {
    let mut random = Random::of_case(6, 0);
    let [mut done, mut refused, mut marked] = [0; 3];
    for case in cases(6, 6_000) {
        let Call::Flip { block, numbers, .. } = &case.call else {
            continue;
        };
        let Ok(patch) = open(block) else {
            continue;
        };
        let other = rearranged(&patch, &mut random).to_bytes();
        let [mut one, mut two] = [UNTOUCHED; 2];
        let number = flip(block, numbers, &mut one);
        assert_eq!(flip(&other, numbers, &mut two), number);
        if number != 0 {
            refused += usize::from(number == answer::TWO_REGIONS);
            continue;
        }
        let [one, two] = [one, two].map(|block| open(&block).expect("it opens").rows);
        let new = match numbers.len() {
            2 => 2,
            _ => 3,
        };
        let [one, two] = [one, two].map(|rows| rows[rows.len() - new..].to_vec());
        assert_eq!(one, two);
        marked += usize::from(one.iter().any(|row| row.marks != [false; 4]));
        done += 1;
    }
    assert!(done > 200 && refused > 200, "{done} {refused}");
    assert!(marked > 50, "{marked}");
}

fn holds(row: &Row, a: usize, b: usize) -> bool {
    let held = row.numbers.map(usize::from);
    held.contains(&a) && held.contains(&b)
}

#[test]
fn an_odd_rearrangement_matters() {
    let mut odd = block_a();
    odd.rows[0].numbers.swap(0, 1);
    assert_eq!(remove_answer(&odd, 0, 1), 8);
    odd.rows.truncate(1);
    assert_eq!(remove_answer(&odd, 0, 1), 13);
}

#[test]
fn the_3_2_flip_writes_what_the_removal_of_a_ring_of_3_writes() {
    let (mut agreed, mut open) = (0, 0);
    for (patch, [a, b]) in edges(4, 4_000) {
        let block = patch.to_bytes();
        let held = patch.rows.iter().filter(|row| holds(row, a, b)).count();
        if let Ok(removal) = removal(patch, a, b) {
            let mut out = UNTOUCHED;
            let number = flip(&block, &[a, b], &mut out);
            match (removal.ring.len() == held, held) {
                (true, 3) => {
                    assert_eq!((number, out), (0, removal.after.to_bytes()));
                    agreed += 1;
                }
                (true, _) => assert_eq!((number, out), (13, UNTOUCHED)),
                (false, _) => {
                    assert_eq!((number, out), (11, UNTOUCHED));
                    open += 1;
                }
            }
        }
    }
    assert!(agreed > 20 && open > 20, "{agreed} {open}");
}

#[test]
fn the_page_row_is_plus_zero_for_flat() {
    let pages = cases(5, 6_000).filter(|case| matches!(case.call, Call::Page { .. }));
    let pages = pages.filter_map(|case| match run(&case.call) {
        Outcome::Page(0, row) => Some(row),
        _ => None,
    });
    let bits: Vec<u64> = pages.flatten().collect();
    assert!(bits.contains(&0.0f64.to_bits()));
    assert!(!bits.contains(&(-0.0f64).to_bits()));
}
