//! Plain flips: the same bytes for all orders of a face, the one undoing the other, and how many numbers there are.

mod common;

use common::*;
use compare::gen::cases;
use compare::model::{answer, flip, open, Call, Patch, Row};
use std::collections::BTreeSet;

/// The blocks and faces of generated 2-3 flips.
fn faces(seed: u64, count: u64) -> impl Iterator<Item = (Vec<u8>, [usize; 3])> {
    cases(seed, count).filter_map(|case| match case.call {
        Call::Flip {
            block,
            numbers,
            out,
        } if out.len() == 512 => Some((block, numbers.try_into().ok()?)),
        _ => None,
    })
}

fn flipped(block: &[u8], numbers: &[usize]) -> (u32, [u8; 512]) {
    let mut out = UNTOUCHED;
    (flip(block, numbers, &mut out), out)
}

#[test]
fn all_six_orders_of_a_face_write_the_same_bytes() {
    for (block, [u, v, w]) in faces(7, 8_000) {
        let one = flipped(&block, &[u, v, w]);
        for order in [[u, w, v], [v, u, w], [v, w, u], [w, u, v], [w, v, u]] {
            assert_eq!(one, flipped(&block, &order));
        }
    }
}

/// The two rows on the face and their points off it, smaller first.
fn pair(patch: &Patch, face: [usize; 3]) -> (Vec<Row>, [usize; 2]) {
    let numbers = face.map(|number| number as u8);
    let rows: Vec<Row> = patch
        .rows
        .iter()
        .copied()
        .filter(|row| row.holds(&numbers))
        .collect();
    let off = |row: &Row| {
        row.numbers
            .into_iter()
            .find(|n| !numbers.contains(n))
            .unwrap()
    };
    let mut apexes = [usize::from(off(&rows[0])), usize::from(off(&rows[1]))];
    apexes.sort_unstable();
    (rows, apexes)
}

#[test]
fn a_3_2_flip_undoes_a_2_3_flip() {
    let [mut undone, mut marked] = [0; 2];
    for (block, face) in faces(8, 15_000) {
        let (number, out) = flipped(&block, &face);
        if number != 0 {
            continue;
        }
        let before = open(&block).unwrap();
        let (_, [a, b]) = pair(&before, face);
        let both = [a as u8, b as u8];
        let apart = !before.rows.iter().any(|row| row.holds(&both));
        if apart {
            let (number, back) = flipped(&out, &[a, b]);
            assert_eq!(number, 0);
            assert_eq!(tetrahedra(&open(&back).unwrap()), tetrahedra(&before));
            undone += 1;
            marked += usize::from(!marked_set(&before).is_empty());
        }
    }
    assert!(undone > 100 && marked > 30, "{undone} {marked}");
}

#[test]
fn a_2_3_flip_appends_three_rows_round_the_apexes() {
    for (block, face) in faces(9, 8_000) {
        let (number, out) = flipped(&block, &face);
        if number != 0 {
            continue;
        }
        let (before, after) = (open(&block).unwrap(), open(&out).unwrap());
        let (gone, [a, b]) = pair(&before, face);
        let mut kept = before.rows.clone();
        kept.retain(|row| !gone.contains(row));
        let (old, new) = after.rows.split_at(kept.len());
        assert_eq!((old, new.len()), (&kept[..], 3));
        assert_eq!(after.points, before.points);
        assert_eq!(total_d(&after), total_d(&before));
        assert_eq!(d_by_region(&after), d_by_region(&before));
        let u = face.into_iter().min().unwrap() as u8;
        let [v, w] = [new[1].numbers[2], new[1].numbers[3]];
        let (a, b) = (a as u8, b as u8);
        let expected = [[a, b, u, v], [a, b, v, w], [a, b, w, u]];
        assert_eq!(
            new.iter().map(|row| row.numbers).collect::<Vec<_>>(),
            expected
        );
        let regions: BTreeSet<u8> = gone.iter().chain(new).map(|row| row.region).collect();
        assert_eq!(regions.len(), 1);
        let row_of_a = gone.iter().find(|row| row.numbers.contains(&a)).unwrap();
        let even = |row: &Row| tetrahedra(&patch(&[], &[row.numbers], 0));
        let arranged = Row::plain([a, u, v, w], 0);
        assert_eq!(even(row_of_a), even(&arranged));
    }
}

#[test]
fn answer_18_stands_before_20_then_14_and_15() {
    let points = vec![[0; 3]; 64];
    let two = [[0, 2, 3, 4], [0, 2, 4, 3]];
    let one_apex = filled(patch(&points, &two, 0), 60, 7);
    let three = [[0, 2, 3, 4], [1, 2, 4, 3], [0, 1, 3, 6]];
    let mut used = filled(patch(&points, &three, 0), 60, 7);
    let in_regions = |patch: &Patch, number: u32| {
        for joint in in_two_regions(patch, &[2, 3, 4]) {
            assert_eq!(flip_answer(&joint, &[2, 3, 4]), number);
        }
    };
    assert_eq!(flip_answer(&one_apex, &[2, 3, 4]), 18);
    in_regions(&one_apex, 18);
    assert_eq!(flip_answer(&used, &[2, 3, 4]), 14);
    in_regions(&used, 20);
    used.rows.pop();
    assert_eq!(flip_answer(&used, &[2, 3, 4]), 15);
    in_regions(&used, 20);
    in_regions(&block_a_after(), 20);
    for face in [[2, 3, 3], [2, 3, 64]] {
        assert_eq!(flip_answer(&in_two_regions(&used, &[2, 3, 4])[0], &face), 9);
    }
}

/// The numbers of a flip that is done, cut or lengthened to any other count, and numbers of no point.
#[test]
fn only_two_numbers_are_an_edge_and_only_three_a_face() {
    let (three, two) = (block_a().to_bytes(), block_a_after().to_bytes());
    assert_eq!(flipped(&three, &[0, 1]).0, answer::DONE);
    assert_eq!(flipped(&two, &[2, 3, 4]).0, answer::DONE);
    let refused = (answer::NOT_TWO_OR_THREE, UNTOUCHED);
    for count in (0..40).filter(|count| ![2, 3].contains(count)) {
        for (block, numbers) in [(&three, &[0, 1][..]), (&two, &[2, 3, 4])] {
            let again: Vec<usize> = numbers.iter().copied().cycle().take(count).collect();
            assert_eq!(flipped(block, &again), refused, "{count}");
            assert_eq!(flipped(block, &vec![usize::MAX; count]), refused, "{count}");
        }
    }
    assert_eq!(flipped(&three, &[0, 1, 2]).0, answer::NOT_ADMISSIBLE);
    assert_eq!(flipped(&two, &[2, 3]).0, answer::OPEN);
}
