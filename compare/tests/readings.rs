//! Points of the requirement that are easy to take another way.

mod common;

use common::*;
use compare::model::block::with_sums;
use compare::model::{answer, flip, open, printout, remove, Patch, Quality, Removal, Row, Summary};
use std::collections::BTreeSet;

fn removed(patch: &Patch) -> Removal {
    let mut out = UNTOUCHED;
    remove(&patch.to_bytes(), 0, 1, &mut out).unwrap()
}

#[test]
fn better_is_measured_against_the_removed_rows() {
    let mut patch = block_a();
    patch
        .points
        .extend([[0, 0, 0], [1, 0, 0], [50, 1, 0], [0, 0, 1]]);
    patch.rows.push(Row::plain([5, 6, 7, 8], 0));
    let removal = removed(&patch);
    assert_eq!(removal.page.before, removal.page.after);
    assert!(removal.page.before.abs() < 0.01);
    assert_eq!(Summary::of(&patch).worst, Summary::of(&removal.after).worst);
}

/// Block A, two rows of its result, and the plate: an edge that is removed or flipped, a face, and an edge with a chain.
fn sites() -> [(Patch, &'static [u8]); 3] {
    [
        (block_a(), &[0, 1]),
        (block_a_after(), &[2, 3, 4]),
        (plate(), &[0, 1]),
    ]
}

/// The patches that a removal and a flip leave, or their answers; a face is only flipped.
fn left(patch: &Patch, numbers: &[u8]) -> Vec<Result<Patch, u32>> {
    let numbers: Vec<usize> = numbers.iter().copied().map(usize::from).collect();
    let (block, mut out) = (patch.to_bytes(), UNTOUCHED);
    let flipped = match flip(&block, &numbers, &mut out) {
        answer::DONE => Ok(open(&out).expect("it opens")),
        number => Err(number),
    };
    let removed = match numbers[..] {
        [a, b] => Some(remove(&block, a, b, &mut UNTOUCHED.clone()).map(|removal| removal.after)),
        _ => None,
    };
    removed.into_iter().chain([flipped]).collect()
}

#[test]
fn rows_of_one_region_leave_rows_of_that_region() {
    for (mut patch, numbers) in sites() {
        for region in 0..=255 {
            patch.rows.iter_mut().for_each(|row| row.region = region);
            for after in left(&patch, numbers) {
                let Ok(after) = after else {
                    assert_eq!((after, &patch.points), (Err(answer::OPEN), &plate().points));
                    continue;
                };
                assert!(after.rows.iter().all(|row| row.region == region));
            }
        }
    }
}

/// Every row with every other region, also one that only its upper bits tell from the others.
#[test]
fn rows_of_more_than_one_region_are_refused() {
    for (patch, numbers) in sites() {
        for at in 0..patch.rows.len() {
            for change in 1..=255 {
                let mut other = patch.clone();
                other.rows[at].region ^= change;
                for after in left(&other, numbers) {
                    let open = patch == plate() && after == Err(answer::OPEN);
                    assert!(open || after == Err(answer::TWO_REGIONS), "{after:?}");
                }
            }
        }
    }
    let mut each_another = block_a();
    for (index, row) in each_another.rows.iter_mut().enumerate() {
        row.region = 10 + index as u8;
    }
    assert_eq!(remove_answer(&each_another, 0, 1), answer::TWO_REGIONS);
    assert_eq!(flip_answer(&each_another, &[0, 1]), answer::TWO_REGIONS);
}

#[test]
fn only_one_region_is_taken_of_every_way_to_share_two() {
    let [mut taken, mut refused] = [0; 2];
    for (patch, one) in rings_and_chains().flat_map(shared_in_every_way) {
        let number = remove_answer(&patch, 0, 1);
        match one {
            true => assert!([answer::DONE, answer::NONE_BETTER].contains(&number)),
            false => assert_eq!(number, answer::TWO_REGIONS),
        }
        taken += usize::from(number == answer::DONE);
        refused += usize::from(!one);
    }
    assert!(taken > 10 && refused > 3_000, "{taken} {refused}");
    for (patch, one) in shared_in_every_way(block_a()) {
        assert_eq!(flip_answer(&patch, &[0, 1]) == answer::DONE, one);
    }
    for (patch, one) in shared_in_every_way(block_a_after()) {
        assert_eq!(flip_answer(&patch, &[2, 3, 4]) == answer::DONE, one);
    }
}

/// Rows that hold one end of the edge, two points of the face, or nothing of either.
#[test]
fn the_regions_of_kept_rows_do_not_matter() {
    for (mut patch, numbers) in sites() {
        let rows = patch.rows.len();
        let expected = left(&patch, numbers);
        patch.points.resize(20, [9, 9, 9]);
        for (region, four) in [
            (0, [0, 17, 18, 19]),
            (9, [19, 2, 18, 1]),
            (8, [3, 2, 16, 18]),
        ] {
            patch.rows.insert(0, Row::plain(four, region));
        }
        for (after, expected) in left(&patch, numbers).into_iter().zip(expected) {
            let new = |patch: Patch| patch.rows[patch.rows.len() - rows + 1..].to_vec();
            assert_eq!(after.map(new), expected.map(new));
        }
    }
}

#[test]
fn the_side_v1_vm_is_no_diagonal() {
    let mut patch = block_a();
    patch.points.push([0, 5, 20]);
    let (a, v1, vm) = (0, 2, 4);
    for numbers in [[5, a, vm, v1], [1, vm, v1, 5]] {
        patch.rows.push(Row::plain(numbers, 0));
    }
    assert_eq!(removed(&patch).ring, [2, 3, 4]);
}

#[test]
fn a_face_of_an_end_with_a_diagonal_blocks_it() {
    let points = [
        [64, 64, 128],
        [64, 64, 0],
        [96, 64, 64],
        [64, 96, 64],
        [32, 64, 64],
        [64, 32, 64],
        [5, 5, 5],
    ];
    let ring = [[0, 1, 2, 3], [0, 1, 3, 4], [0, 1, 4, 5], [0, 1, 5, 2]];
    let free = patch(&points, &ring, 0);
    let by_3_5 = [[0, 2, 3, 5], [2, 3, 5, 1], [0, 3, 4, 5], [3, 4, 5, 1]];
    let by_2_4 = [[0, 2, 4, 5], [2, 4, 5, 1], [0, 2, 3, 4], [2, 3, 4, 1]];
    let written = |removal: Removal| {
        removal
            .new_rows
            .iter()
            .map(|r| r.numbers)
            .collect::<Vec<_>>()
    };
    assert_eq!(written(removed(&free)), by_3_5);
    for end in [0, 1] {
        for numbers in [[6, end, 3, 5], [6, end, 5, 3]] {
            let mut blocked = free.clone();
            blocked.rows.push(Row::plain(numbers, 0));
            assert_eq!(written(removed(&blocked)), by_2_4);
            let numbers = [6, end, 2, 4];
            blocked.rows.push(Row::plain(numbers, 0));
            assert_eq!(remove_answer(&blocked, 0, 1), answer::NOT_ADMISSIBLE);
        }
    }
}

#[test]
fn a_better_fraction_is_better_though_its_f64_is_the_same() {
    let points = [
        [28, 86, 62],
        [90, 35, 65],
        [41, 95, 126],
        [92, 78, 64],
        [92, 65, 37],
        [47, 31, 63],
    ];
    let ring = [[0, 1, 2, 3], [0, 1, 3, 4], [0, 1, 4, 5], [0, 1, 5, 2]];
    let removal = removed(&patch(&points, &ring, 0));
    assert_eq!(removal.page.before, 0.1795533769218966);
    assert_eq!(removal.page.after, 0.1795533769218966);
    let worst = |patch: &Patch| {
        let qualities = patch.rows.iter().map(|row| Quality::of(patch.corners(row)));
        qualities.min().unwrap()
    };
    assert!(worst(&removal.after) > worst(&removal.before));
}

/// The bits of a row's last byte, one by one: that of a face is the one whose number the face has not.
#[test]
fn a_mark_lies_opposite_to_a_number_of_its_row() {
    let unmarked = with_marked(&patch(&block_a().points, &[[4, 1, 3, 2]], 9), &[]);
    let opposite = [[1, 2, 3], [2, 3, 4], [1, 2, 4], [1, 3, 4]];
    for (bit, face) in [16, 32, 64, 128].into_iter().zip(opposite) {
        let mut fields = unmarked.to_fields();
        fields[212] += bit;
        let marked = open(&with_sums(&fields)).expect("one row agrees with itself");
        assert_eq!(marked.rows[0].region, 9);
        assert_eq!(marked_set(&marked).into_iter().collect::<Vec<_>>(), [face]);
        assert_eq!(marked, with_marked(&unmarked, &[face]));
    }
}

/// In version 1 the upper bits are the region's.
#[test]
fn version_1_has_no_marks() {
    for region in [7, 0x17, 0xF7, 0xFF] {
        let mut plain = block_a();
        plain.rows.iter_mut().for_each(|row| row.region = region);
        let after = removed(&plain).after;
        assert_eq!(after.version, 1);
        assert!(after.rows.iter().all(|row| row.region == region));
        assert!(marked_set(&open(&plain.to_bytes()).unwrap()).is_empty());
    }
}

/// The shell's faces stay and keep their marks, whichever of the two new rows has them.
#[test]
fn marks_of_the_shell_pass_to_the_new_rows() {
    let shell = [
        [0, 2, 3],
        [0, 3, 4],
        [0, 2, 4],
        [1, 2, 3],
        [1, 3, 4],
        [1, 2, 4],
    ];
    for ways in 0..1 << 6 {
        let chosen = (0..6).filter(|n| ways >> n & 1 == 1).map(|n| shell[n]);
        let chosen: Vec<[u8; 3]> = chosen.collect();
        let before = with_marked(&block_a(), &chosen);
        let after = with_marked(&block_a_after(), &chosen);
        for left in left(&before, &[0, 1]) {
            assert_eq!(left, Ok(after.clone()));
        }
        assert_eq!(left(&after, &[2, 3, 4]), [Ok(before)]);
    }
}

/// The faces with both ends of an edge, and a face that is flipped.
#[test]
fn a_marked_face_that_would_go_is_refused() {
    for (patch, numbers) in sites() {
        let marked = with_one_marked(&patch, numbers);
        let rows = patch.rows.len();
        let chain = patch == plate();
        assert_eq!(
            marked.len(),
            match (numbers.len(), chain) {
                (3, _) => 1,
                (_, true) => rows + 1,
                _ => rows,
            }
        );
        for patch in marked {
            for after in left(&patch, numbers) {
                let open = chain && after == Err(answer::OPEN);
                assert!(open || after == Err(answer::MARK_GOES), "{after:?}");
            }
        }
    }
}

/// A plate whose outer face is marked keeps its edges; marked below, it loses them.
#[test]
fn the_outer_faces_of_a_chain_go_with_the_edge() {
    for outer in [[0, 1, 2], [0, 1, 3]] {
        let marked = with_marked(&plate(), &[outer]);
        assert_eq!(remove_answer(&marked, 0, 1), answer::MARK_GOES);
    }
    let below = [[0, 2, 4], [1, 4, 5], [0, 3, 5]];
    let after = removed(&with_marked(&plate(), &below)).after;
    assert_eq!(marked_set(&after), BTreeSet::from(below));
}

/// A row on the other side of the face with which the chain closes has the say about its mark; before there is no such face.
#[test]
fn a_closing_face_takes_the_mark_of_the_row_across() {
    let (v1, vm) = (3, 2);
    for [p, q, r] in [[0, vm, v1], [1, v1, vm]] {
        let mut patch = plate();
        patch.points.push([12, 8, 30]);
        patch.rows.push(Row::plain([6, p, q, r], 1));
        for marked in [&[][..], &[[p, q, r]]] {
            let before = with_marked(&patch, marked);
            let removal = removed(&before);
            let on_it = |row: &&Row| row.holds(&[p, q, r]);
            let rows: Vec<&Row> = removal.after.rows.iter().filter(on_it).collect();
            assert_eq!(rows.len(), 2);
            assert_eq!(marked_set(&removal.after), marked_set(&before));
            assert_eq!(open(&removal.after.to_bytes()), Ok(removal.after));
        }
        // The same way round the new row cannot have it.
        patch.rows.last_mut().unwrap().numbers.swap(2, 3);
        let along = with_marked(&patch, &[[p, q, r]]);
        assert_eq!(remove_answer(&along, 0, 1), answer::NOT_ADMISSIBLE);
    }
}

/// New faces lie between two new rows, and are not marked.
#[test]
fn new_faces_are_not_marked() {
    let everything = [
        [0, 2, 3],
        [0, 3, 4],
        [0, 2, 4],
        [1, 2, 3],
        [1, 3, 4],
        [1, 2, 4],
    ];
    let after = removed(&with_marked(&block_a(), &everything)).after;
    assert!(!marked_set(&after).contains(&[2, 3, 4]));
    let Ok(back) = &left(&after, &[2, 3, 4])[0] else {
        panic!("it flips back");
    };
    assert!(marked_set(back)
        .iter()
        .all(|face| !(face.contains(&0) && face.contains(&1))));
}

/// Rows of one region with other marks have one region; in version 1 such bytes are two regions.
#[test]
fn regions_are_compared_without_the_marks() {
    let marked = block_a_marked();
    assert!(marked
        .rows
        .windows(2)
        .all(|two| two[0].marks != two[1].marks));
    assert_eq!(remove_answer(&marked, 0, 1), answer::DONE);
    let mut fields = marked.to_fields();
    fields[0] = 1;
    let plain = open(&with_sums(&fields)).expect("it opens");
    assert_eq!(remove_answer(&plain, 0, 1), answer::TWO_REGIONS);
    for joint in in_two_regions(&marked, &[0, 1]) {
        assert_eq!(remove_answer(&joint, 0, 1), answer::TWO_REGIONS);
    }
}

/// And is printed so: 0 to 15, whatever the marks.
#[test]
fn a_row_is_printed_with_its_region_alone() {
    let input = |patch: &Patch| [&patch.to_bytes()[..], &[0, 1]].concat();
    assert_eq!(
        printout(&input(&block_a_marked())),
        printout(&input(&block_a()))
    );
}
