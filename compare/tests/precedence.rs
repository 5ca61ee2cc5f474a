//! "Numbered answers, tested from the top": of two that hold at once, the upper one is given.

mod common;

use common::*;
use compare::model::block::with_sums;
use compare::model::{answer, flip, open, seal, Patch, Row};

/// The answers that the fields of a block can get.
const OF_FIELDS: [u32; 6] = [
    answer::VERSION,
    answer::COUNT,
    answer::NOT_ZERO,
    answer::ROW,
    answer::FACE_TWICE,
    answer::MARKS_DISAGREE,
];

/// Block A in version 2, without a mark.
fn fields_of_a() -> [u8; 508] {
    with_marked(&block_a(), &[]).to_fields()
}

/// One way to spoil the fields of block A for each of them.
fn spoil(fields: &mut [u8; 508], number: u32) {
    match number {
        answer::VERSION => fields[0] = 3,
        answer::COUNT => fields[2] = 61,
        answer::NOT_ZERO => fields[15] = 1,
        answer::ROW => fields[208] = fields[209],
        answer::FACE_TWICE => {
            let third: [u8; 4] = [0, 1, 4, 2];
            fields[213..217].copy_from_slice(&third);
        }
        answer::MARKS_DISAGREE => fields[212] |= 64,
        _ => unreachable!("another answer"),
    }
}

#[test]
fn of_two_faults_in_a_block_the_smaller_number_wins() {
    for (at, one) in OF_FIELDS.into_iter().enumerate() {
        for other in OF_FIELDS[at..].iter().copied() {
            let mut fields = fields_of_a();
            spoil(&mut fields, other);
            spoil(&mut fields, one);
            let mut out = UNTOUCHED;
            assert_eq!(seal(&fields, &mut out), one, "{one} and {other}");
            assert_eq!(open(&with_sums(&fields)), Err(one));
            let mut block = with_sums(&fields);
            block[510] ^= 1;
            assert_eq!(open(&block), Err(answer::SUM));
        }
    }
}

#[test]
fn a_bad_block_comes_before_bad_numbers_and_a_bad_count_of_them() {
    for number in [answer::FACE_TWICE, answer::MARKS_DISAGREE] {
        let mut fields = fields_of_a();
        spoil(&mut fields, number);
        let block = with_sums(&fields);
        let mut out = UNTOUCHED;
        let removal = compare::model::remove(&block, 9, 9, &mut out);
        assert_eq!(removal.err(), Some(number));
        for count in 0..6 {
            assert_eq!(flip(&block, &vec![9; count], &mut out), number);
        }
    }
}

#[test]
fn a_wrong_count_comes_behind_every_fault_of_a_block() {
    let mut out = UNTOUCHED;
    for number in OF_FIELDS {
        let mut fields = fields_of_a();
        spoil(&mut fields, number);
        let mut block = with_sums(&fields);
        for numbers in [&[][..], &[0], &[9], &[0, 1, 2, 3], &[0, 1, 2, 9]] {
            assert_eq!(flip(&block, numbers, &mut out), number);
            assert_eq!(flip(&block[..511], numbers, &mut out), answer::LENGTH);
            assert_eq!(flip(&block, numbers, &mut out[..511]), answer::LENGTH);
        }
        block[510] ^= 1;
        assert_eq!(flip(&block, &[], &mut out), answer::SUM);
    }
}

#[test]
fn a_wrong_count_comes_before_a_bad_number() {
    let block = block_a().to_bytes();
    let mut out = UNTOUCHED;
    for bad in [5, 64, 256, 1 << 32, usize::MAX] {
        for numbers in [&[bad][..], &[bad; 4], &[0, 1, 2, bad], &[bad; 40]] {
            assert_eq!(flip(&block, numbers, &mut out), answer::NOT_TWO_OR_THREE);
        }
        assert_eq!(flip(&block, &[0, bad], &mut out), answer::BAD_NUMBER);
        assert_eq!(flip(&block, &[0, 1, bad], &mut out), answer::BAD_NUMBER);
    }
}

/// 64 points and rows (0,1,v,w) for these links.
fn linked(links: &[(u8, u8)]) -> Patch {
    let points: Vec<[u8; 3]> = (0..64).map(|n| [n, n / 2, 255 - n]).collect();
    let rows: Vec<[u8; 4]> = links.iter().map(|(v, w)| [0, 1, *v, *w]).collect();
    patch(&points, &rows, 0)
}

fn circle(from: u8, m: u8) -> Vec<(u8, u8)> {
    (0..m)
        .map(|step| (from + step, from + (step + 1) % m))
        .collect()
}

#[test]
fn an_open_chain_comes_before_more_than_one_circle() {
    let two = [circle(2, 3), circle(5, 4)].concat();
    assert_eq!(remove_answer(&linked(&two), 0, 1), answer::CIRCLES);
    let with_chain = [two, vec![(20, 21)]].concat();
    assert_eq!(remove_answer(&linked(&with_chain), 0, 1), answer::OPEN);
    let beside = [circle(2, 3), vec![(20, 21)]].concat();
    assert_eq!(remove_answer(&linked(&beside), 0, 1), answer::OPEN);
}

#[test]
fn more_than_one_circle_comes_before_a_wrong_length() {
    let short = [circle(2, 2), circle(4, 2)].concat();
    assert_eq!(remove_answer(&linked(&short), 0, 1), answer::CIRCLES);
    let long = [circle(2, 11), circle(20, 12)].concat();
    assert_eq!(remove_answer(&linked(&long), 0, 1), answer::CIRCLES);
}

#[test]
fn a_wrong_length_comes_before_room() {
    let full = filled(linked(&circle(2, 11)), 60, 13);
    assert_eq!(remove_answer(&full, 0, 1), answer::RING_LENGTH);
    assert_eq!(
        remove_answer(&linked(&circle(2, 2)), 0, 1),
        answer::RING_LENGTH
    );
    assert_eq!(
        remove_answer(&linked(&circle(2, 60)), 0, 1),
        answer::RING_LENGTH
    );
}

/// The answer of a removal, or of a 3-2 flip, whichever of the edge's rows alone has another region.
#[track_caller]
fn in_regions(patch: &Patch, number: u32, answer_of: fn(&Patch) -> u32) {
    let joints = in_two_regions(patch, &[0, 1]);
    assert!(joints.len() > 1);
    for joint in joints {
        assert_eq!(answer_of(&joint), number);
    }
}

fn removed(patch: &Patch) -> u32 {
    remove_answer(patch, 0, 1)
}

fn flipped(patch: &Patch) -> u32 {
    flip_answer(patch, &[0, 1])
}

#[test]
fn what_is_wrong_with_the_links_comes_before_two_regions() {
    let two = [circle(2, 3), circle(5, 4)].concat();
    let with_chain = [circle(2, 3), vec![(20, 21)]].concat();
    let lengths = [circle(2, 2), circle(2, 11), circle(2, 60)];
    for answer_of in [removed, flipped] {
        in_regions(&linked(&two), answer::CIRCLES, answer_of);
        in_regions(&linked(&with_chain), answer::OPEN, answer_of);
        for length in &lengths {
            in_regions(&linked(length), answer::RING_LENGTH, answer_of);
        }
    }
    in_regions(&linked(&circle(2, 4)), answer::RING_LENGTH, flipped);
    let long: Vec<(u8, u8)> = (2..12).map(|v| (v, v + 1)).collect();
    in_regions(&linked(&long), answer::RING_LENGTH, removed);
}

#[test]
fn not_flat_comes_before_two_regions() {
    let mut bent = plate();
    bent.points[2][2] -= 1;
    in_regions(&bent, answer::NOT_FLAT, removed);
    in_regions(&plate(), answer::TWO_REGIONS, removed);
    in_regions(&plate(), answer::OPEN, flipped);
}

#[test]
fn two_regions_come_before_room() {
    for m in 5..=10 {
        let full = filled(linked(&circle(2, m)), 60, m + 2);
        assert_eq!(removed(&full), answer::ROOM);
        in_regions(&full, answer::TWO_REGIONS, removed);
    }
    let mut full = plate();
    full.points.resize(64, [1, 2, 3]);
    let full = filled(full, 60, 6);
    assert_eq!(removed(&full), answer::ROOM);
    in_regions(&full, answer::TWO_REGIONS, removed);
}

#[test]
fn two_regions_come_before_not_admissible_and_none_better() {
    let mut blocked = block_a();
    blocked.points.push([1, 2, 3]);
    let (numbers, region) = ([5, 2, 3, 4], 7);
    blocked.rows.push(Row::plain(numbers, region));
    for answer_of in [removed, flipped] {
        assert_eq!(answer_of(&blocked), answer::NOT_ADMISSIBLE);
        in_regions(&blocked, answer::TWO_REGIONS, answer_of);
        in_regions(&block_a(), answer::TWO_REGIONS, answer_of);
    }
    let mut lower = block_a();
    lower.points[0] = [4, 4, 7];
    assert_eq!(removed(&lower), answer::NONE_BETTER);
    in_regions(&lower, answer::TWO_REGIONS, removed);
}

/// The answer of a removal, or of a 3-2 flip, whichever face that goes is marked alone.
#[track_caller]
fn in_marks(patch: &Patch, number: u32, answer_of: fn(&Patch) -> u32) {
    let marked = with_one_marked(patch, &[0, 1]);
    assert!(marked.len() > 1);
    for patch in marked {
        assert_eq!(answer_of(&patch), number);
    }
}

#[test]
fn what_is_wrong_with_the_links_comes_before_a_marked_face() {
    let two = [circle(2, 3), circle(5, 4)].concat();
    let with_chain = [circle(2, 3), vec![(20, 21)]].concat();
    let lengths = [circle(2, 2), circle(2, 11), circle(2, 60)];
    for answer_of in [removed, flipped] {
        in_marks(&linked(&two), answer::CIRCLES, answer_of);
        in_marks(&linked(&with_chain), answer::OPEN, answer_of);
        for length in &lengths {
            in_marks(&linked(length), answer::RING_LENGTH, answer_of);
        }
    }
    in_marks(&linked(&circle(2, 4)), answer::RING_LENGTH, flipped);
    let long: Vec<(u8, u8)> = (2..12).map(|v| (v, v + 1)).collect();
    in_marks(&linked(&long), answer::RING_LENGTH, removed);
}

#[test]
fn not_flat_and_two_regions_come_before_a_marked_face() {
    let mut bent = plate();
    bent.points[2][2] -= 1;
    in_marks(&bent, answer::NOT_FLAT, removed);
    in_marks(&plate(), answer::MARK_GOES, removed);
    in_marks(&plate(), answer::OPEN, flipped);
    for answer_of in [removed, flipped] {
        in_marks(&block_a(), answer::MARK_GOES, answer_of);
        for joint in in_two_regions(&with_marked(&block_a(), &[]), &[0, 1]) {
            in_marks(&joint, answer::TWO_REGIONS, answer_of);
        }
    }
    for joint in in_two_regions(&with_marked(&plate(), &[]), &[0, 1]) {
        in_marks(&joint, answer::TWO_REGIONS, removed);
    }
}

#[test]
fn a_marked_face_comes_before_room() {
    for m in 5..=10 {
        let full = filled(linked(&circle(2, m)), 60, m + 2);
        assert_eq!(removed(&with_marked(&full, &[])), answer::ROOM);
        in_marks(&full, answer::MARK_GOES, removed);
    }
    let mut full = plate();
    full.points.resize(64, [1, 2, 3]);
    let full = filled(full, 60, 6);
    assert_eq!(removed(&with_marked(&full, &[])), answer::ROOM);
    in_marks(&full, answer::MARK_GOES, removed);
}

#[test]
fn a_marked_face_comes_before_not_admissible_and_none_better() {
    let mut blocked = block_a();
    blocked.points.push([1, 2, 3]);
    blocked.rows.push(Row::plain([5, 2, 3, 4], 7));
    for answer_of in [removed, flipped] {
        let unmarked = with_marked(&blocked, &[]);
        assert_eq!(answer_of(&unmarked), answer::NOT_ADMISSIBLE);
        in_marks(&blocked, answer::MARK_GOES, answer_of);
    }
    let mut lower = block_a();
    lower.points[0] = [4, 4, 7];
    assert_eq!(removed(&with_marked(&lower, &[])), answer::NONE_BETTER);
    in_marks(&lower, answer::MARK_GOES, removed);
}

/// 2-3: 18 and 20 come before 23, 14 and 15 behind it.
#[test]
fn a_marked_face_has_the_same_place_in_a_flip_of_it() {
    let points = vec![[0; 3]; 64];
    let face = [2, 3, 4];
    let marked = |patch: &Patch| with_marked(patch, &[[2, 3, 4]]);
    let answer_of = |patch: &Patch| flip_answer(patch, &face);
    let one_apex = patch(&points, &[[0, 2, 3, 4], [0, 2, 4, 3]], 0);
    assert_eq!(answer_of(&marked(&one_apex)), answer::ONE_APEX);
    for joint in in_two_regions(&with_marked(&block_a_after(), &[]), &[2, 3, 4]) {
        assert_eq!(answer_of(&marked(&joint)), answer::TWO_REGIONS);
    }
    assert_eq!(answer_of(&marked(&block_a_after())), answer::MARK_GOES);
    let used = patch(&points, &[[0, 2, 3, 4], [1, 2, 4, 3], [0, 1, 3, 6]], 0);
    assert_eq!(answer_of(&used), answer::NOT_ADMISSIBLE);
    assert_eq!(answer_of(&marked(&used)), answer::MARK_GOES);
    let full = filled(used, 60, 7);
    assert_eq!(answer_of(&full), answer::ROOM);
    assert_eq!(answer_of(&marked(&full)), answer::MARK_GOES);
}

#[test]
fn not_admissible_comes_before_none_better() {
    let mut lower = block_a();
    lower.points[0] = [4, 4, 7];
    lower.points.push([1, 2, 3]);
    assert_eq!(remove_answer(&lower, 0, 1), answer::NONE_BETTER);
    let mut row = lower.rows[0];
    row.numbers = [5, 2, 4, 3];
    lower.rows.push(row);
    assert_eq!(remove_answer(&lower, 0, 1), answer::NOT_ADMISSIBLE);
}

#[test]
fn numbers_are_taken_whole() {
    for wide in [1usize << 8, 1 << 16, 1 << 32, 1 << 63] {
        assert_eq!(remove_answer(&block_a(), wide, 1), answer::BAD_NUMBER);
        assert_eq!(remove_answer(&block_a(), 0, wide + 1), answer::BAD_NUMBER);
        let after = block_a_after().to_bytes();
        let mut out = UNTOUCHED;
        let face = [2, 3, wide + 4];
        assert_eq!(flip(&after, &face, &mut out), answer::BAD_NUMBER);
        let before = block_a().to_bytes();
        assert_eq!(flip(&before, &[wide, 1], &mut out), answer::BAD_NUMBER);
    }
}
