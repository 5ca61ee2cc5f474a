//! Every single-byte change of a block, and every length, against a second reading of the layout.

mod common;

use common::*;
use compare::gen::cases;
use compare::model::block::with_sums;
use compare::model::{answer, flip, open, remove, seal, summary, Call, Patch};

/// The answers 3 to 8 and 22 again, written byte by byte.
fn expected(fields: &[u8; 508]) -> u32 {
    let (points, rows) = (usize::from(fields[1]), usize::from(fields[2]));
    let idle = |at: usize| match at {
        0..=2 => false,
        3..=15 => true,
        16..=207 => (at - 16) / 3 >= points,
        _ => (at - 208) / 5 >= rows,
    };
    let row = |index: usize| &fields[208 + 5 * index..212 + 5 * index];
    let good = |index: usize| {
        let mut numbers = row(index).to_vec();
        numbers.sort_unstable();
        numbers.dedup();
        numbers.len() == 4 && usize::from(numbers[3]) < points
    };
    if fields[0] != 1 && fields[0] != 2 {
        3
    } else if points > 64 || rows > 60 {
        4
    } else if (0..508).any(|at| idle(at) && fields[at] != 0) {
        5
    } else if !(0..rows).all(good) {
        7
    } else if a_face_twice((0..rows).map(row)) {
        8
    } else if fields[0] == 2 && marks_differ(&fields[208..208 + 5 * rows]) {
        22
    } else {
        0
    }
}

/// Whether two rows hold the same three points, and one of them has the bit of its fourth point set and the other has not.
fn marks_differ(rows: &[u8]) -> bool {
    let mut faces: Vec<([u8; 3], bool)> = vec![];
    for row in rows.chunks_exact(5) {
        for place in 0..4 {
            let others = (0..4).filter(|other| *other != place);
            let mut face: Vec<u8> = others.map(|other| row[other]).collect();
            face.sort_unstable();
            let marked = row[4] & 16 << place != 0;
            faces.push((face.try_into().unwrap(), marked));
        }
    }
    faces.sort_unstable();
    faces
        .windows(2)
        .any(|two| two[0].0 == two[1].0 && two[0].1 != two[1].1)
}

/// The directed faces of a row: one place left out, the other three turned as its sign asks, the
/// smallest number first.
fn directed_faces(row: &[u8]) -> [[u8; 3]; 4] {
    [0, 1, 2, 3].map(|gone| {
        let mut face = [1, 2, 3].map(|more| row[(gone + more) % 4]);
        if gone % 2 == 1 {
            face.swap(0, 1);
        }
        let least = (0..3).min_by_key(|place| face[*place]).unwrap();
        face.rotate_left(least);
        face
    })
}

fn a_face_twice<'r>(rows: impl Iterator<Item = &'r [u8]>) -> bool {
    let mut faces: Vec<[u8; 3]> = rows.flat_map(directed_faces).collect();
    faces.sort_unstable();
    faces.windows(2).any(|pair| pair[0] == pair[1])
}

fn number<T>(outcome: Result<T, u32>) -> u32 {
    outcome.err().unwrap_or(0)
}

/// Some good blocks: block A, the empty one, block A with marks, and generated ones of both versions.
fn good_blocks() -> Vec<[u8; 512]> {
    let empty = patch(&[], &[], 0);
    let middling = |patch: &Patch| (8..=16).contains(&patch.rows.len());
    let generated = edges(10, 1_000).map(|(patch, _)| patch);
    let generated = generated
        .filter(|patch| patch.version == 1 && middling(patch))
        .take(2)
        .map(|patch| patch.to_bytes());
    let marked = edges(10, 1_000).map(|(patch, _)| patch);
    let marked = marked
        .filter(|patch| patch.version == 2 && middling(patch) && !marked_set(patch).is_empty())
        .take(1)
        .map(|patch| patch.to_bytes());
    let own = [
        block_a().to_bytes(),
        empty.to_bytes(),
        block_a_marked().to_bytes(),
    ];
    own.into_iter().chain(generated).chain(marked).collect()
}

#[test]
fn every_single_byte_change_is_a_wrong_sum() {
    for block in good_blocks() {
        assert_eq!(number(open(&block)), 0);
        for at in 0..512 {
            for more in 1..=255u8 {
                let mut changed = block;
                changed[at] = changed[at].wrapping_add(more);
                assert_eq!(number(open(&changed)), answer::SUM);
            }
        }
    }
}

#[test]
fn every_sealed_single_byte_change_gets_its_number() {
    let mut seen = [0; 23];
    for block in good_blocks() {
        for at in 0..508 {
            for more in 1..=255u8 {
                let mut fields: [u8; 508] = *block.first_chunk().unwrap();
                fields[at] = fields[at].wrapping_add(more);
                let meant = expected(&fields);
                assert_eq!(number(open(&with_sums(&fields))), meant);
                seen[meant as usize] += 1;
            }
        }
    }
    for answer in [0, 3, 4, 5, 7, 8, 22] {
        assert!(seen[answer] > 100, "{seen:?}");
    }
    assert_eq!(seen[6], 0);
}

/// The last bytes of block A's rows in version 2, every three of them: a block opens just where each face that goes is marked in
/// both its rows or in neither.
#[test]
fn marks_are_shared_in_every_way() {
    let fields = with_marked(&block_a(), &[]).to_fields();
    let between = |marks: [usize; 3]| {
        // Row n has its face to the row before behind bit 7, and to the row after behind bit 6.
        (0..3).all(|n| marks[n] >> 2 & 1 == marks[(n + 1) % 3] >> 3 & 1)
    };
    let mut opened = 0;
    for ways in 0..1 << 12 {
        let marks = [0, 1, 2].map(|n| ways >> (4 * n) & 15);
        let mut fields = fields;
        for (n, marks) in marks.into_iter().enumerate() {
            fields[208 + 5 * n + 4] += (marks << 4) as u8;
        }
        let meant = match between(marks) {
            true => 0,
            false => answer::MARKS_DISAGREE,
        };
        assert_eq!(number(open(&with_sums(&fields))), meant);
        assert_eq!(expected(&fields), meant);
        opened += usize::from(meant == 0);
    }
    assert_eq!(opened, 1 << 9);
}

#[test]
fn a_coordinate_may_be_any_byte() {
    for block in good_blocks() {
        let patch = open(&block).unwrap();
        for point in 0..patch.points.len() {
            for axis in 0..3 {
                for coordinate in 0..=255 {
                    let mut moved = patch.clone();
                    moved.points[point][axis] = coordinate;
                    assert_eq!(open(&moved.to_bytes()), Ok(moved));
                }
            }
        }
    }
}

#[test]
fn generated_fields_get_their_number() {
    for case in cases(11, 6_000) {
        let fields: Option<[u8; 508]> = match &case.call {
            Call::Seal { fields, .. } => fields[..].try_into().ok(),
            Call::Open { block } | Call::Summary { block, .. } => block.first_chunk().copied(),
            _ => None,
        };
        if let Some(fields) = fields {
            let mut out = UNTOUCHED;
            let meant = expected(&fields);
            assert_eq!(seal(&fields, &mut out), meant);
            assert_eq!(number(open(&with_sums(&fields))), meant);
            match meant {
                0 => assert_eq!(out, with_sums(&fields)),
                _ => assert_eq!(out, UNTOUCHED),
            }
        }
    }
}

#[test]
fn every_length_but_the_right_one_gets_1() {
    let mut bytes = block_a().to_bytes().to_vec();
    bytes.resize(600, 0);
    let good = block_a().to_bytes();
    for length in 0..=600 {
        let block = &bytes[..length];
        let meant = u32::from(length != 512);
        assert_eq!(number(open(block)), meant);
        assert_eq!(number(summary(block)), meant);
        let mut out = UNTOUCHED;
        assert_eq!(number(remove(block, 0, 1, &mut out)), meant);
        assert_eq!(flip(block, &[0, 1], &mut out), meant);
        assert_eq!(seal(block, &mut out), u32::from(length != 508));
        let mut short = vec![0xA5; length];
        assert_eq!(number(remove(&good, 0, 1, &mut short)), meant);
        assert_eq!(flip(&good, &[0, 1], &mut short), meant);
        assert_eq!(seal(&good[..508], &mut short), meant);
        let face = [2, 3, 4];
        let after = block_a_after().to_bytes();
        assert_eq!(flip(&after, &face, &mut short), meant);
        if meant == 1 {
            assert!(short.iter().all(|byte| *byte == 0xA5));
        }
    }
}

#[test]
fn a_length_is_tested_before_the_block() {
    let bad = [0; 512];
    let mut out = UNTOUCHED;
    let mut short = [0xA5; 511];
    assert_eq!(number(remove(&bad, 9, 9, &mut short)), 1);
    for count in 0..6 {
        assert_eq!(flip(&bad, &vec![9; count], &mut short), 1);
    }
    assert_eq!(seal(&bad[..508], &mut short), 1);
    assert_eq!(number(remove(&bad, 9, 9, &mut out)), 3);
}
