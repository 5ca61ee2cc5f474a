//! "Room: 58 rows with m = 6 pass, 59 get 14; 60 rows with m = 4 pass."

mod common;

use common::*;
use compare::model::answer;

fn gets_14(m: u8, rows: usize) -> bool {
    let table = filled(ring(m, &[]), rows, m + 2);
    let number = remove_answer(&table, 0, 1);
    assert!([answer::DONE, answer::NONE_BETTER, answer::ROOM].contains(&number));
    number == answer::ROOM
}

#[test]
fn document_01s_examples() {
    assert!(!gets_14(6, 58));
    assert!(gets_14(6, 59));
    assert!(!gets_14(4, 60));
}

#[test]
fn every_ring_has_its_limit() {
    for m in 3..=10 {
        let most = 60.min(64 - usize::from(m));
        assert!(!gets_14(m, most), "{m}");
        if most < 60 {
            assert!(gets_14(m, most + 1), "{m}");
        }
    }
}

#[test]
fn room_is_tested_before_admissible() {
    let ears: Vec<[u8; 4]> = (0..5)
        .map(|step| [40 + step, 2 + step, 2 + (step + 1) % 5, 2 + (step + 2) % 5])
        .collect();
    let blocked = ring(5, &ears);
    assert_eq!(remove_answer(&blocked, 0, 1), answer::NOT_ADMISSIBLE);
    let passing = filled(blocked.clone(), 59, 7);
    assert_eq!(remove_answer(&passing, 0, 1), answer::NOT_ADMISSIBLE);
    let full = filled(blocked, 60, 7);
    assert_eq!(remove_answer(&full, 0, 1), answer::ROOM);
}
