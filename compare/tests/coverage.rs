//! The cases cover what they are for: good numbers in each line of their table.

mod common;

use common::{mark_points, region_points};
use compare::gen::cases_at;
use compare::rivals::{FAULTS, FLIP_FAULTS, OPEN_FAULTS};
use compare::tally::{Counts, Tally};
use std::sync::LazyLock;
use std::thread;

/// Of 28,000 cases, half of them by another thread.
static TALLY: LazyLock<Tally> = LazyLock::new(|| {
    let other = thread::spawn(|| Tally::of(cases_at(1, 14_000..28_000)));
    let front = Tally::of(cases_at(1, 0..14_000));
    front.and(other.join().expect("it counts"))
});

/// The answers each call can get.
const POSSIBLE: [(&str, &[usize]); 10] = [
    ("open", &[0, 1, 2, 3, 4, 5, 7, 8, 22]),
    ("seal", &[0, 1, 3, 4, 5, 7, 8, 22]),
    ("summary", &[0, 1, 2, 3, 4, 5, 7, 8, 22]),
    ("shown", &[0, 1, 2, 3, 4, 5, 7, 8, 22]),
    ("remove", &REMOVAL),
    ("page", &REMOVAL),
    ("printout", &REMOVAL),
    (
        "flip 3-2",
        &[0, 1, 2, 3, 4, 5, 7, 8, 9, 10, 11, 12, 13, 15, 20, 22, 23],
    ),
    (
        "flip 2-3",
        &[0, 1, 2, 3, 4, 5, 7, 8, 9, 10, 11, 14, 15, 18, 20, 22, 23],
    ),
    ("flip, other count", &[1, 2, 3, 4, 5, 7, 8, 21, 22]),
];

const REMOVAL: [usize; 20] = [
    0, 1, 2, 3, 4, 5, 7, 8, 9, 10, 11, 12, 13, 14, 15, 16, 19, 20, 22, 23,
];

fn holds(name: &str, counts: &Counts, possible: &[usize], least: u64) {
    for (number, count) in counts.iter().enumerate() {
        match possible.contains(&number) {
            true => assert!(*count >= least, "{name}, answer {number}: {count}"),
            false => assert_eq!(*count, 0, "{name}, answer {number}"),
        }
    }
}

#[test]
fn every_call_gets_every_answer_it_can_and_no_other() {
    for (name, possible) in POSSIBLE {
        holds(name, &TALLY.calls[name], possible, 25);
    }
    assert_eq!(TALLY.calls.len(), POSSIBLE.len());
}

/// Every answer but 3, which is for other versions.
#[test]
fn every_call_gets_every_answer_in_version_2() {
    for (name, possible) in POSSIBLE {
        let possible: Vec<usize> = possible.iter().copied().filter(|n| *n != 3).collect();
        holds(name, &TALLY.marked[name], &possible, 10);
    }
    assert_eq!(TALLY.marked.len(), POSSIBLE.len());
}

#[test]
fn rings_of_every_length_get_every_outcome() {
    for (m, counts) in &TALLY.rings {
        let name = format!("m = {m}");
        match m {
            3 | 4 => holds(&name, counts, &[0, 15, 16, 20, 23], 100),
            5..=10 => holds(&name, counts, &[0, 14, 15, 16, 20, 23], 80),
            _ => holds(&name, counts, &[13], 100),
        }
    }
    let lengths: Vec<usize> = TALLY.rings.keys().copied().collect();
    assert_eq!(lengths, (2..=12).collect::<Vec<_>>());
}

#[test]
fn chains_of_every_length_get_every_outcome() {
    for (m, counts) in &TALLY.chains {
        let name = format!("chain, m = {m}");
        match m {
            3 => holds(&name, counts, &[0, 15, 16, 19, 20, 23], 50),
            4..=10 => holds(&name, counts, &[0, 14, 15, 16, 19, 20, 23], 30),
            _ => holds(&name, counts, &[13], 80),
        }
    }
    let lengths: Vec<usize> = TALLY.chains.keys().copied().collect();
    assert_eq!(lengths, (2..=12).collect::<Vec<_>>());
}

#[test]
fn several_faults_show_the_order_of_the_answers() {
    holds(
        "one fault",
        &TALLY.families["one fault"],
        &[2, 3, 4, 5, 7, 8],
        80,
    );
    let several = &TALLY.families["several faults"];
    holds("several faults", several, &[2, 3, 4, 5, 7], 80);
}

#[test]
fn every_wrong_kernel_is_told_apart() {
    let least = |of_marks: bool| match of_marks {
        true => 60,
        false => 100,
    };
    let removals = FAULTS.map(|fault| (format!("{fault:?}"), least(fault.is_of_marks())));
    let flips = FLIP_FAULTS.map(|fault| (format!("{fault:?}"), least(fault.is_of_marks())));
    let openings = OPEN_FAULTS.map(|fault| (format!("{fault:?}"), least(false)));
    let all = removals.into_iter().chain(flips).chain(openings);
    for (fault, least) in all {
        let told = TALLY.told[&fault];
        assert!(told >= least, "{fault}: {told}");
    }
    let count = FAULTS.len() + FLIP_FAULTS.len() + OPEN_FAULTS.len();
    assert_eq!(TALLY.told.len(), count);
}

#[test]
fn every_fine_point_is_seen() {
    for (point, seen) in &TALLY.points {
        let least = match point.starts_with("version 2, ") {
            true => 10,
            false => 20,
        };
        assert!(*seen >= least, "{point}: {seen}");
    }
}

#[test]
fn regions_are_shared_in_every_way_and_tested_in_their_place() {
    for name in region_points() {
        let seen = TALLY.points.get(&name).copied().unwrap_or(0);
        assert!(seen >= 20, "{name}: {seen}");
    }
}

#[test]
fn marks_are_kept_passed_on_refused_and_tested_in_their_place() {
    for name in mark_points() {
        let seen = TALLY.points.get(&name).copied().unwrap_or(0);
        assert!(seen >= 10, "{name}: {seen}");
    }
}

#[test]
fn the_model_agrees_with_every_builder_and_with_the_second_removal() {
    assert_eq!(TALLY.disagreements, [""; 0]);
}
