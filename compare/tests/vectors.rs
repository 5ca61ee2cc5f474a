//! The stored cases of the program `vectors` are what the model writes, and cover what they are for.

mod common;

use common::{mark_points, region_points};
use compare::gen::Case;
use compare::model::{run, Outcome};
use compare::rivals::{FAULTS, FLIP_FAULTS, OPEN_FAULTS};
use compare::tally::{is_marked, name};
use compare::vectors::{
    cases_file, folder, picked, printout, reasons, CASES, PRINTOUT, RECORD_BYTES,
};
use std::collections::{BTreeMap, BTreeSet};
use std::fs;
use std::sync::LazyLock;

static STORED: LazyLock<Vec<Case>> = LazyLock::new(picked);

/// How many stored cases show each thing.
static SHOWN: LazyLock<BTreeMap<String, usize>> = LazyLock::new(|| {
    let mut shown = BTreeMap::new();
    for reason in STORED.iter().flat_map(reasons) {
        *shown.entry(reason).or_default() += 1;
    }
    shown
});

/// The answers each call can give, a flip by the count of its numbers.
const POSSIBLE: [(&str, &[u32]); 7] = [
    ("open", &[0, 1, 2, 3, 4, 5, 7, 8, 22]),
    ("seal", &[0, 1, 3, 4, 5, 7, 8, 22]),
    ("summary", &[0, 1, 2, 3, 4, 5, 7, 8, 22]),
    (
        "remove",
        &[
            0, 1, 2, 3, 4, 5, 7, 8, 9, 10, 11, 12, 13, 14, 15, 16, 19, 20, 22, 23,
        ],
    ),
    (
        "flip 3-2",
        &[0, 1, 2, 3, 4, 5, 7, 8, 9, 10, 11, 12, 13, 15, 20, 22, 23],
    ),
    (
        "flip 2-3",
        &[0, 1, 2, 3, 4, 5, 7, 8, 9, 10, 11, 14, 15, 18, 20, 22, 23],
    ),
    ("flip, other count", &[1, 2, 3, 4, 5, 7, 8, 21, 22]),
];

/// Those that can be done.
const DONE: [&str; 6] = ["open", "seal", "summary", "remove", "flip 3-2", "flip 2-3"];

/// Two cases or more show it.
fn shows(reason: &str) {
    shows_often(reason, 2);
}

fn shows_often(reason: &str, least: usize) {
    let count = SHOWN.get(reason).copied().unwrap_or(0);
    assert!(count >= least, "{reason}: {count}");
}

#[test]
fn the_stored_files_are_what_the_model_writes() {
    let cases = fs::read(folder().join(CASES)).expect("the cases");
    assert!(
        cases == cases_file(&STORED),
        "run cargo run --release --bin vectors"
    );
    let expected = fs::read_to_string(folder().join(PRINTOUT)).expect("the printout");
    assert_eq!(expected, printout(&STORED));
    assert_eq!(cases.len(), STORED.len() * RECORD_BYTES);
    assert!(cases.len() <= 600_000, "{} bytes", cases.len());
}

#[test]
fn every_call_gives_every_answer_it_can() {
    let place = |case: &Case| (name(&case.call), run(&case.call).answer());
    let given: BTreeSet<(&str, u32)> = STORED.iter().map(place).collect();
    let possible = POSSIBLE.into_iter();
    let possible = possible.flat_map(|(call, answers)| answers.iter().map(move |n| (call, *n)));
    assert_eq!(given, possible.collect());
}

/// Every answer but 3, which is for other versions, of a flip whose block is refused with any numbers.
#[test]
fn every_call_gives_every_answer_in_version_2() {
    let place = |case: &Case| match (name(&case.call), run(&case.call).answer()) {
        ("flip 3-2" | "flip 2-3" | "flip, other count", number @ 1..=8) => ("flip", number),
        other => other,
    };
    let stored = STORED.iter().filter(|case| is_marked(&case.call));
    let given: BTreeSet<(&str, u32)> = stored.map(place).collect();
    let possible = POSSIBLE.into_iter().flat_map(|(call, answers)| {
        let flip = call.starts_with("flip");
        let numbers = answers.iter().filter(|number| **number != 3);
        numbers.map(move |number| match (flip, *number) {
            (true, 1..=8) => ("flip", *number),
            _ => (call, *number),
        })
    });
    assert_eq!(given, possible.collect());
}

#[test]
fn marks_are_kept_passed_on_refused_and_tested_in_their_place() {
    for name in mark_points() {
        shows_often(&name, 1);
    }
    for call in DONE {
        shows_often(&format!("version 2, {call}: a marked face"), 1);
    }
    for m in 3..=10 {
        shows_often(&format!("version 2, ring, m = {m}: 0"), 1);
        shows_often(&format!("version 2, chain, m = {m}: 0"), 1);
    }
}

#[test]
fn rings_and_chains_of_every_length_get_every_outcome() {
    for m in 3..=10 {
        for answer in [0, 15, 16] {
            shows(&format!("ring, m = {m}: {answer}"));
            shows_often(&format!("chain, m = {m}: {answer}"), 1);
        }
        shows_often(&format!("ring, m = {m}: 20"), 1);
        shows_often(&format!("chain, m = {m}: 19"), 1);
        shows_often(&format!("chain, m = {m}: 20"), 1);
    }
    for m in 5..=10 {
        shows(&format!("ring, m = {m}: 14"));
    }
    for m in 4..=10 {
        shows_often(&format!("chain, m = {m}: 14"), 1);
    }
    for m in [2, 11, 12] {
        shows(&format!("ring, m = {m}: 13"));
        shows_often(&format!("chain, m = {m}: 13"), 1);
    }
}

#[test]
fn chains_are_flat_bent_shut_and_not_alone() {
    let points = [
        "11: two chains",
        "11: a chain and a circle",
        "11: a chain and two circles",
        "3-2 flip, 11: a flat chain of 3",
        "chain, 0: v1 is the smallest",
        "chain, 0: v1 is not the smallest",
        "chain, 0: v1 is larger than vm",
        "chain, 0: face of a used against",
        "chain, 0: face of b used against",
        "chain, 0: both used against",
        "chain, 0: outer places coincide",
        "chain, 15 by a's face",
        "chain, 15 by b's face",
        "chain, 15 by both faces",
        "chain, 15 by a face used both ways",
        "chain, 16: outer places coincide",
        "chain, 19 and 14 at once",
        "chain, 19: D is 1 to 128 in size",
    ];
    points.into_iter().for_each(shows);
}

#[test]
fn regions_are_shared_in_every_way_and_tested_in_their_place() {
    for name in region_points() {
        shows_often(&name, 1);
    }
}

#[test]
fn lengths_orders_and_numbers_are_wrong_and_right_in_every_way() {
    for call in DONE {
        shows(&format!("{call}: input too short"));
        shows(&format!("{call}: input too long"));
    }
    for call in ["seal", "remove", "flip 3-2", "flip 2-3"] {
        shows(&format!("{call}: output too short"));
        shows(&format!("{call}: output too long"));
    }
    for part in ["input", "output"] {
        shows_often(&format!("flip, other count: {part} too short"), 1);
        shows_often(&format!("flip, other count: {part} too long"), 1);
    }
    for call in ["remove", "flip 3-2"] {
        shows(&format!("{call}: given in order [0, 1]"));
        shows(&format!("{call}: given in order [1, 0]"));
    }
    for order in [
        "0, 1, 2", "0, 2, 1", "1, 0, 2", "1, 2, 0", "2, 0, 1", "2, 1, 0",
    ] {
        shows(&format!("flip 2-3: given in order [{order}]"));
    }
    for call in ["remove", "flip 3-2", "flip 2-3"] {
        shows(&format!("{call}: a number over 255"));
    }
}

#[test]
fn counts_of_numbers_are_wrong_with_and_without_a_bad_number() {
    shows("21: 0 numbers, all of points");
    for count in [1, 4] {
        shows(&format!("21: {count} numbers, all of points"));
        shows(&format!("21: {count} numbers, not all of points"));
    }
}

#[test]
fn tables_are_empty_full_flat_and_inverted() {
    for call in DONE {
        shows(&format!("{call}: an inverted row"));
    }
    for call in ["open", "seal", "summary", "remove", "flip 3-2"] {
        shows(&format!("{call}: a flat row"));
        shows(&format!("{call}: 60 rows"));
    }
    for call in ["open", "seal", "summary"] {
        shows(&format!("{call}: no rows"));
        shows(&format!("{call}: no upright row"));
        shows(&format!("{call}: every row upright"));
    }
    shows("flip 2-3: 59 rows");
}

#[test]
fn coordinates_and_the_numbers_made_of_them_reach_their_ends() {
    for call in DONE {
        shows(&format!("{call}: a coordinate of 255"));
        shows(&format!("{call}: a part that is no f64"));
    }
    for call in ["open", "seal", "summary", "remove"] {
        shows_often(&format!("{call}: the largest D"), 1);
        shows_often(&format!("{call}: a nearly flat row"), 1);
    }
}

#[test]
fn the_f64_do_not_say_which_row_is_the_worst() {
    shows("page row: by f64 another row is the worst");
    shows("page row: a row as bad as the worst has another f64");
}

#[test]
fn the_page_row_has_every_sign() {
    for time in ["before", "after"] {
        for sign in ["negative", "zero", "positive"] {
            shows(&format!("page row: {sign} {time}"));
        }
    }
}

#[test]
fn every_wrong_kernel_is_told_apart() {
    let told = SHOWN.keys().filter(|reason| reason.starts_with("not "));
    let faults = FAULTS.len() + FLIP_FAULTS.len() + OPEN_FAULTS.len();
    assert_eq!(told.count(), faults);
    for fault in FAULTS {
        shows(&format!("not {fault:?}"));
    }
    for fault in FLIP_FAULTS {
        shows(&format!("not {fault:?}"));
    }
    for fault in OPEN_FAULTS {
        shows(&format!("not {fault:?}"));
    }
}

#[test]
fn a_refusal_leaves_the_output_as_it_came() {
    for case in STORED.iter() {
        if let Outcome::Bytes(1.., bytes) = run(&case.call) {
            assert!(bytes.windows(2).all(|pair| pair[0] == pair[1]));
        }
    }
}
