//! The program `vectors` tells every case that disagrees. Its counting is proved; what it prints no contract speaks of, and a
//! program that printed every case as agreeing would print the expected file.

mod common;

use common::commands::*;
use compare::model::limits::{BLOCK_BYTES, POINT_COUNT_AT, VERSION_AT};
use compare::vectors::{
    folder, ANSWER_AT, CALLS, CALL_AT, CASES, COUNT_AT, FIGURES_AT, OUTPUT_AT, PRINTOUT,
    RECORD_BYTES, RING_AT,
};
use std::collections::{BTreeMap, BTreeSet};
use std::fs;
use std::process::{Command, Output};

/// The answers of which a case is counted: 0 to 23.
const ANSWERS: u8 = 24;

fn program() -> Command {
    let program = house().join("target/bin/vectors");
    let program = program
        .canonicalize()
        .expect("target/bin/vectors, which compare/program vectors builds");
    Command::new(program)
}

/// What comes of the program in a folder of this name with this file of cases, or with none.
fn outcome(name: &str, file: Option<&[u8]>) -> Output {
    let room = scratch("vectors").join(name);
    fs::create_dir_all(&room).expect("a folder");
    if let Some(file) = file {
        fs::write(room.join("cases"), file).expect("written");
    }
    program().current_dir(room).output().expect("it starts")
}

#[track_caller]
fn printed_of(name: &str, file: &[u8]) -> String {
    let output = outcome(name, Some(file));
    let said = String::from_utf8_lossy(&output.stderr);
    assert!(output.status.success() && said.is_empty(), "{said}");
    String::from_utf8(output.stdout).expect("text")
}

fn stored() -> Vec<u8> {
    fs::read(folder().join(CASES)).expect("the cases")
}

/// What is to be printed of the whole records of a file, if just those with these numbers disagree.
fn expected(file: &[u8], disagreeing: &BTreeSet<usize>) -> String {
    let mut lines: BTreeMap<(u8, u8), (usize, usize)> = BTreeMap::new();
    for (n, record) in file.chunks_exact(RECORD_BYTES).enumerate() {
        let (call, answer) = (record[CALL_AT], record[ANSWER_AT]);
        if usize::from(call) < CALLS.len() && answer < ANSWERS {
            let (cases, agreeing) = lines.entry((call, answer)).or_default();
            *cases += 1;
            *agreeing += usize::from(!disagreeing.contains(&n));
        }
    }
    let mut text = String::new();
    for ((call, answer), (cases, agreeing)) in &lines {
        let name = CALLS[usize::from(*call)];
        text += &format!("{name} {answer}: {agreeing} of {cases}\n");
    }
    let cases: usize = lines.values().map(|(cases, _)| cases).sum();
    let agreeing: usize = lines.values().map(|(_, agreeing)| agreeing).sum();
    text + &format!("{cases} cases, {agreeing} agree\n")
}

/// A call, an answer, and which byte of a record of theirs is changed: the two numbers of a 13 become three.
const DAMAGES: [(&str, u8, usize); 17] = [
    ("open", 0, OUTPUT_AT + VERSION_AT),
    ("open", 0, OUTPUT_AT + POINT_COUNT_AT),
    ("open", 22, ANSWER_AT),
    ("seal", 0, OUTPUT_AT + BLOCK_BYTES - 1),
    ("seal", 8, ANSWER_AT),
    ("summary", 0, FIGURES_AT),
    ("remove", 0, FIGURES_AT),
    ("remove", 0, RING_AT),
    ("remove", 19, ANSWER_AT),
    ("remove", 20, OUTPUT_AT),
    ("remove", 23, OUTPUT_AT),
    ("flip", 0, OUTPUT_AT),
    ("flip", 13, COUNT_AT),
    ("flip", 18, OUTPUT_AT),
    ("flip", 20, ANSWER_AT),
    ("flip", 21, OUTPUT_AT),
    ("flip", 23, ANSWER_AT),
];

/// Changes a byte of each of these, every time in another record, and gives the numbers of the records.
fn damage(file: &mut [u8]) -> BTreeSet<usize> {
    let mut damaged = BTreeSet::new();
    for (call, answer, at) in DAMAGES {
        let mut records = file.chunks_exact_mut(RECORD_BYTES).enumerate();
        let found = records.find(|(n, record)| {
            let place = (CALLS[usize::from(record[CALL_AT])], record[ANSWER_AT]);
            place == (call, answer) && !damaged.contains(n)
        });
        let (n, record) = found.expect("a record");
        record[at] ^= 1;
        damaged.insert(n);
    }
    damaged
}

#[test]
fn exactly_the_damaged_records_are_told() {
    let mut file = stored();
    let whole = expected(&file, &BTreeSet::new());
    let printout = fs::read_to_string(folder().join(PRINTOUT)).expect("the printout");
    assert_eq!(whole, printout);
    assert_eq!(printed_of("whole", &file), whole);
    let damaged = damage(&mut file);
    let cases = file.len() / RECORD_BYTES;
    let told = printed_of("damaged", &file);
    assert_eq!(told, expected(&file, &damaged));
    let agree = cases - DAMAGES.len();
    assert!(told.ends_with(&format!("\n{cases} cases, {agree} agree\n")));
    assert!(told.contains("remove 18: 0 of 1\n"), "a stored 19 made 18");
}

#[test]
fn where_no_case_agrees_every_line_says_none() {
    let mut file = stored();
    let records = file.chunks_exact_mut(RECORD_BYTES);
    records.for_each(|record| record[ANSWER_AT] ^= 1);
    let all = (0..file.len() / RECORD_BYTES).collect();
    assert_eq!(printed_of("none", &file), expected(&file, &all));
}

#[test]
fn a_record_of_no_call_or_no_answer_is_not_counted() {
    let mut file = stored();
    file[CALL_AT] = CALLS.len() as u8;
    file[RECORD_BYTES + ANSWER_AT] = ANSWERS;
    let told = printed_of("neither", &file);
    assert_eq!(told, expected(&file, &BTreeSet::new()));
    let cases = file.len() / RECORD_BYTES - 2;
    assert!(told.ends_with(&format!("\n{cases} cases, {cases} agree\n")));
}

#[test]
fn a_file_that_is_cut_gives_the_counts_of_its_whole_records() {
    let file = stored();
    let middle = file.len() / RECORD_BYTES / 2 * RECORD_BYTES;
    let lengths = [
        0,
        1,
        RECORD_BYTES - 1,
        RECORD_BYTES,
        middle,
        middle + RECORD_BYTES / 2,
        file.len() - 1,
    ];
    for length in lengths {
        let cut = &file[..length];
        let told = printed_of("cut", cut);
        assert_eq!(told, expected(cut, &BTreeSet::new()), "{length} bytes");
        let cases = length / RECORD_BYTES;
        assert!(told.ends_with(&format!("{cases} cases, {cases} agree\n")));
    }
}

#[test]
fn a_file_that_is_not_there_is_told() {
    let output = outcome("no_file", None);
    assert!(output.stdout.is_empty());
    let said = String::from_utf8_lossy(&output.stderr);
    assert!(
        said.starts_with("cases: ") && said.lines().count() == 1,
        "{said}"
    );
}
