//! The C boundary: the numbers of the header, and calls as a stranger would break them.

mod common;

use common::commands::*;
use compare::model::call::{place, PAGE_NUMBERS, SHOWN_NUMBERS, SUMMARY_NUMBERS};
use compare::model::{answer, limits};
use std::ffi::OsStr;
use std::fs;

/// Every name of the header but the bytes of stack, with the model's number, in the header's order: for the answers that in
/// which they are tested.
const NAMES: [(&str, usize); 52] = [
    ("BLOCK_BYTES", limits::BLOCK_BYTES),
    ("FIELDS_BYTES", limits::FIELD_BYTES),
    ("SUMMARY_ELEMENTS", SUMMARY_NUMBERS),
    ("SHOWN_ELEMENTS", SHOWN_NUMBERS),
    ("PAGE_ELEMENTS", PAGE_NUMBERS),
    ("VERSION_PLAIN", limits::PLAIN as usize),
    ("VERSION_MARKED", limits::MARKED as usize),
    ("MAX_POINTS", limits::MAX_POINTS),
    ("MAX_ROWS", limits::MAX_ROWS),
    ("VERSION_AT", limits::VERSION_AT),
    ("POINT_COUNT_AT", limits::POINT_COUNT_AT),
    ("ROW_COUNT_AT", limits::ROW_COUNT_AT),
    ("POINTS_AT", limits::POINTS_AT),
    ("POINT_BYTES", limits::POINT_BYTES),
    ("ROWS_AT", limits::ROWS_AT),
    ("ROW_BYTES", limits::ROW_BYTES),
    ("REGION_BITS", limits::REGION_BITS as usize),
    ("MARK_QRS", limits::MARK_BITS[0] as usize),
    ("MARK_PSR", limits::MARK_BITS[1] as usize),
    ("MARK_PQS", limits::MARK_BITS[2] as usize),
    ("MARK_PRQ", limits::MARK_BITS[3] as usize),
    ("DONE", answer::DONE as usize),
    ("LENGTH", answer::LENGTH as usize),
    ("SUM", answer::SUM as usize),
    ("NOT_A_VERSION", answer::VERSION as usize),
    ("COUNT", answer::COUNT as usize),
    ("NOT_ZERO", answer::NOT_ZERO as usize),
    ("ROW", answer::ROW as usize),
    ("FACE_TWICE", answer::FACE_TWICE as usize),
    ("MARKS_DISAGREE", answer::MARKS_DISAGREE as usize),
    ("NOT_TWO_OR_THREE", answer::NOT_TWO_OR_THREE as usize),
    ("BAD_NUMBER", answer::BAD_NUMBER as usize),
    ("NOT_HELD", answer::NOT_HELD as usize),
    ("NOT_CLOSED", answer::OPEN as usize),
    ("CIRCLES", answer::CIRCLES as usize),
    ("RING_LENGTH", answer::RING_LENGTH as usize),
    ("NOT_FLAT", answer::NOT_FLAT as usize),
    ("ONE_APEX", answer::ONE_APEX as usize),
    ("TWO_REGIONS", answer::TWO_REGIONS as usize),
    ("MARK_GOES", answer::MARK_GOES as usize),
    ("NO_ROOM", answer::ROOM as usize),
    ("BLOCKED", answer::NOT_ADMISSIBLE as usize),
    ("NONE_BETTER", answer::NONE_BETTER as usize),
    ("UPRIGHT", place::UPRIGHT),
    ("FLAT", place::FLAT),
    ("INVERTED", place::INVERTED),
    ("HAS_WORST", place::HAS_WORST),
    ("WORST", place::WORST),
    ("HAS_OCTAVE", place::HAS_OCTAVE),
    ("OCTAVE", place::OCTAVE),
    ("WORST_BEFORE", place::WORST_BEFORE),
    ("WORST_AFTER", place::WORST_AFTER),
];

/// The header without its comments.
fn header() -> String {
    let text = fs::read_to_string(house().join("include/sumpnewt.h")).expect("the header");
    let mut parts = text.split("/*");
    let first = parts.next().expect("a part before any comment").to_string();
    parts.fold(first, |code, part| {
        let (_, behind) = part.split_once("*/").expect("a comment ends");
        code + behind
    })
}

/// The names that it gives to numbers, in their order.
fn header_names() -> Vec<String> {
    let header = header();
    let words = header.split(|c: char| !c.is_alphanumeric() && c != '_');
    let names = words.filter_map(|word| word.strip_prefix("SUMPNEWT_"));
    names
        .filter(|name| *name != "H")
        .map(String::from)
        .collect()
}

#[test]
fn the_headers_numbers_are_the_models() {
    let mut names = header_names();
    // These are held by tests/stack.rs.
    names.retain(|name| !name.starts_with("STACK_"));
    let line = |name: &String| format!("    printf(\"{name} %d\\n\", (int)SUMPNEWT_{name});\n");
    let lines: String = names.iter().map(line).collect();
    let source = scratch("names.c");
    let program = format!(
        "#include <stdio.h>\n#include \"sumpnewt.h\"\nint main(void) {{\n{lines}    return 0;\n}}\n"
    );
    fs::write(&source, program).expect("written");
    let program = built("names_c", "-std=c11", &[source.as_os_str()]);
    let expected = NAMES.map(|(name, number)| format!("{name} {number}\n"));
    assert_eq!(printed(program, &[]), expected.concat());
}

#[cfg(kernel)]
#[test]
fn it_needs_nothing_but_memcpy_and_memset() {
    let listed = printed("nm", &["-u", ARCHIVE].map(OsStr::new));
    let needed = listed.lines().filter_map(|line| line.trim().strip_prefix("U "));
    let others: Vec<&str> = needed.filter(|name| !["memcpy", "memset"].contains(name)).collect();
    assert!(others.is_empty(), "{others:?}");
}

/// What the C program prints: how many calls of each kind it made, all of which did as the header says.
#[cfg(kernel)]
const CALLS_MADE: &str = "\
null pointers with length 0: 22 calls
outputs of every length: 7707 calls
inputs of every length: 8808 calls
refused blocks: 8 calls
blocks at every address: 128 calls
outputs fresh from malloc: 35 calls
outputs fresh on the stack: 35 calls
flips with neither two numbers nor three: 312 calls
flips with a null pointer for no numbers: 4 calls
marked faces: 27 calls
";

#[cfg(kernel)]
#[test]
fn a_stranger_breaks_nothing() {
    let parts = ["compare/tests/c/boundary.c", ARCHIVE].map(OsStr::new);
    let program = built("boundary_c", "-std=c11", &parts);
    assert_eq!(printed(program, &[]), CALLS_MADE);
}
