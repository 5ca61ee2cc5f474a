//! The printouts, byte for byte.

mod common;

use common::*;
use compare::gen::cases;
use compare::model::limits::{BLOCK_BYTES, INPUT_BYTES};
use compare::model::printout::{flip_printout, summary_line};
use compare::model::{answer, printout, summary, Call, Patch, Summary};

const BLOCK_A: &str = "\
answer 0
before 3 0 0 584 1
after 2 0 0 782 1
ring 2 3 4
row 0 2 3 4 7
row 2 3 4 1 7
";

fn input(patch: &Patch, a: u8, b: u8) -> Vec<u8> {
    [&patch.to_bytes()[..], &[a, b]].concat()
}

#[test]
fn block_a_prints_document_01s_lines() {
    assert_eq!(printout(&input(&block_a(), 0, 1)), BLOCK_A);
    assert_eq!(printout(&input(&block_a(), 1, 0)), BLOCK_A);
}

#[test]
fn a_refusal_prints_one_line() {
    assert_eq!(printout(&input(&block_a(), 0, 0)), "answer 9\n");
    assert_eq!(printout(&input(&block_a(), 0, 255)), "answer 9\n");
    assert_eq!(printout(&input(&block_a(), 2, 3)), "answer 13\n");
    let mut wrong_sum = input(&block_a(), 0, 1);
    wrong_sum[511] ^= 1;
    assert_eq!(printout(&wrong_sum), "answer 2\n");
}

#[test]
fn every_other_length_prints_answer_1() {
    let mut bytes = input(&block_a(), 0, 1);
    bytes.resize(600, 0);
    for length in (0..=600).filter(|length| *length != INPUT_BYTES) {
        assert_eq!(printout(&bytes[..length]), "answer 1\n");
    }
}

#[test]
fn marks_are_printed_as_a_dash() {
    let line = |patch: &Patch| summary_line("before", Summary::of(patch));
    assert_eq!(line(&patch(&[], &[], 0)), "before 0 0 0 - -\n");
    let mut inverted = block_a();
    for row in &mut inverted.rows {
        row.numbers.swap(0, 1);
    }
    assert_eq!(line(&inverted), "before 0 0 3 0 -\n");
    let mut flat = block_a();
    flat.points = vec![[5, 5, 5]; 5];
    assert_eq!(line(&flat), "before 0 3 0 0 -\n");
}

#[test]
fn a_removal_without_upright_rows_prints_a_dash() {
    let mut upside_down = block_a();
    for row in &mut upside_down.rows {
        row.numbers.swap(0, 1);
    }
    let text = printout(&input(&upside_down, 0, 1));
    let start = "answer 0\nbefore 0 0 3 0 -\nafter 0 0 2 0 -\nring 2 4 3\n";
    assert!(text.starts_with(start), "{text}");
}

#[test]
fn every_printout_has_its_form() {
    let printed = cases(6, 6_000).filter_map(|case| match case.call {
        Call::Printout { input } => Some((printout(&input), input)),
        _ => None,
    });
    for (text, input) in printed {
        assert!(text.ends_with('\n') && !text.contains("  ") && !text.contains(" \n"));
        let words: Vec<&str> = text.lines().map(|l| l.split(' ').next().unwrap()).collect();
        match text.strip_prefix("answer 0\n") {
            None => assert_eq!(words, ["answer"]),
            Some(rest) => {
                assert_eq!(words[..4], ["answer", "before", "after", "ring"]);
                assert!(words[4..].iter().all(|word| *word == "row"));
                let before = summary_line("before", summary(&input[..512]).unwrap());
                assert!(rest.starts_with(&before));
            }
        }
    }
}

/// What a 3-2 flip of block A prints: a removal's lines without the ring.
const BLOCK_A_FLIPPED: &str = "\
answer 0
before 3 0 0 584 1
after 2 0 0 782 1
row 0 2 3 4 7
row 2 3 4 1 7
";

/// And a 2-3 flip back.
const BLOCK_A_BACK: &str = "\
answer 0
before 2 0 0 782 1
after 3 0 0 584 1
row 0 1 2 3 7
row 0 1 3 4 7
row 0 1 4 2 7
";

/// What the flip's program prints of a patch and these numbers.
fn flipped(patch: &Patch, numbers: &[u8]) -> String {
    flip_printout(&[&patch.to_bytes()[..], numbers].concat())
}

#[test]
fn both_flips_of_block_a_print_their_new_rows() {
    assert_eq!(flipped(&block_a(), &[0, 1]), BLOCK_A_FLIPPED);
    assert_eq!(flipped(&block_a(), &[1, 0]), BLOCK_A_FLIPPED);
    for face in [[2, 3, 4], [4, 2, 3], [3, 2, 4]] {
        assert_eq!(flipped(&block_a_after(), &face), BLOCK_A_BACK);
    }
}

#[test]
fn two_regions_print_answer_20() {
    for joint in in_two_regions(&block_a(), &[0, 1]) {
        assert_eq!(printout(&input(&joint, 0, 1)), "answer 20\n");
        assert_eq!(flipped(&joint, &[1, 0]), "answer 20\n");
    }
    for joint in in_two_regions(&block_a_after(), &[2, 3, 4]) {
        assert_eq!(flipped(&joint, &[4, 2, 3]), "answer 20\n");
    }
}

#[test]
fn marks_print_answers_22_and_23_and_no_word_of_their_own() {
    assert_eq!(printout(&input(&block_a_marked(), 0, 1)), BLOCK_A);
    assert_eq!(flipped(&block_a_marked(), &[0, 1]), BLOCK_A_FLIPPED);
    let after = with_marked(&block_a_after(), &BLOCK_A_SHELL);
    assert_eq!(flipped(&after, &[2, 3, 4]), BLOCK_A_BACK);
    for marked in with_one_marked(&block_a_marked(), &[0, 1]) {
        assert_eq!(printout(&input(&marked, 0, 1)), "answer 23\n");
        assert_eq!(flipped(&marked, &[1, 0]), "answer 23\n");
    }
    for marked in with_one_marked(&after, &[2, 3, 4]) {
        assert_eq!(flipped(&marked, &[4, 2, 3]), "answer 23\n");
    }
    let mut apart = with_one_marked(&block_a(), &[0, 1]).swap_remove(0);
    let rows = apart.rows.iter_mut();
    let marked = rows.filter(|row| row.marks != [false; 4]).take(1);
    marked.for_each(|row| row.marks = [false; 4]);
    assert_eq!(printout(&input(&apart, 0, 1)), "answer 22\n");
    assert_eq!(flipped(&apart, &[0, 1]), "answer 22\n");
    assert_eq!(flipped(&apart, &[0]), "answer 22\n");
}

#[test]
fn a_refused_flip_prints_one_line() {
    assert_eq!(flipped(&block_a(), &[0, 255]), "answer 9\n");
    assert_eq!(flipped(&block_a(), &[0, 1, 1]), "answer 9\n");
    assert_eq!(flipped(&block_a(), &[0, 2, 3]), "answer 11\n");
    assert_eq!(flipped(&block_a(), &[2, 3, 4]), "answer 10\n");
}

#[test]
fn any_count_but_two_and_three_prints_answer_21() {
    let mut wrong_sum = block_a().to_bytes();
    wrong_sum[BLOCK_BYTES - 1] ^= 1;
    for count in (0..9).chain([300]).filter(|count| ![2, 3].contains(count)) {
        for number in [0, 255] {
            let numbers = vec![number; count];
            assert_eq!(flipped(&block_a(), &numbers), "answer 21\n", "{count}");
            let wrong_block = [&wrong_sum[..], &numbers].concat();
            assert_eq!(flip_printout(&wrong_block), "answer 2\n", "{count}");
        }
    }
}

#[test]
fn a_flips_input_without_a_whole_block_prints_answer_1() {
    let block = block_a().to_bytes();
    for length in 0..BLOCK_BYTES {
        assert_eq!(flip_printout(&block[..length]), "answer 1\n", "{length}");
    }
}

#[test]
fn a_flips_printout_is_a_removals_without_the_ring() {
    let mut done = 0;
    for (patch, [a, b]) in edges(7, 3_000) {
        let [Ok(a), Ok(b)] = [u8::try_from(a), u8::try_from(b)] else {
            continue;
        };
        let text = printout(&input(&patch, a, b));
        let ring = text.lines().find(|line| line.starts_with("ring"));
        let refused = flipped(&patch, &[a, b]) == format!("answer {}\n", answer::OPEN);
        if ring.is_some_and(|ring| ring.split(' ').count() == 4) && !refused {
            let kept = text.lines().filter(|line| !line.starts_with("ring"));
            let rest: String = kept.map(|line| format!("{line}\n")).collect();
            assert_eq!(flipped(&patch, &[a, b]), rest);
            done += 1;
        }
    }
    assert!(done > 10, "{done}");
}
