//! "The programs and their printouts".

use super::answer;
use super::block::{open, Patch};
use super::flips::flip;
use super::limits::{BLOCK_BYTES, INPUT_BYTES};
use super::mesh::Row;
use super::removal::{remove, Removal};
use super::summary::Summary;
use std::fmt::Display;

/// "The program takes 514 bytes on standard input: a block, then the two ends."
/// "a wrong input length prints `answer 1`".
pub fn printout(input: &[u8]) -> String {
    let outcome = match input.len() {
        INPUT_BYTES => {
            let (block, ends) = input.split_at(BLOCK_BYTES);
            let [a, b] = [ends[0], ends[1]].map(usize::from);
            remove(block, a, b, &mut [0; BLOCK_BYTES])
        }
        _ => Err(answer::LENGTH),
    };
    match outcome {
        Ok(removal) => accepted(&removal),
        Err(number) => format!("answer {number}\n"),
    }
}

/// "Otherwise the line `answer 0` comes first; then `before` and `after` give the patch's upright,
/// flat and inverted counts, worst score and octave (`-` for a mark), `ring` the ring, and each
/// `row` four numbers and the region of a new row, in written order."
fn accepted(removal: &Removal) -> String {
    let first = first_lines(&removal.before, &removal.after);
    first + &line("ring", &removal.ring) + &row_lines(&removal.new_rows)
}

/// What the flip's program prints. It takes a block, then the numbers, one byte each, however many.
pub fn flip_printout(input: &[u8]) -> String {
    let (block, numbers) = input.split_at(input.len().min(BLOCK_BYTES));
    let given: Vec<usize> = numbers.iter().copied().map(usize::from).collect();
    let mut out = [0; BLOCK_BYTES];
    match flip(block, &given, &mut out) {
        answer::DONE => {
            let [before, after] = [block, &out].map(|block| open(block).expect("it opens"));
            let kept = before.rows.iter().filter(|row| !row.holds(numbers)).count();
            first_lines(&before, &after) + &row_lines(&after.rows[kept..])
        }
        number => format!("answer {number}\n"),
    }
}

/// The lines `answer 0`, `before` and `after`.
fn first_lines(before: &Patch, after: &Patch) -> String {
    let summaries = [("before", before), ("after", after)];
    let lines = summaries.map(|(word, patch)| summary_line(word, Summary::of(patch)));
    String::from("answer 0\n") + &lines.concat()
}

/// A line for each row.
fn row_lines(rows: &[Row]) -> String {
    let line_of = |row: &Row| {
        let [p, q, r, s] = row.numbers;
        line("row", &[p, q, r, s, row.region])
    };
    rows.iter().map(line_of).collect()
}

/// One line of a summary, with `-` for a mark.
pub fn summary_line(word: &str, summary: Summary) -> String {
    let counts = [summary.upright, summary.flat, summary.inverted].map(|n| n.to_string());
    let marked = [summary.worst, summary.octave].map(|n| match n {
        Some(number) => number.to_string(),
        None => String::from("-"),
    });
    line(word, &[&counts[..], &marked[..]].concat())
}

/// A word and numbers, one space between, ended by a newline.
fn line(word: &str, numbers: &[impl Display]) -> String {
    let mut text = String::from(word);
    for number in numbers {
        text += &format!(" {number}");
    }
    text + "\n"
}
