//! What is measured, line by line, and what each line is to reach.

use crate::calls;
use crate::inputs::{most_rows, Inputs, Rings, Version};
use crate::timing::Times;
use compare::model::answer;
use compare::model::limits::MAX_ROWS;

/// The most that kernel / Rust may be: the kernel is as fast as Rust.
const GOAL: f64 = 1.0;
/// The same for a comparison, and for a score, which is ten of them: Rust has products of 128 bits, the kernel's language has
/// not.
const COMPARISON_GOAL: f64 = 2.0;

/// The ring lengths measured.
const RINGS: [usize; 3] = [4, 7, 10];

/// The rows of a small table.
const FEW_ROWS: usize = 20;

/// What a removal can come to behind its ring.
const OUTCOMES: [(&str, u32); 3] = [
    ("accepted", answer::DONE),
    ("none better", answer::NONE_BETTER),
    ("blocked", answer::NOT_ADMISSIBLE),
];

/// A line of the table: what is called, and how it is timed on some inputs.
pub struct Line {
    pub name: String,
    pub goal: f64,
    pub times: Box<dyn Fn(&Inputs) -> Times>,
}

impl Line {
    fn new(name: impl Into<String>, goal: f64, times: impl Fn(&Inputs) -> Times + 'static) -> Line {
        Line {
            name: name.into(),
            goal,
            times: Box::new(times),
        }
    }
}

/// All lines, in their order; nothing is measured yet.
pub fn all() -> Vec<Line> {
    let mut lines = inner_lines();
    lines.extend(Version::BOTH.map(few_rows_line));
    lines.extend(Version::BOTH.map(full_block_line));
    lines.extend(Version::BOTH.map(summary_line));
    lines.extend(RINGS.map(table_line));
    lines.extend(RINGS.into_iter().flat_map(removal_lines));
    lines.extend(RINGS.into_iter().flat_map(page_lines));
    lines
}

fn inner_lines() -> Vec<Line> {
    let quality = |inputs: &Inputs| calls::quality(&inputs.of_cases().corners);
    let comparison = |inputs: &Inputs| calls::comparison(&inputs.of_cases().pairs);
    let close = |inputs: &Inputs| calls::comparison(&inputs.of_cases().close_pairs);
    let score = |inputs: &Inputs| calls::score(&inputs.of_cases().fractions);
    vec![
        Line::new("one quality", GOAL, quality),
        Line::new("one comparison", COMPARISON_GOAL, comparison),
        Line::new("one comparison, close fractions", COMPARISON_GOAL, close),
        Line::new("one score", COMPARISON_GOAL, score),
    ]
}

fn few_rows_line(version: Version) -> Line {
    let name = format!("opening a block of {FEW_ROWS} rows{}", version.name());
    let rings = Rings::accepted(version, RINGS[0], FEW_ROWS);
    Line::new(name, GOAL, move |inputs| {
        let edges = inputs.edges(rings).into_iter();
        let blocks: Vec<Vec<u8>> = edges.map(|(block, _)| block).collect();
        calls::opening(&blocks)
    })
}

fn full_block_line(version: Version) -> Line {
    let name = format!("opening a full block{}", version.name());
    Line::new(name, GOAL, move |inputs| {
        calls::opening(inputs.of_cases().full(version))
    })
}

fn summary_line(version: Version) -> Line {
    let name = format!("summary of a full block{}", version.name());
    Line::new(name, GOAL, move |inputs| {
        calls::summary(inputs.of_cases().full(version))
    })
}

fn table_line(m: usize) -> Line {
    let name = format!("table of pieces, m = {m}, {MAX_ROWS} rows");
    let rings = Rings::accepted(Version::Plain, m, MAX_ROWS);
    Line::new(name, GOAL, move |inputs| calls::table(&inputs.edges(rings)))
}

fn removal_lines(m: usize) -> Vec<Line> {
    let mut lines = vec![];
    for rows in [FEW_ROWS, most_rows(m)] {
        for (outcome, answer) in OUTCOMES {
            let rings = Version::BOTH.map(|version| Rings {
                answer,
                ..Rings::accepted(version, m, rows)
            });
            lines.extend(rings.map(|rings| removal_line(outcome, rings)));
        }
    }
    lines
}

fn removal_line(outcome: &str, rings: Rings) -> Line {
    let (m, rows, version) = (rings.m, rings.rows, rings.version.name());
    let name = format!("remove, m = {m}, {rows} rows, {outcome}{version}");
    Line::new(name, GOAL, move |inputs| calls::removal(inputs, rings))
}

/// The page rows of removals that are accepted.
fn page_lines(m: usize) -> [Line; 2] {
    let rows = most_rows(m);
    Version::BOTH.map(|version| {
        let rings = Rings::accepted(version, m, rows);
        let name = format!("page row, m = {m}, {rows} rows{}", version.name());
        Line::new(name, GOAL, move |inputs| calls::page(&inputs.edges(rings)))
    })
}
