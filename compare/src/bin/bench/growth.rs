//! What an accepted removal takes as the ring and as the table grow.

use crate::calls;
use crate::inputs::{most_rows, Inputs, Rings, Version};
use crate::machine;
use crate::picture::{self, Panel, Point};
use crate::timing::Times;
use compare::model::limits::{LONGEST_RING, SHORTEST_RING};
use std::env::consts::ARCH;

/// The rows of the tables in which the ring grows.
const ROWS: usize = most_rows(LONGEST_RING);

/// The ring whose table grows: with it the fullest table has room.
const M: usize = 4;
const GROWING_ROWS: [usize; 6] = [10, 20, 30, 40, 50, 60];

/// One removal on the way.
pub struct Step {
    m: usize,
    rows: usize,
    pub times: Times,
}

impl Step {
    fn timed(inputs: &Inputs, m: usize, rows: usize) -> Step {
        let rings = Rings::accepted(Version::Plain, m, rows);
        let times = calls::removal(inputs, rings);
        Step { m, rows, times }
    }

    pub fn name(&self) -> String {
        format!("m = {}, {} rows", self.m, self.rows)
    }

    fn print(&self) {
        let Times { kernel, rust, .. } = self.times;
        let (name, ratio) = (self.name(), self.times.ratio());
        println!("| {name:<16} | {kernel:>7.1} | {rust:>7.1} | {ratio:>5.2} |");
    }

    /// Where the step stands in a picture, in microseconds.
    fn point(&self, at: usize) -> Point {
        Point {
            at: at as f64,
            kernel: self.times.kernel / 1000.0,
            rust: self.times.rust / 1000.0,
        }
    }
}

/// Both ways to grow.
pub struct Growth {
    by_ring: Vec<Step>,
    by_rows: Vec<Step>,
}

impl Growth {
    pub fn measured(inputs: &Inputs) -> Growth {
        let rings = SHORTEST_RING..=LONGEST_RING;
        Growth {
            by_ring: rings.map(|m| Step::timed(inputs, m, ROWS)).collect(),
            by_rows: GROWING_ROWS.map(|rows| Step::timed(inputs, M, rows)).into(),
        }
    }

    pub fn steps(&self) -> impl Iterator<Item = &Step> {
        self.by_ring.iter().chain(&self.by_rows)
    }

    pub fn print(&self) {
        println!("| Accepted removal |  Kernel |    Rust | Ratio |");
        println!("|------------------|--------:|--------:|------:|");
        self.steps().for_each(Step::print);
    }

    /// Writes the picture of both.
    pub fn draw(&self) -> Result<(), String> {
        let file = format!("docs/benchmark-{ARCH}.svg");
        let path = format!("{}/../{file}", env!("CARGO_MANIFEST_DIR"));
        let title = "What an accepted removal takes";
        let subtitle = format!("Medians, coordinates up to 255; {}", machine::processor());
        let drawn = picture::svg(title, &subtitle, &self.panels());
        std::fs::write(path, drawn).map_err(|error| format!("{file}: {error}"))?;
        println!("picture: {file}");
        Ok(())
    }

    fn panels(&self) -> [Panel; 2] {
        let by_ring = self.by_ring.iter().map(|step| step.point(step.m));
        let by_rows = self.by_rows.iter().map(|step| step.point(step.rows));
        [
            Panel {
                title: format!("By length of the ring, in tables of {ROWS} rows"),
                axis: "length of the ring, m",
                points: by_ring.collect(),
            },
            Panel {
                title: format!("By rows of the table, with a ring of {M}"),
                axis: "rows of the table",
                points: by_rows.collect(),
            },
        ]
    }
}
