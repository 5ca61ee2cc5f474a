//! What a run prints. It fails if the two sides differ anywhere.

use crate::growth::Growth;
use crate::inputs::{Coordinates, Inputs, SEED};
use crate::lines::{self, Line};
use crate::machine;
use crate::timing::Times;

/// The inputs of both kinds of coordinates.
struct Kinds {
    up_to_255: Inputs,
    up_to_127: Inputs,
}

impl Kinds {
    fn new() -> Kinds {
        Kinds {
            up_to_255: Inputs::new(Coordinates::UpTo255),
            up_to_127: Inputs::new(Coordinates::UpTo127),
        }
    }
}

/// A line with its times on coordinates up to 255 and up to 127.
struct Measured<'a> {
    line: &'a Line,
    whole: Times,
    halved: Times,
}

impl Measured<'_> {
    fn new<'a>(line: &'a Line, kinds: &Kinds) -> Measured<'a> {
        Measured {
            line,
            whole: (line.times)(&kinds.up_to_255),
            halved: (line.times)(&kinds.up_to_127),
        }
    }

    /// Whether both ratios are within the goal.
    fn meets_goal(&self) -> bool {
        self.whole.ratio() <= self.line.goal && self.halved.ratio() <= self.line.goal
    }

    fn agrees(&self) -> bool {
        self.whole.agree && self.halved.agree
    }

    fn print(&self) {
        let Line { name, goal, .. } = self.line;
        let Times { kernel, rust, .. } = self.whole;
        let [ratio, halved] = [self.whole.ratio(), self.halved.ratio()];
        let word = match self.meets_goal() {
            true => "met",
            false => "missed",
        };
        let goal = format!("{goal:.1}, {word}");
        println!(
            "| {name:<47} | {kernel:>7.1} | {rust:>7.1} | {ratio:>5.2} | {halved:>13.2} | {goal:<11} |"
        );
    }
}

/// The names of what the two sides differ in.
#[derive(Default)]
struct Differences(Vec<String>);

impl Differences {
    fn note(&mut self, name: &str, agrees: bool) {
        if !agrees {
            self.0.push(format!("\"{name}\""));
        }
    }

    fn outcome(self) -> Result<(), String> {
        match self.0.is_empty() {
            true => Ok(()),
            false => Err(format!("kernel and Rust differ in {}", self.0.join(", "))),
        }
    }
}

/// The lines whose names have this part.
pub fn lines_with(part: &str) -> Result<(), String> {
    let mut lines = lines::all();
    lines.retain(|line| line.name.contains(part));
    if lines.is_empty() {
        return Err(format!("no line has \"{part}\" in its name"));
    }
    let mut differences = Differences::default();
    print_lines(&lines, &Kinds::new(), &mut differences);
    differences.outcome()
}

/// All there is; gives back how the cost grows if both sides agree everywhere.
pub fn whole() -> Result<Growth, String> {
    let kinds = Kinds::new();
    let mut differences = Differences::default();
    print_lines(&lines::all(), &kinds, &mut differences);
    println!();
    let growth = Growth::measured(&kinds.up_to_255);
    growth.print();
    for step in growth.steps() {
        differences.note(&step.name(), step.times.agree);
    }
    println!();
    machine::print_stack();
    println!();
    machine::print_size();
    differences.outcome().map(|()| growth)
}

/// Measures and prints these lines, and says how many miss their goal.
fn print_lines(lines: &[Line], kinds: &Kinds, differences: &mut Differences) {
    print_head();
    let mut missed = 0;
    for line in lines {
        let measured = Measured::new(line, kinds);
        measured.print();
        missed += usize::from(!measured.meets_goal());
        differences.note(&line.name, measured.agrees());
    }
    println!();
    println!("{missed} of {} lines miss their goal", lines.len());
}

fn print_head() {
    println!("processor: {}", machine::processor());
    println!("seed {SEED}, nanoseconds a call, medians");
    println!();
    println!(
        "| Call                                            |  Kernel |    Rust | Ratio | Ratio, to 127 | Goal        |"
    );
    println!(
        "|-------------------------------------------------|--------:|--------:|------:|--------------:|-------------|"
    );
}
