//! The calls as a caller sees them: inputs, the output as it came, and what each leaves behind.

use super::answer;
use super::block::{open, seal};
use super::flips::flip;
use super::limits::{BLOCK_BYTES, FIELD_BYTES, MAX_ROWS};
use super::measure::PageRow;
use super::printout::printout;
use super::removal::remove;
use super::shown::shown;
use super::summary::{summary, Summary};

/// Numbers that a summary is handed out as.
pub const SUMMARY_NUMBERS: usize = 7;
/// Numbers that shown qualities are handed out as: one for each row that a block can have.
pub const SHOWN_NUMBERS: usize = MAX_ROWS;
/// Numbers of a page row.
pub const PAGE_NUMBERS: usize = 2;

/// The places of a summary's numbers and of a page row's.
pub mod place {
    pub const UPRIGHT: usize = 0;
    pub const FLAT: usize = 1;
    pub const INVERTED: usize = 2;
    pub const HAS_WORST: usize = 3;
    pub const WORST: usize = 4;
    pub const HAS_OCTAVE: usize = 5;
    pub const OCTAVE: usize = 6;
    pub const WORST_BEFORE: usize = 0;
    pub const WORST_AFTER: usize = 1;
}

/// One call with all its inputs; `out` and `row` are the output as it came.
#[derive(Clone, Debug, PartialEq)]
pub enum Call {
    Open {
        block: Vec<u8>,
    },
    Seal {
        fields: Vec<u8>,
        out: Vec<u8>,
    },
    Summary {
        block: Vec<u8>,
        out: Vec<u64>,
    },
    Shown {
        block: Vec<u8>,
        out: Vec<f64>,
    },
    Remove {
        block: Vec<u8>,
        ends: [usize; 2],
        out: Vec<u8>,
    },
    Page {
        block: Vec<u8>,
        ends: [usize; 2],
        row: Vec<f64>,
    },
    Flip {
        block: Vec<u8>,
        numbers: Vec<usize>,
        out: Vec<u8>,
    },
    Printout {
        input: Vec<u8>,
    },
}

/// Every call but the printout, in the header's order: on a block, or as much of one as there is, with these numbers, the
/// first two of them the ends of an edge. Each has an output of its own length. A flip gets two numbers, three, and four.
pub fn calls_on(block: &[u8], [u, v, w]: [usize; 3]) -> [Call; 9] {
    let block = block.to_vec();
    let out = vec![0xA5; BLOCK_BYTES];
    let ends = [u, v];
    let flip = |numbers: &[usize]| Call::Flip {
        block: block.clone(),
        numbers: numbers.to_vec(),
        out: out.clone(),
    };
    [
        Call::Open {
            block: block.clone(),
        },
        Call::Seal {
            fields: block[..block.len().min(FIELD_BYTES)].to_vec(),
            out: out.clone(),
        },
        Call::Summary {
            block: block.clone(),
            out: vec![u64::MAX; SUMMARY_NUMBERS],
        },
        Call::Shown {
            block: block.clone(),
            out: vec![-1.5; SHOWN_NUMBERS],
        },
        Call::Remove {
            block: block.clone(),
            ends,
            out: out.clone(),
        },
        Call::Page {
            block: block.clone(),
            ends,
            row: vec![-1.5; PAGE_NUMBERS],
        },
        flip(&ends),
        flip(&[u, v, w]),
        flip(&[u, v, w, u]),
    ]
}

/// What a call leaves behind: its answer and every element of its output.
#[derive(Clone, Debug, PartialEq)]
pub enum Outcome {
    Answer(u32),
    Bytes(u32, Vec<u8>),
    Numbers(u32, Vec<u64>),
    /// The bits of each f64, so that 0.0 and -0.0 differ.
    Shown(u32, Vec<u64>),
    /// Bits too.
    Page(u32, Vec<u64>),
    Text(String),
}

impl Outcome {
    /// The answer's number; a text begins with it.
    pub fn answer(&self) -> u32 {
        match self {
            Outcome::Answer(number)
            | Outcome::Bytes(number, _)
            | Outcome::Numbers(number, _)
            | Outcome::Shown(number, _)
            | Outcome::Page(number, _) => *number,
            Outcome::Text(text) => {
                let first = text.lines().next().expect("a printout has a line");
                let number = first.strip_prefix("answer ").expect("it is the answer");
                number.parse().expect("a number")
            }
        }
    }
}

/// The model's outcome of a call.
pub fn run(call: &Call) -> Outcome {
    match call.clone() {
        Call::Open { block } => Outcome::Answer(number_of(open(&block))),
        Call::Seal { fields, mut out } => Outcome::Bytes(seal(&fields, &mut out), out),
        Call::Summary { block, mut out } => Outcome::Numbers(summary_into(&block, &mut out), out),
        Call::Shown { block, mut out } => {
            let number = shown_into(&block, &mut out);
            Outcome::Shown(number, out.into_iter().map(f64::to_bits).collect())
        }
        Call::Remove {
            block,
            ends: [a, b],
            mut out,
        } => Outcome::Bytes(number_of(remove(&block, a, b, &mut out)), out),
        Call::Page {
            block,
            ends,
            mut row,
        } => {
            let number = page_into(&block, ends, &mut row);
            Outcome::Page(number, row.into_iter().map(f64::to_bits).collect())
        }
        Call::Flip {
            block,
            numbers,
            mut out,
        } => Outcome::Bytes(flip(&block, &numbers, &mut out), out),
        Call::Printout { input } => Outcome::Text(printout(&input)),
    }
}

fn number_of<T>(outcome: Result<T, u32>) -> u32 {
    outcome.err().unwrap_or(answer::DONE)
}

fn summary_into(block: &[u8], out: &mut [u64]) -> u32 {
    if out.len() != SUMMARY_NUMBERS {
        return answer::LENGTH;
    }
    match summary(block) {
        Ok(summary) => {
            out.copy_from_slice(&as_numbers(summary));
            answer::DONE
        }
        Err(number) => number,
    }
}

/// The numbers of a summary; both of a mark are 0.
fn as_numbers(summary: Summary) -> [u64; SUMMARY_NUMBERS] {
    let mut numbers = [0; SUMMARY_NUMBERS];
    numbers[place::UPRIGHT] = summary.upright as u64;
    numbers[place::FLAT] = summary.flat as u64;
    numbers[place::INVERTED] = summary.inverted as u64;
    if let Some(worst) = summary.worst {
        numbers[place::HAS_WORST] = 1;
        numbers[place::WORST] = u64::from(worst);
    }
    if let Some(octave) = summary.octave {
        numbers[place::HAS_OCTAVE] = 1;
        numbers[place::OCTAVE] = u64::from(octave);
    }
    numbers
}

/// The shown quality of each row with its sign, then zeros.
fn shown_into(block: &[u8], out: &mut [f64]) -> u32 {
    if out.len() != SHOWN_NUMBERS {
        return answer::LENGTH;
    }
    match shown(block) {
        Ok(mut rows) => {
            rows.resize(SHOWN_NUMBERS, 0.0);
            out.copy_from_slice(&rows);
            answer::DONE
        }
        Err(number) => number,
    }
}

/// "there is a page row only with answer 0 of a removal".
fn page_into(block: &[u8], [a, b]: [usize; 2], row: &mut [f64]) -> u32 {
    if row.len() != PAGE_NUMBERS {
        return answer::LENGTH;
    }
    match remove(block, a, b, &mut [0; BLOCK_BYTES]) {
        Ok(removal) => {
            let PageRow { before, after } = removal.page;
            row[place::WORST_BEFORE] = before;
            row[place::WORST_AFTER] = after;
            answer::DONE
        }
        Err(number) => number,
    }
}
