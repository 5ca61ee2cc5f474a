//! The stored cases that the program `vectors` runs through the kernel: picked from the generated ones,
//! with every answer and every byte from the model.

mod pick;
mod record;

pub use pick::{picked, reasons};
pub use record::{
    record, ANSWER_AT, CALL_AT, COUNT_AT, FIGURES_AT, MOST_NUMBERS, OUTPUT_AT, PART_BYTES,
    RECORD_BYTES, RING_AT,
};

use crate::gen::Case;
use crate::model::{run, Call};
use std::collections::BTreeMap;
use std::path::{Path, PathBuf};

/// Where the program's files stand.
pub fn folder() -> PathBuf {
    Path::new(env!("CARGO_MANIFEST_DIR")).join("../crates/vectors")
}

/// The file of cases, within the folder.
pub const CASES: &str = "data/cases";
/// What the program prints if every case agrees, within the folder.
pub const PRINTOUT: &str = "stdout";

/// The kernel's calls, in the order of their numbers in a record.
pub const CALLS: [&str; 5] = ["open", "seal", "summary", "remove", "flip"];

/// What a call of the kernel is given.
pub struct Given<'a> {
    pub input: &'a [u8],
    pub output: Option<&'a [u8]>,
    /// The ends of an edge, or the numbers of a flip.
    pub numbers: &'a [usize],
}

/// What the call is given. Page rows come with the removal, shown qualities are not stored, and the printout is another
/// program's: none is a call of the kernel in a record.
pub fn given(call: &Call) -> Option<Given<'_>> {
    let (input, output, numbers): (&[u8], Option<&[u8]>, &[usize]) = match call {
        Call::Open { block } | Call::Summary { block, .. } => (block, None, &[]),
        Call::Seal { fields, out } => (fields, Some(out), &[]),
        Call::Remove { block, ends, out } => (block, Some(out), ends),
        Call::Flip {
            block,
            numbers,
            out,
        } => (block, Some(out), numbers),
        Call::Shown { .. } | Call::Page { .. } | Call::Printout { .. } => return None,
    };
    Some(Given {
        input,
        output,
        numbers,
    })
}

/// The number of a call of the kernel in a record.
pub fn call_number(call: &Call) -> usize {
    match call {
        Call::Open { .. } => 0,
        Call::Seal { .. } => 1,
        Call::Summary { .. } => 2,
        Call::Remove { .. } => 3,
        Call::Flip { .. } => 4,
        Call::Shown { .. } | Call::Page { .. } | Call::Printout { .. } => {
            unreachable!("not in a record")
        }
    }
}

/// The call and the answer of a case.
pub fn place(call: &Call) -> (usize, u32) {
    (call_number(call), run(call).answer())
}

/// The file of cases.
pub fn cases_file(cases: &[Case]) -> Vec<u8> {
    cases.iter().flat_map(|case| record(&case.call)).collect()
}

/// The printout if every case agrees: a line for each call and answer, then the total.
pub fn printout(cases: &[Case]) -> String {
    let mut counts = BTreeMap::new();
    for case in cases {
        *counts.entry(place(&case.call)).or_insert(0) += 1;
    }
    let mut text = String::new();
    for ((call, answer), count) in counts {
        text += &format!("{} {answer}: {count} of {count}\n", CALLS[call]);
    }
    text + &format!("{0} cases, {0} agree\n", cases.len())
}
