//! One case as bytes. Every record has the same length and the same parts; numbers have their low byte first, and
//! what a call has not, or a refusal gives not, is zero.
//!
//! | Bytes | Meaning |
//! |---|---|
//! | 0 | the call: 0 open, 1 seal, 2 summary, 3 remove, 4 flip |
//! | 1 | the answer |
//! | 2, 3 | bytes of the input |
//! | 4, 5 | bytes of the output |
//! | 6 | the byte that fills the output before the call |
//! | 7 | m |
//! | 8 to 31 | numbers of 8 bytes: the two ends of a removal; or up to four of a flip, the fourth in the bytes 32 to 39 |
//! | 32 to 87 | seven numbers of 8 bytes: the summary; or two, the bits of the page row |
//! | 88 to 97 | the ring |
//! | 98 | how many numbers a flip is given |
//! | 99 to 111 | zero |
//! | 112 to 631 | the input: the block, or what is sealed |
//! | 632 to 1151 | the output after the call; of `open` the fields, in their places of the block |

use super::{call_number, given};
use crate::model::limits::FIELD_BYTES;
use crate::model::{answer, open, remove, run, Call, Outcome};

/// Bytes of a record.
pub const RECORD_BYTES: usize = OUTPUT_AT + PART_BYTES;
/// The most bytes of an input or an output.
pub const PART_BYTES: usize = 520;

/// The call, and the answer.
pub const CALL_AT: usize = 0;
pub const ANSWER_AT: usize = 1;
/// The numbers of a summary, or the bits of the page row.
pub const FIGURES_AT: usize = 32;
pub const RING_AT: usize = 88;
/// How many numbers a flip is given, and the most that a record can hold.
pub const COUNT_AT: usize = 98;
pub const MOST_NUMBERS: usize = 4;
/// The output after the call.
pub const OUTPUT_AT: usize = INPUT_AT + PART_BYTES;

const NUMBERS_AT: usize = 8;
const INPUT_AT: usize = 112;

/// What a call gives besides its answer.
#[derive(Default)]
struct Gives {
    figures: Vec<u64>,
    ring: Vec<u8>,
    output: Vec<u8>,
}

/// The record of a call whose output came filled with one byte.
pub fn record(call: &Call) -> [u8; RECORD_BYTES] {
    let given = given(call).expect("a call of the kernel");
    let output = given.output.unwrap_or(&[]);
    let gives = gives(call);
    let mut record = [0; RECORD_BYTES];
    record[CALL_AT] = call_number(call) as u8;
    record[ANSWER_AT] = run(call).answer() as u8;
    put(&mut record, 2, &(given.input.len() as u16).to_le_bytes());
    put(&mut record, 4, &(output.len() as u16).to_le_bytes());
    record[6] = output.first().copied().unwrap_or(0);
    record[7] = gives.ring.len() as u8;
    let numbers: Vec<u64> = given.numbers.iter().map(|n| *n as u64).collect();
    put(&mut record, NUMBERS_AT, &in_bytes(&numbers));
    put(&mut record, FIGURES_AT, &in_bytes(&gives.figures));
    if let Call::Flip { numbers, .. } = call {
        record[COUNT_AT] = numbers.len() as u8;
    }
    put(&mut record, RING_AT, &gives.ring);
    put(&mut record, INPUT_AT, given.input);
    put(&mut record, OUTPUT_AT, &gives.output);
    record
}

fn put(record: &mut [u8], at: usize, bytes: &[u8]) {
    record[at..at + bytes.len()].copy_from_slice(bytes);
}

fn in_bytes(numbers: &[u64]) -> Vec<u8> {
    numbers.iter().flat_map(|n| n.to_le_bytes()).collect()
}

fn gives(call: &Call) -> Gives {
    match (call, run(call)) {
        (Call::Open { block }, _) => Gives {
            output: fields_of(block).to_vec(),
            ..Gives::default()
        },
        (Call::Remove { block, ends, out }, _) => removal_gives(block, *ends, out.clone()),
        (_, Outcome::Numbers(answer::DONE, figures)) => Gives {
            figures,
            ..Gives::default()
        },
        (_, Outcome::Bytes(_, output)) => Gives {
            output,
            ..Gives::default()
        },
        _ => Gives::default(),
    }
}

/// The version, the counts, the points and the rows.
fn fields_of(block: &[u8]) -> [u8; FIELD_BYTES] {
    open(block).map_or([0; FIELD_BYTES], |patch| patch.to_fields())
}

fn removal_gives(block: &[u8], [a, b]: [usize; 2], mut output: Vec<u8>) -> Gives {
    let outcome = remove(block, a, b, &mut output);
    let (figures, ring) = outcome.map_or((vec![], vec![]), |removal| {
        let sizes = [removal.page.before, removal.page.after];
        (sizes.map(f64::to_bits).to_vec(), removal.ring)
    });
    Gives {
        figures,
        ring,
        output,
    }
}
