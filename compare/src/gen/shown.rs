//! The shown qualities of the rows of a block that another case has: every family's blocks are shown, good and bad.

use super::random::Random;
use super::Case;
use crate::model::answer;
use crate::model::call::SHOWN_NUMBERS;
use crate::model::limits::BLOCK_BYTES;
use crate::model::Call;

pub fn shown(random: &mut Random, case: &Case) -> Option<Case> {
    let block = block_of(&case.call)?.to_vec();
    let length = match random.percent(95) {
        true => SHOWN_NUMBERS,
        false => random.below(2 * SHOWN_NUMBERS),
    };
    let meant = meant(&block, length, case.meant);
    let out = (0..length).map(|_| f64::from_bits(random.number()));
    let out = out.collect();
    Some(Case {
        family: "shown",
        call: Call::Shown { block, out },
        meant,
    })
}

fn block_of(call: &Call) -> Option<&[u8]> {
    match call {
        Call::Open { block }
        | Call::Summary { block, .. }
        | Call::Remove { block, .. }
        | Call::Page { block, .. }
        | Call::Flip { block, .. } => Some(block),
        Call::Seal { .. } | Call::Shown { .. } | Call::Printout { .. } => None,
    }
}

/// The answer, from what the case of the block was built to get: 1 was of its output if the block has its length.
fn meant(block: &[u8], length: usize, of_case: Option<u32>) -> Option<u32> {
    if block.len() != BLOCK_BYTES || length != SHOWN_NUMBERS {
        return Some(answer::LENGTH);
    }
    match of_case? {
        answer::LENGTH => None,
        number @ answer::SUM..=answer::FACE_TWICE => Some(number),
        _ => Some(answer::DONE),
    }
}
