//! The summary of a block, in one pass over its rows.

use super::block::opened;
use super::measure::{Measures, Quality};
use crate::model::answer;
use crate::model::call::SUMMARY_NUMBERS;

/// Upright, flat, inverted, has_worst, worst, has_octave, octave; 0 where there is a mark. A refusal leaves `out`.
#[inline(never)]
pub fn summary(block: &[u8], out: &mut [u64]) -> u32 {
    let Ok(out) = <&mut [u64; SUMMARY_NUMBERS]>::try_from(out) else {
        return answer::LENGTH;
    };
    let Ok(block) = block.try_into() else {
        return answer::LENGTH;
    };
    let fields = match opened(block) {
        Ok(fields) => fields,
        Err(number) => return number,
    };
    let (mut upright, mut flat, mut inverted, mut badness) = (0, 0, 0, 0);
    let mut worst = Quality::INFINITE;
    let measures = Measures::of(fields);
    for row in 0..fields.rows.len() {
        let quality = measures.quality(row);
        match quality.sign() {
            1 => {
                upright += 1;
                badness += quality.badness();
            }
            0 => flat += 1,
            _ => inverted += 1,
        }
        worst = worst.worse_of(quality);
    }
    let worst = (!fields.rows.is_empty()).then(|| worst.score());
    let octave = badness.checked_div(upright).map(u64::ilog2);
    let mark = |number: Option<u32>| [u64::from(number.is_some()), number.unwrap_or(0).into()];
    let ([has_worst, worst], [has_octave, octave]) = (mark(worst), mark(octave));
    *out = [
        upright, flat, inverted, has_worst, worst, has_octave, octave,
    ];
    answer::DONE
}
