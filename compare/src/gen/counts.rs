//! Flips with neither two numbers nor three, on the block of a flip that another case has: every family's blocks, good and bad.

use super::random::Random;
use super::Case;
use crate::model::answer;
use crate::model::limits::MAX_POINTS;
use crate::model::Call;

pub fn other_count(random: &mut Random, case: &Case) -> Option<Case> {
    let Call::Flip {
        block,
        numbers,
        out,
    } = &case.call
    else {
        return None;
    };
    if random.percent(50) {
        return None;
    }
    let many = random.within(5..=40);
    let count = random.pick(&[0, 1, 1, 4, 4, many]);
    let call = Call::Flip {
        block: block.clone(),
        numbers: any_numbers(random, numbers, count),
        out: out.clone(),
    };
    Some(Case {
        family: "other counts",
        call,
        meant: case.meant.map(before_the_numbers),
    })
}

/// The numbers of the other flip again and again, or points, or numbers that no point can have.
fn any_numbers(random: &mut Random, own: &[usize], count: usize) -> Vec<usize> {
    let beyond = [MAX_POINTS, 255, 256, 1 << 32, usize::MAX];
    match random.below(3) {
        0 => own.iter().copied().cycle().take(count).collect(),
        1 => (0..count).map(|_| random.below(MAX_POINTS)).collect(),
        _ => (0..count).map(|_| random.pick(&beyond)).collect(),
    }
}

/// The answer, from what the other flip was built to get: the lengths and the block come first.
fn before_the_numbers(of_case: u32) -> u32 {
    match of_case {
        answer::LENGTH..=answer::FACE_TWICE => of_case,
        _ => answer::NOT_TWO_OR_THREE,
    }
}
