//! Removals and flips where the rows that would go have more than one region, on the block of such a call that another case
//! has: every kind of edge and face, with everything else that is refused there.

use super::random::Random;
use super::Case;
use crate::model::limits::BLOCK_BYTES;
use crate::model::ring::{link, site};
use crate::model::{answer, open, Call, Patch};

/// How rows share regions, in some order of theirs.
#[derive(Clone, Copy)]
enum Sharing {
    /// Only the first differs.
    First,
    /// Only the last differs.
    Last,
    /// Only one in the middle differs.
    Middle,
    /// Two regions by turns.
    Turns,
    /// Two regions, the same for two rows after each other.
    TwoByTwo,
    /// Two halves.
    Halves,
    /// Each row has another.
    Different,
}

const SHARINGS: [Sharing; 7] = [
    Sharing::First,
    Sharing::Last,
    Sharing::Middle,
    Sharing::Turns,
    Sharing::TwoByTwo,
    Sharing::Halves,
    Sharing::Different,
];

pub fn several(random: &mut Random, case: &Case) -> Option<Case> {
    let share = match case.call {
        Call::Flip { .. } => 100,
        _ => 40,
    };
    if !random.percent(share) {
        return None;
    }
    let mut call = case.call.clone();
    match &mut call {
        Call::Remove { block, ends, .. } | Call::Page { block, ends, .. } => {
            share_out(random, block, ends)?;
        }
        Call::Flip { block, numbers, .. } => share_out(random, block, numbers)?,
        Call::Printout { input } => {
            let (block, ends) = input.split_at_mut_checked(BLOCK_BYTES)?;
            let ends: Vec<usize> = ends.iter().copied().map(usize::from).collect();
            share_out(random, block, &ends)?;
        }
        _ => return None,
    }
    Some(Case {
        family: "several regions",
        call,
        meant: case.meant.map(with_several),
    })
}

/// The answer, from what the other case was built to get: the regions are looked at before the room.
fn with_several(of_case: u32) -> u32 {
    match of_case {
        answer::DONE | answer::ROOM | answer::NOT_ADMISSIBLE | answer::NONE_BETTER => {
            answer::TWO_REGIONS
        }
        _ => of_case,
    }
}

/// Gives the rows of the block that hold all of the numbers several regions, if it has two such rows.
fn share_out(random: &mut Random, block: &mut [u8], numbers: &[usize]) -> Option<()> {
    let mut patch = open(block).ok()?;
    let numbers: Result<Vec<u8>, _> = numbers.iter().copied().map(u8::try_from).collect();
    let numbers = numbers.ok()?;
    let places = 0..patch.rows.len();
    let mut going: Vec<usize> = places
        .filter(|at| patch.rows[*at].holds(&numbers))
        .collect();
    if going.len() < 2 {
        return None;
    }
    if random.percent(30) {
        follow_links(&patch, &mut going, &numbers);
    }
    let regions = regions(random, going.len());
    for (at, region) in going.into_iter().zip(regions) {
        patch.rows[at].region = region;
    }
    block.copy_from_slice(&patch.to_bytes());
    Some(())
}

/// Puts rows round an edge with one ring or chain in the order of its links; others keep the table's.
fn follow_links(patch: &Patch, going: &mut [usize], numbers: &[u8]) {
    let [a, b] = *numbers else { return };
    let Ok(site) = site(patch, usize::from(a), usize::from(b)) else {
        return;
    };
    going.sort_by_key(|at| {
        let from = link(patch.rows[*at].numbers, site.a, site.b).v;
        site.ring.iter().position(|v| *v == from)
    });
}

/// So many regions, two different ones among them.
fn regions(random: &mut Random, count: usize) -> Vec<u8> {
    let one = random.byte();
    let other = match random.percent(50) {
        true => one ^ (1 << random.below(8)),
        false => one.wrapping_add(random.within(1..=255) as u8),
    };
    let sharing = match count {
        2 => Sharing::Turns,
        _ => random.pick(&SHARINGS),
    };
    let differs = |place: usize| match sharing {
        Sharing::First => place == 0,
        Sharing::Last => place == count - 1,
        Sharing::Middle => place == count / 2,
        Sharing::Turns => place % 2 == 1,
        Sharing::TwoByTwo => place / 2 % 2 == 1,
        Sharing::Halves | Sharing::Different => place >= count / 2,
    };
    let region = |place: usize| match (sharing, differs(place)) {
        (Sharing::Different, _) => one.wrapping_add(37 * place as u8),
        (_, true) => other,
        (_, false) => one,
    };
    (0..count).map(region).collect()
}
