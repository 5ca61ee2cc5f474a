//! The qualities of a patch from worst to best: a removal that is done makes this list larger, place by place from the worst. A plain flip
//! may make it smaller.

mod common;

use common::{block_a, block_a_after, plate, UNTOUCHED};
use compare::gen::cases;
use compare::model::measure::Quality;
use compare::model::removal::{removal, Removal};
use compare::model::{flip, open, Call, Patch};
use std::cmp::Ordering;
use std::collections::BTreeSet;

fn worst_first(patch: &Patch) -> Vec<Quality> {
    let mut list: Vec<Quality> = patch
        .rows
        .iter()
        .map(|row| Quality::of(patch.corners(row)))
        .collect();
    list.sort();
    list
}

/// The first place where both lists have an entry and these differ, and how the old one stands to the new one there.
fn first_difference(old: &Patch, new: &Patch) -> Option<(usize, Ordering)> {
    let entries = worst_first(old).into_iter().zip(worst_first(new));
    let orders = entries.map(|(old, new)| old.cmp(&new));
    orders.enumerate().find(|(_, order)| order.is_ne())
}

/// The place where the list of a removal that is done grows.
fn grows_at(done: &Removal) -> usize {
    match first_difference(&done.before, &done.after) {
        Some((place, Ordering::Less)) => place,
        other => panic!("{other:?}"),
    }
}

fn fractions(patch: &Patch) -> Vec<(i128, i128)> {
    let list = worst_first(patch).into_iter();
    list.map(|q| (q.numerator, q.denominator)).collect()
}

#[test]
fn the_lists_of_the_definitions() {
    let (low, high, new) = (
        (143_327_232, 719_323_136),
        (143_327_232, 282_300_416),
        (322_486_272, 672_221_376),
    );
    assert_eq!(fractions(&block_a()), [low, high, high]);
    assert_eq!(fractions(&block_a_after()), [new, new]);
    let before = [
        (1_289_945_088, 5_716_135_872),
        (1_289_945_088, 5_716_135_872),
        (9_172_942_848, 11_239_424_000),
    ];
    let after = [
        (1_289_945_088, 2_427_715_584),
        (1_289_945_088, 2_427_715_584),
        (2_293_235_712, 4_314_825_152),
        (2_293_235_712, 4_314_825_152),
    ];
    let done = removal(plate(), 0, 1).unwrap();
    assert_eq!(fractions(&done.before), before);
    assert_eq!(fractions(&done.after), after);
}

#[test]
fn a_removal_that_is_done_makes_the_list_larger() {
    let [mut rings, mut chains, mut later, mut shorter, mut longer] = [0; 5];
    for case in cases(41, 12_000) {
        let Call::Remove { block, ends, .. } = &case.call else {
            continue;
        };
        let Ok(patch) = open(block) else { continue };
        let Ok(done) = removal(patch, ends[0], ends[1]) else {
            continue;
        };
        let place = grows_at(&done);
        let (before, after) = (done.before.rows.len(), done.after.rows.len());
        let closed = after + 4 == before + done.ring.len();
        *(if closed { &mut rings } else { &mut chains }) += 1;
        later += usize::from(place > 0);
        shorter += usize::from(after < before);
        longer += usize::from(after > before);
    }
    let counts = [rings, chains, later, shorter, longer];
    assert!(counts.iter().all(|count| *count > 100), "{counts:?}");
}

/// All edges of the patch.
fn edges(patch: &Patch) -> BTreeSet<[usize; 2]> {
    let ends = |numbers: [u8; 4]| {
        let [p, q, r, s] = numbers.map(usize::from);
        [[p, q], [p, r], [p, s], [q, r], [q, s], [r, s]]
    };
    let rows = patch.rows.iter().flat_map(|row| ends(row.numbers));
    rows.map(|[a, b]| [a.min(b), a.max(b)]).collect()
}

#[test]
fn removals_one_after_another_come_to_an_end() {
    let [mut walks, mut steps] = [0; 2];
    for case in cases(43, 1_200) {
        let Call::Remove { block, .. } = &case.call else {
            continue;
        };
        let Ok(mut patch) = open(block) else { continue };
        let start = patch.clone();
        let mut taken = 0;
        while let Some(done) = edges(&patch)
            .into_iter()
            .find_map(|[a, b]| removal(patch.clone(), a, b).ok())
        {
            grows_at(&done);
            patch = done.after;
            taken += 1;
            let (_, order) = first_difference(&start, &patch).unwrap();
            assert_eq!(order, Ordering::Less);
        }
        walks += usize::from(taken > 1);
        steps += taken;
    }
    assert!(walks > 20 && steps > 100, "{walks} {steps}");
}

#[test]
fn a_flip_may_make_it_smaller() {
    let [mut smaller, mut larger] = [0; 2];
    for case in cases(42, 8_000) {
        let Call::Flip { block, numbers, .. } = &case.call else {
            continue;
        };
        let mut out = UNTOUCHED;
        if flip(block, numbers, &mut out) != 0 {
            continue;
        }
        match first_difference(&open(block).unwrap(), &open(&out).unwrap()) {
            Some((_, Ordering::Greater)) => smaller += 1,
            Some((_, Ordering::Less)) => larger += 1,
            _ => {}
        }
    }
    assert!(smaller > 50 && larger > 50, "{smaller} {larger}");
}
