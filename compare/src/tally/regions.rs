//! Fine points of removals and flips where the rows that would go have more than one region: how they share them, and what else
//! is or would be refused.

use super::marks::is_marked;
use crate::model::mesh::region_of;
use crate::model::ring::{link, site, Site};
use crate::model::{answer, open, run, Call, Patch, Row};
use std::collections::BTreeSet;

/// How three rows or more can share regions, by their order in the table.
pub const SHARED_IN_TABLE: [&str; 8] = [
    "only the first row differs",
    "only the last row differs",
    "the first two rows agree",
    "the first row and the last agree",
    "two by two the rows agree",
    "by turns in the table",
    "each row has another",
    "the lower four bits agree",
];

/// How four rows or more round an edge can share two regions, by the order of their links.
pub const SHARED_ROUND_EDGE: [&str; 2] = ["two parts round the edge", "by turns round the edge"];

/// What the call shows, by name.
pub fn region_points(call: &Call, number: u32) -> Vec<String> {
    let (block, numbers) = match call {
        Call::Remove { block, ends, .. } => (block, &ends[..]),
        Call::Flip { block, numbers, .. } => (block, &numbers[..]),
        _ => return vec![],
    };
    // Behind 9 and 10 there are rows that would go, and with 0, 14, 15 and 16 they have one region.
    if !(answer::OPEN..=answer::TWO_REGIONS).contains(&number) || is_marked(call) {
        return vec![];
    }
    let patch = open(block).expect("the numbers were looked at");
    let held: Vec<u8> = numbers.iter().map(|number| *number as u8).collect();
    let going = patch.rows.iter().copied().filter(|row| row.holds(&held));
    let going: Vec<Row> = going.collect();
    if region_of(&going).is_some() {
        return vec![];
    }
    let edge = match *numbers {
        [a, b] => site(&patch, a, b).ok(),
        _ => None,
    };
    let kind = kind(call, edge.as_ref());
    if number != answer::TWO_REGIONS {
        return vec![format!("{kind}: {number} before 20")];
    }
    let otherwise = run(&with_one_region(call, patch, &held)).answer();
    let mut shown = vec![format!("{kind}, 20: otherwise {otherwise}")];
    let in_table = SHARED_IN_TABLE.into_iter().zip(shared_in_table(&going));
    let round = edge.map_or([false; 2], |edge| shared_round_edge(&edge));
    let round = SHARED_ROUND_EDGE.into_iter().zip(round);
    let seen = in_table.chain(round).filter(|(_, seen)| *seen);
    shown.extend(seen.map(|(sharing, _)| format!("{kind}, 20: {sharing}")));
    shown
}

pub fn kind(call: &Call, edge: Option<&Site>) -> &'static str {
    match (call, edge) {
        (Call::Flip { numbers, .. }, _) if numbers.len() == 3 => "2-3 flip",
        (Call::Flip { .. }, _) => "3-2 flip",
        (_, Some(site)) if site.closed => "ring",
        (_, Some(_)) => "chain",
        (_, None) => "several rings or chains",
    }
}

/// The same call on the patch, but with one region for all rows that would go.
fn with_one_region(call: &Call, mut patch: Patch, held: &[u8]) -> Call {
    for row in patch.rows.iter_mut().filter(|row| row.holds(held)) {
        row.region = 0;
    }
    let mut call = call.clone();
    if let Call::Remove { block, .. } | Call::Flip { block, .. } = &mut call {
        *block = patch.to_bytes().to_vec();
    }
    call
}

/// Which of `SHARED_IN_TABLE` rows of several regions show.
fn shared_in_table(going: &[Row]) -> [bool; 8] {
    let [first, inner @ .., last] = going else {
        unreachable!("several regions are of two rows or more");
    };
    let count = going.len();
    let regions: BTreeSet<u8> = going.iter().map(|row| row.region).collect();
    let low_bits: BTreeSet<u8> = regions.iter().map(|region| region % 16).collect();
    let agree = |pair: &[Row]| pair[0].region == pair[1].region;
    let outer_agree = first.region == last.region;
    [
        count > 2 && region_of(&going[1..]).is_some(),
        count > 2 && region_of(&going[..count - 1]).is_some(),
        count > 2 && agree(going),
        outer_agree && !inner.is_empty(),
        count > 2 && going.chunks_exact(2).all(agree),
        count > 2 && regions.len() == 2 && !going.windows(2).any(agree),
        count > 2 && regions.len() == count,
        low_bits.len() == 1,
    ]
}

/// Which of `SHARED_ROUND_EDGE` the rows of a site of several regions show.
fn shared_round_edge(site: &Site) -> [bool; 2] {
    let from = |row: &Row| {
        let from = link(row.numbers, site.a, site.b).v;
        site.ring.iter().position(|v| *v == from)
    };
    let mut rows = site.removed.clone();
    rows.sort_by_key(from);
    let count = rows.len();
    let regions: BTreeSet<u8> = rows.iter().map(|row| row.region).collect();
    let of_each = |region: &u8| rows.iter().filter(|row| row.region == *region).count();
    let changes = rows
        .windows(2)
        .filter(|pair| pair[0].region != pair[1].region);
    let back = site.closed && rows[0].region != rows[count - 1].region;
    let changes = changes.count() + usize::from(back);
    let in_two = match site.closed {
        true => 2,
        false => 1,
    };
    let two = regions.len() == 2 && count > 3;
    [
        two && changes == in_two && regions.iter().all(|region| of_each(region) > 1),
        two && changes >= count - 1,
    ]
}
