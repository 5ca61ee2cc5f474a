//! Seeded cases: one call each, with all its inputs.

mod bad_blocks;
mod chains;
mod close;
mod counts;
mod deep;
mod edges;
mod faces;
mod lattice;
mod marks;
mod obstacles;
mod plates;
mod random;
mod regions;
mod rings;
mod scene;
mod shapes;
mod shown;
mod summaries;
mod templates;

use crate::model::Call;
pub use deep::{deep_calls, deep_sites};
pub use marks::{freely_marked, shell_marked};
pub use random::Random;
pub use rings::ring_in_table;
use std::ops::Range;
pub use templates::{ONE_FRACTION, OTHER_ORDER};

/// A call, and the answer it was built to get where the builder knows it.
#[derive(Clone, Debug)]
pub struct Case {
    pub family: &'static str,
    pub call: Call,
    pub meant: Option<u32>,
}

type Family = (&'static str, usize, fn(&mut Random) -> (Call, Option<u32>));

/// The families of cases and how many in a hundred each gets.
const FAMILIES: [Family; 24] = [
    ("rings", 16, rings::ring),
    ("full tables", 7, rings::full_table),
    ("three", 2, rings::three),
    ("rounding", 3, close::close),
    ("equal fractions", 2, close::equal),
    ("two worst", 1, close::two_worst),
    ("flat chains", 6, chains::flat),
    ("closing faces", 5, chains::closing),
    ("full tables, chains", 4, chains::full_table),
    ("bent chains", 2, chains::bent),
    ("chain lengths", 2, chains::short_or_long),
    ("chains and circles", 5, edges::open_or_many),
    ("ring lengths", 3, edges::short_or_long),
    ("ends", 3, edges::bad_ends),
    ("edges not held", 2, edges::not_held),
    ("faces", 8, faces::face),
    ("lattice", 5, lattice::lattice),
    ("summaries", 4, summaries::summary),
    ("sealing", 3, summaries::sealing),
    ("one fault", 7, bad_blocks::one_fault),
    ("several faults", 3, bad_blocks::several_faults),
    ("faulty fields", 3, bad_blocks::faulty_fields),
    ("lengths", 3, bad_blocks::lengths),
    ("raw bytes", 1, bad_blocks::raw),
];

/// What tells the numbers by which marks are drawn from those of the rest.
const MARKS: u64 = 1 << 40;

/// Case number `index` of a seed.
pub fn case(seed: u64, index: u64) -> Case {
    let mut random = Random::of_case(seed, index);
    let (family, _, make) = drawn(random.below(100));
    let (call, meant) = make(&mut random);
    Case {
        family,
        call,
        meant,
    }
}

fn drawn(mut number: usize) -> Family {
    for family in FAMILIES {
        match number.checked_sub(family.1) {
            Some(rest) => number = rest,
            None => return family,
        }
    }
    unreachable!("the shares make a hundred")
}

/// The first `count` cases of a seed, each with one more that shows the rows of its block, half of the flips with one of
/// another count of numbers, and all flips and some removals with one where the rows that would go have several regions. With
/// some of all these comes one of version 2.
pub fn cases(seed: u64, count: u64) -> impl Iterator<Item = Case> {
    cases_at(seed, 0..count)
}

/// Those of some indices, each with those that come with it.
pub fn cases_at(seed: u64, indices: Range<u64>) -> impl Iterator<Item = Case> {
    indices.flat_map(move |index| {
        let case = case(seed, index);
        let random = &mut Random::of_case(!seed, index);
        let shown = shown::shown(random, &case);
        let other_count = counts::other_count(random, &case);
        let several = regions::several(random, &case);
        let plain = [Some(case), shown, other_count, several];
        let random = &mut Random::of_case(!seed ^ MARKS, index);
        let mut all: Vec<Case> = plain.into_iter().flatten().collect();
        let marked: Vec<Case> = all
            .iter()
            .filter_map(|case| marks::marked(random, case))
            .collect();
        all.extend(marked);
        all
    })
}
