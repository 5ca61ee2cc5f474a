//! What a run of cases covered: how often each answer came, each length of ring and chain, each fine point.

use crate::gen::Case;
use crate::model::limits::{BLOCK_BYTES, LONGEST_RING, MARKED, MAX_ROWS};
use crate::model::mesh::Row;
use crate::model::removal::worst_removed;
use crate::model::ring::{site, Site};
use crate::model::{answer, open, run, Call, Outcome, Patch, Quality};
use crate::rivals::{faulty_flip, faulty_open, removal, Fault, FAULTS, FLIP_FAULTS, OPEN_FAULTS};
use std::collections::BTreeMap;

mod chains;
mod marks;
mod measures;
mod print;
mod regions;

pub use marks::is_marked;
pub use measures::row_points;
pub use regions::{SHARED_IN_TABLE, SHARED_ROUND_EDGE};

/// Answers are 0 to 23.
pub const ANSWERS: usize = 24;

/// Rings of this length and longer share a line, and so do chains.
const LONGER: usize = LONGEST_RING + 2;

/// How often each answer came.
pub type Counts = [u64; ANSWERS];

#[derive(Clone, Default)]
pub struct Tally {
    pub cases: u64,
    pub calls: BTreeMap<&'static str, Counts>,
    /// Those of version 2 among them.
    pub marked: BTreeMap<&'static str, Counts>,
    pub families: BTreeMap<&'static str, Counts>,
    /// Answers of removals whose edge has one ring, by its length.
    pub rings: BTreeMap<usize, Counts>,
    /// Answers of removals whose edge has one open chain, by its length in points.
    pub chains: BTreeMap<usize, Counts>,
    /// Removals and flips that tell a wrong kernel from the model, by what it gets wrong.
    pub told: BTreeMap<String, u64>,
    /// Fine points that removals went through.
    pub points: BTreeMap<String, u64>,
    /// Cases where the model disagreed with the case's builder or with the second removal.
    pub disagreements: Vec<String>,
}

impl Tally {
    /// Runs the cases through the model and counts.
    pub fn of(cases: impl Iterator<Item = Case>) -> Tally {
        let mut tally = Tally::default();
        for case in cases {
            tally.add(&case);
        }
        tally
    }

    /// Both together.
    pub fn and(mut self, other: Tally) -> Tally {
        self.cases += other.cases;
        merge(&mut self.calls, other.calls, add_counts);
        merge(&mut self.marked, other.marked, add_counts);
        merge(&mut self.families, other.families, add_counts);
        merge(&mut self.rings, other.rings, add_counts);
        merge(&mut self.chains, other.chains, add_counts);
        merge(&mut self.told, other.told, |one, more| *one += more);
        merge(&mut self.points, other.points, |one, more| *one += more);
        self.disagreements.extend(other.disagreements);
        self
    }

    fn add(&mut self, case: &Case) {
        let outcome = run(&case.call);
        let number = outcome.answer();
        self.cases += 1;
        count(&mut self.calls, name(&case.call), number);
        if marks::is_marked(&case.call) {
            count(&mut self.marked, name(&case.call), number);
        }
        count(&mut self.families, case.family, number);
        if case.meant.is_some_and(|meant| meant != number) {
            self.disagreements.push(format!("got {number}: {case:?}"));
        }
        self.add_page(&case.call, &outcome);
        self.add_shown(&case.call, &outcome);
        self.add_flip_rivals(&case.call, &outcome);
        self.add_open_rivals(&case.call, number);
        for name in marks::mark_points(&case.call, &outcome) {
            self.point(&name, true);
        }
        for name in regions::region_points(&case.call, number) {
            self.point(&name, true);
        }
        let Some((block, ends)) = edge_of(&case.call) else {
            return;
        };
        let Ok(patch) = open(block) else {
            return;
        };
        let site = site(&patch, ends[0], ends[1]).ok();
        let removal = !matches!(case.call, Call::Flip { .. }) && number != answer::LENGTH;
        if let (Some(site), true) = (&site, removal) {
            let lengths = match site.closed {
                true => &mut self.rings,
                false => &mut self.chains,
            };
            count(lengths, site.m().min(LONGER), number);
        }
        self.add_all(match case.call {
            Call::Flip { .. } => chains::flip_points(&patch, site.as_ref(), number),
            _ => chains::open_points(&patch, ends, number),
        });
        if let (Call::Remove { out, .. }, Outcome::Bytes(_, bytes)) = (&case.call, &outcome) {
            if out.len() == BLOCK_BYTES {
                let written = (number == answer::DONE).then(|| open(bytes).expect("it opens"));
                self.add_rivals(&patch, ends, written.as_ref().ok_or(number));
                if let Some(site) = site {
                    self.add_points(&patch, &site, number, written);
                    if !site.closed {
                        self.add_all(chains::outer_points(&patch, &site, number));
                        self.add_all(chains::closing_points(&patch, &site, number));
                    }
                }
            }
        }
    }

    fn add_page(&mut self, call: &Call, outcome: &Outcome) {
        let (Call::Page { block, .. }, Outcome::Page(answer::DONE, row)) = (call, outcome) else {
            return;
        };
        let patch = open(block).expect("it is done");
        for (name, seen) in measures::worst_points(&patch) {
            self.point(&format!("page row: {name}"), seen);
        }
        let [before, after] = [row[0], row[1]].map(f64::from_bits);
        self.point("page row: negative before", before < 0.0);
        self.point("page row: zero before", before == 0.0);
        self.point("page row: positive before", before > 0.0);
        self.point("page row: negative after", after < 0.0);
        self.point("page row: zero after", after == 0.0);
        self.point("page row: positive after", after > 0.0);
        self.point("page row: worst unchanged", before == after);
    }

    fn add_shown(&mut self, call: &Call, outcome: &Outcome) {
        let (Call::Shown { block, .. }, Outcome::Shown(answer::DONE, out)) = (call, outcome) else {
            return;
        };
        let patch = open(block).expect("it is shown");
        for (name, seen) in row_points(&patch) {
            self.point(&format!("shown: {name}"), seen);
        }
        let count = patch.rows.len();
        let rows: Vec<f64> = out[..count].iter().copied().map(f64::from_bits).collect();
        let any = |holds: fn(f64) -> bool| rows.iter().any(|shown| holds(*shown));
        let (upright, flat, inverted) = (any(|q| q > 0.0), any(|q| q == 0.0), any(|q| q < 0.0));
        self.point("shown: no rows", count == 0);
        self.point("shown: 60 rows", count == MAX_ROWS);
        self.point("shown: a flat row", flat);
        self.point("shown: an inverted row", inverted);
        self.point(
            "shown: rows of all three signs",
            upright && flat && inverted,
        );
    }

    fn add_rivals(&mut self, patch: &Patch, ends: [usize; 2], right: Result<&Patch, u32>) {
        let differs = |fault: Fault| removal(patch, ends, fault).as_ref().map_err(|n| *n) != right;
        if differs(Fault::None) {
            self.disagreements
                .push(format!("the second removal differs on {patch:?}, {ends:?}"));
        }
        // Those that get something else wrong are told by version 1.
        let of_marks = patch.version == MARKED;
        for fault in FAULTS {
            let told = fault.is_of_marks() == of_marks && differs(fault);
            *self.told.entry(format!("{fault:?}")).or_default() += u64::from(told);
        }
    }

    fn add_flip_rivals(&mut self, call: &Call, right: &Outcome) {
        let Call::Flip {
            block,
            numbers,
            out,
        } = call
        else {
            return;
        };
        let of_marks = marks::is_marked(call);
        for fault in FLIP_FAULTS {
            let told = fault.is_of_marks() == of_marks && {
                let mut out = out.clone();
                let number = faulty_flip(block, numbers, &mut out, fault);
                Outcome::Bytes(number, out) != *right
            };
            *self.told.entry(format!("{fault:?}")).or_default() += u64::from(told);
        }
    }

    /// A call whose block opens with another answer has another answer.
    fn add_open_rivals(&mut self, call: &Call, number: u32) {
        let block = marks::input_of(call);
        if number == answer::LENGTH || block.len() != BLOCK_BYTES {
            return;
        }
        let right = open(block).err().unwrap_or(answer::DONE);
        if faulty_open(block, right, None) != right {
            self.disagreements
                .push(format!("the second opening differs on {call:?}"));
        }
        for fault in OPEN_FAULTS {
            let differs = faulty_open(block, right, Some(fault)) != right;
            *self.told.entry(format!("{fault:?}")).or_default() += u64::from(differs);
        }
    }

    fn add_points(&mut self, patch: &Patch, site: &Site, number: u32, after: Option<Patch>) {
        self.point(
            "60 rows before, answer 0",
            number == 0 && patch.rows.len() == MAX_ROWS,
        );
        self.point(
            "14 and 15 at once",
            self.blocked_without_room(patch, site, number),
        );
        if number == answer::NONE_BETTER {
            self.add_equal(patch, site);
        }
        let Some(after) = after else {
            return;
        };
        let new = &after.rows[site.kept.len()..];
        self.add_tie(patch, site, new);
        let sign = |rows: &[Row], sign: i128| {
            let quality = |row: &Row| Quality::of(patch.corners(row)).numerator.signum();
            rows.iter().any(|row| quality(row) == sign)
        };
        self.point("answer 0: a removed row is flat", sign(&site.removed, 0));
        self.point(
            "answer 0: a removed row is inverted",
            sign(&site.removed, -1),
        );
        self.point(
            "answer 0: all removed rows upright",
            !sign(&site.removed, 0) && !sign(&site.removed, -1),
        );
        self.point("answer 0: a new row is flat", sign(new, 0));
        self.point("answer 0: a new row is inverted", sign(new, -1));
        self.point(
            "answer 0: points of the ring coincide",
            coincide(patch, &site.ring),
        );
        self.point("answer 0: 60 rows after", after.rows.len() == MAX_ROWS);
        self.point("answer 0: kept rows", !site.kept.is_empty());
    }

    fn blocked_without_room(&self, patch: &Patch, site: &Site, number: u32) -> bool {
        let ends = [site.a, site.b].map(usize::from);
        number == answer::ROOM
            && removal(patch, ends, Fault::TestsRoomLast) == Err(answer::NOT_ADMISSIBLE)
    }

    /// None better because the best is just equal: is it written with the same two numbers?
    fn add_equal(&mut self, patch: &Patch, site: &Site) {
        let ends = [site.a, site.b].map(usize::from);
        let Ok(equal) = removal(patch, ends, Fault::TakesEqualForBetter) else {
            return;
        };
        let new = equal.rows[site.kept.len()..].iter();
        let new = new.map(|row| Quality::of(patch.corners(row))).min();
        let (new, old) = (new.expect("new rows"), worst_removed(patch, site));
        let zero = old.numerator == 0;
        let same = new.numerator == old.numerator;
        self.point("16 by equal: both zero", zero);
        self.point("16 by equal: same two numbers", !zero && same);
        self.point(
            "16 by equal: other numerator and denominator",
            !zero && !same,
        );
    }

    /// A tie that the smallest apex decides: is it written with the same two numbers?
    fn add_tie(&mut self, patch: &Patch, site: &Site, new: &[Row]) {
        let ends = [site.a, site.b].map(usize::from);
        let Ok(other) = removal(patch, ends, Fault::TakesLargestApex) else {
            return;
        };
        let other = &other.rows[site.kept.len()..];
        if other == new {
            return;
        }
        let worst = |rows: &[Row]| {
            let qualities = rows.iter().map(|row| Quality::of(patch.corners(row)));
            qualities.min().expect("new rows").numerator
        };
        let (taken, left) = (worst(new), worst(other));
        let whole = new[0] != other[0];
        self.point("tie in the whole ring or chain", whole);
        self.point("tie only in a piece below", !whole);
        self.point("tie at zero", taken == 0);
        self.point("tie of other numerator and denominator", taken != left);
    }

    fn add_all(&mut self, points: Vec<(&'static str, bool)>) {
        for (name, seen) in points {
            self.point(name, seen);
        }
    }

    fn point(&mut self, name: &str, seen: bool) {
        *self.points.entry(name.to_string()).or_default() += u64::from(seen);
    }
}

fn count<K: Ord>(table: &mut BTreeMap<K, Counts>, key: K, number: u32) {
    table.entry(key).or_insert([0; ANSWERS])[number as usize] += 1;
}

/// Adds what the second table has to the first.
fn merge<K: Ord, V: Default>(table: &mut BTreeMap<K, V>, more: BTreeMap<K, V>, add: fn(&mut V, V)) {
    for (key, value) in more {
        add(table.entry(key).or_default(), value);
    }
}

fn add_counts(counts: &mut Counts, more: Counts) {
    for (count, more) in counts.iter_mut().zip(more) {
        *count += more;
    }
}

/// The name of a call, of a flip by the count of its numbers.
pub fn name(call: &Call) -> &'static str {
    match call {
        Call::Open { .. } => "open",
        Call::Seal { .. } => "seal",
        Call::Summary { .. } => "summary",
        Call::Shown { .. } => "shown",
        Call::Remove { .. } => "remove",
        Call::Page { .. } => "page",
        Call::Flip { numbers, .. } => match numbers.len() {
            2 => "flip 3-2",
            3 => "flip 2-3",
            _ => "flip, other count",
        },
        Call::Printout { .. } => "printout",
    }
}

/// The block and the ends of a call about an edge.
fn edge_of(call: &Call) -> Option<(&[u8], [usize; 2])> {
    match call {
        Call::Remove { block, ends, .. } | Call::Page { block, ends, .. } => Some((block, *ends)),
        Call::Flip { block, numbers, .. } => match numbers[..] {
            [a, b] => Some((block, [a, b])),
            _ => None,
        },
        Call::Printout { input } => {
            let (block, ends) = input.split_at(input.len().checked_sub(2)?);
            Some((block, [ends[0], ends[1]].map(usize::from)))
        }
        _ => None,
    }
}

/// Do two of these points share a place?
fn coincide(patch: &Patch, points: &[u8]) -> bool {
    let places = points.iter().map(|v| patch.points[usize::from(*v)]);
    let mut places: Vec<[u8; 3]> = places.collect();
    places.sort_unstable();
    places.windows(2).any(|pair| pair[0] == pair[1])
}
