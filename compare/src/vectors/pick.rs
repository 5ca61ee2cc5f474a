//! Which generated cases are stored: those that show something of which too few are stored yet.

use super::{given, place, MOST_NUMBERS, PART_BYTES};
use crate::gen::{cases_at, Case};
use crate::model::call::{PAGE_NUMBERS, SUMMARY_NUMBERS};
use crate::model::limits::{BLOCK_BYTES, FIELD_BYTES, MAX_ROWS};
use crate::model::{answer, open, run, Call, Outcome, Patch, Summary};
use crate::tally::{is_marked, name, row_points, Tally};
use std::cmp::{Ordering, Reverse};
use std::collections::BTreeMap;
use std::thread;

/// The generated cases among which is picked.
const SEED: u64 = 1;
const COUNT: u64 = 10_000;

/// How many cases show a thing: one for each length and outcome of a chain, which the fine points show again, one for each
/// way to share several regions and each length of a ring that has them, which the wrong kernels show again, one for each
/// refusal of a flip before its count is looked at, one of each call for each end that the measure reaches, and one for each
/// thing of version 2.
fn wanted(reason: &str) -> usize {
    let marked = reason.starts_with("version 2, ");
    let chain = reason.starts_with("chain, m = ");
    let other_count = reason.starts_with("flip, other count");
    let regions = [", 20: ", ": 20", " before 20"]
        .iter()
        .any(|part| reason.contains(part));
    let ends = ["the largest D", "a nearly flat row"]
        .iter()
        .any(|part| reason.contains(part));
    match marked || chain || other_count || regions || ends {
        true => 1,
        false => 2,
    }
}

/// How often each thing is shown so far.
#[derive(Default)]
struct Shown(BTreeMap<String, usize>);

impl Shown {
    /// How many of these are shown too seldom.
    fn missing(&self, reasons: &[String]) -> usize {
        let count = |reason: &String| self.0.get(reason).copied().unwrap_or(0);
        let missing = |reason: &&String| count(reason) < wanted(reason);
        reasons.iter().filter(missing).count()
    }

    fn add(&mut self, reasons: &[String]) {
        for reason in reasons {
            *self.0.entry(reason.clone()).or_default() += 1;
        }
    }
}

/// The stored cases, by call and answer: those of version 1 as they come, then of version 2 each time the one that shows most
/// of what is missing.
pub fn picked() -> Vec<Case> {
    let mut shown = Shown::default();
    let mut stored: Vec<Case> = vec![];
    let of_version_2 = |(case, _): &(Case, Vec<String>)| is_marked(&case.call);
    let (marked, plain): (Vec<_>, Vec<_>) = judged().into_iter().partition(of_version_2);
    for (case, reasons) in plain {
        if shown.missing(&reasons) > 0 {
            shown.add(&reasons);
            stored.push(case);
        }
    }
    let most = |shown: &Shown| {
        let left = marked
            .iter()
            .map(|(case, reasons)| (shown.missing(reasons), case, reasons));
        let best = left.min_by_key(|(missing, _, _)| Reverse(*missing));
        best.filter(|(missing, _, _)| *missing > 0)
    };
    while let Some((_, case, reasons)) = most(&shown) {
        shown.add(reasons);
        stored.push(case.clone());
    }
    stored.sort_by_key(|case| place(&case.call));
    stored
}

/// The cases among which is picked, each with what it shows; half of them by another thread.
fn judged() -> Vec<(Case, Vec<String>)> {
    let of = |indices| {
        let cases = cases_at(SEED, indices).filter_map(storable);
        let judged = cases.map(|case| (case.clone(), reasons(&case)));
        judged.collect::<Vec<_>>()
    };
    let other = thread::spawn(move || of(COUNT / 2..COUNT));
    let front = of(0..COUNT / 2);
    [front, other.join().expect("it judges")].concat()
}

/// The case with its output filled by one byte, if it is a call of the kernel that a record can hold.
fn storable(mut case: Case) -> Option<Case> {
    match &mut case.call {
        Call::Summary { out, .. } if out.len() != SUMMARY_NUMBERS => return None,
        Call::Flip { numbers, .. } if numbers.len() > MOST_NUMBERS => return None,
        Call::Seal { out, .. } | Call::Remove { out, .. } | Call::Flip { out, .. } => {
            let filler = out.first().copied().unwrap_or(0);
            out.fill(filler);
        }
        _ => {}
    }
    let given = given(&case.call)?;
    let longest = given.input.len().max(given.output.map_or(0, <[u8]>::len));
    (longest <= PART_BYTES).then_some(case)
}

/// What a case shows, by name.
pub fn reasons(case: &Case) -> Vec<String> {
    let (_, number) = place(&case.call);
    let name = name(&case.call);
    let tally = Tally::of([case.clone()].into_iter().chain(page_of(case)));
    if is_marked(&case.call) {
        return in_marked(&case.call, number, tally);
    }
    let mut reasons = vec![format!("{name} {number}")];
    for (what, lengths) in [("ring", tally.rings), ("chain", tally.chains)] {
        for (m, counts) in lengths {
            let given = (0..).zip(counts).filter(|(_, count)| *count > 0);
            reasons.extend(given.map(|(number, _)| format!("{what}, m = {m}: {number}")));
        }
    }
    let told = tally.told.into_iter().filter(|(_, told)| *told > 0);
    reasons.extend(told.map(|(fault, _)| format!("not {fault}")));
    let points = tally.points.into_iter().filter(|(_, seen)| *seen > 0);
    reasons.extend(points.map(|(point, _)| point));
    if number == answer::NOT_TWO_OR_THREE {
        reasons.push(in_count(&case.call));
    }
    let inputs = in_inputs(&case.call, number).into_iter();
    reasons.extend(inputs.map(|input| format!("{name}: {input}")));
    reasons
}

/// What a case of version 2 shows: its answer, of flips with any numbers up to that with which their block is refused, the length of a ring or a chain that is removed, and what marks show.
fn in_marked(call: &Call, number: u32, tally: Tally) -> Vec<String> {
    let name = match (call, number) {
        (Call::Flip { .. }, answer::LENGTH..=answer::FACE_TWICE) => "flip",
        _ => name(call),
    };
    let mut reasons = vec![format!("version 2, {name} {number}")];
    if number == answer::DONE {
        let patch = patch_in(call).expect("it opens");
        let marks = patch.rows.iter().any(|row| row.marks != [false; 4]);
        reasons.extend(marks.then(|| format!("version 2, {name}: a marked face")));
        for (what, lengths) in [("ring", tally.rings), ("chain", tally.chains)] {
            reasons.extend(
                lengths
                    .keys()
                    .map(|m| format!("version 2, {what}, m = {m}: 0")),
            );
        }
    }
    let told = tally.told.into_iter().filter(|(_, told)| *told > 0);
    reasons.extend(told.map(|(fault, _)| format!("not {fault}")));
    let points = tally.points.into_iter().filter(|(_, seen)| *seen > 0);
    reasons.extend(points.map(|(point, _)| point));
    reasons
}

/// The page row of a removal, as a case of its own.
fn page_of(case: &Case) -> Option<Case> {
    let Call::Remove { block, ends, out } = &case.call else {
        return None;
    };
    let call = Call::Page {
        block: block.clone(),
        ends: *ends,
        row: vec![0.0; PAGE_NUMBERS],
    };
    let case = Case {
        call,
        ..case.clone()
    };
    (out.len() == BLOCK_BYTES).then_some(case)
}

/// What the inputs of a call show.
fn in_inputs(call: &Call, number: u32) -> Vec<String> {
    let given = given(call).expect("a call of the kernel");
    let right = match call {
        Call::Seal { .. } => FIELD_BYTES,
        _ => BLOCK_BYTES,
    };
    let input = in_length("input", given.input, right);
    let output = given
        .output
        .and_then(|out| in_length("output", out, BLOCK_BYTES));
    let mut shown: Vec<String> = input.into_iter().chain(output).collect();
    if number == answer::BAD_NUMBER && given.numbers.iter().any(|n| *n > 255) {
        shown.push(String::from("a number over 255"));
    }
    if number == answer::DONE {
        shown.extend(in_order(given.numbers));
        shown.extend(patch_in(call).iter().flat_map(in_patch));
    }
    shown
}

fn in_length(what: &str, bytes: &[u8], right: usize) -> Option<String> {
    match bytes.len().cmp(&right) {
        Ordering::Less => Some(format!("{what} too short")),
        Ordering::Equal => None,
        Ordering::Greater => Some(format!("{what} too long")),
    }
}

/// How many numbers are neither two nor three, and whether they are all of points.
fn in_count(call: &Call) -> String {
    let given = given(call).expect("a call of the kernel");
    let points = open(given.input).expect("it opens").points.len();
    let count = given.numbers.len();
    match given.numbers.iter().all(|number| *number < points) {
        true => format!("21: {count} numbers, all of points"),
        false => format!("21: {count} numbers, not all of points"),
    }
}

/// The order in which the numbers of an edge or a face are given.
fn in_order(numbers: &[usize]) -> Option<String> {
    let rank = |n: &usize| numbers.iter().filter(|other| *other < n).count();
    let ranks: Vec<usize> = numbers.iter().map(rank).collect();
    (!ranks.is_empty()).then(|| format!("given in order {ranks:?}"))
}

/// The patch that a call gets, also one that it seals.
fn patch_in(call: &Call) -> Option<Patch> {
    match (call, run(call)) {
        (Call::Seal { .. }, Outcome::Bytes(_, sealed)) => open(&sealed).ok(),
        _ => open(given(call)?.input).ok(),
    }
}

/// What a patch shows.
fn in_patch(patch: &Patch) -> Vec<String> {
    let summary = Summary::of(patch);
    let shown = [
        ("no rows", summary.worst.is_none()),
        ("no upright row", summary.octave.is_none()),
        ("a flat row", summary.flat > 0),
        ("an inverted row", summary.inverted > 0),
        ("every row upright", summary.upright == patch.rows.len()),
        ("60 rows", patch.rows.len() == MAX_ROWS),
        ("59 rows", patch.rows.len() == MAX_ROWS - 1),
    ];
    let shown = shown.into_iter().chain(row_points(patch));
    let shown = shown.filter(|(_, seen)| *seen);
    shown.map(|(name, _)| String::from(name)).collect()
}
