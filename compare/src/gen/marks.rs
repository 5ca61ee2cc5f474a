//! Blocks of version 2, on the block of a call that another case has: every kind of edge and face, with everything else that is
//! refused there. The faces of a table are marked without direction, so both rows at a face agree; where they are not to, one of
//! the two is changed.

use super::random::Random;
use super::Case;
use crate::model::block::with_sums;
use crate::model::limits::*;
use crate::model::mesh::{faces, mesh_rule};
use crate::model::pieces::closing_faces;
use crate::model::ring::site;
use crate::model::{answer, open, Call, Patch, Row};
use std::collections::BTreeSet;

/// Three point numbers in order: a face without direction.
type Face = [u8; 3];

/// Which faces are marked.
#[derive(Clone, Copy, PartialEq, Eq)]
enum Kind {
    /// Some of all faces.
    Any,
    /// Some of all faces, but none that goes.
    Kept,
    /// Some of the faces of rows that go which stay themselves, and no others.
    Shell,
    /// All of them.
    WholeShell,
    /// One face that goes, and some of the shell.
    OneInner,
    /// One end face of a chain, and some of the shell.
    OneEnd,
    /// The faces with which a chain closes, where kept rows have them, and some of the shell.
    Closing,
    /// Every face that stays.
    AllKept,
    All,
    None,
    /// Some faces, and one that stands in two rows in only one of them.
    Disagreeing,
}

const KINDS: [Kind; 16] = [
    Kind::Any,
    Kind::Kept,
    Kind::Kept,
    Kind::Shell,
    Kind::Shell,
    Kind::WholeShell,
    Kind::OneInner,
    Kind::OneInner,
    Kind::OneEnd,
    Kind::Closing,
    Kind::Closing,
    Kind::AllKept,
    Kind::All,
    Kind::None,
    Kind::Disagreeing,
    Kind::Disagreeing,
];

/// How many in a hundred cases of a family get one of version 2.
fn share(family: &str) -> usize {
    match family {
        "closing faces" | "faces" | "full tables" | "full tables, chains" | "three" => 100,
        "chains and circles" => 70,
        "summaries" | "sealing" => 60,
        "shown" => 15,
        _ => 40,
    }
}

/// Which faces of the block of a case are marked: those about a face and those about how a chain closes are mostly about the
/// marks there.
fn kind(random: &mut Random, family: &str, numbers: &[usize]) -> Kind {
    match (family, numbers.len()) {
        ("closing faces", 2) if random.percent(45) => Kind::Closing,
        (_, 3) if random.percent(40) => Kind::OneInner,
        (_, 0) if random.percent(30) => Kind::Disagreeing,
        _ => random.pick(&KINDS),
    }
}

/// A case of version 2, for some of the cases of version 1.
pub fn marked(random: &mut Random, case: &Case) -> Option<Case> {
    if !random.percent(share(case.family)) {
        return None;
    }
    let mut call = case.call.clone();
    let (bytes, numbers) = parts(&mut call);
    if bytes.first() != Some(&PLAIN) {
        return None;
    }
    let Some(patch) = patch_of(bytes) else {
        spoilt(bytes);
        return Some(Case {
            family: "marks",
            call,
            meant: case.meant,
        });
    };
    let kind = kind(random, case.family, &numbers);
    let marked = with_marks(random, patch, &numbers, kind);
    let meant = meant(&marked, &numbers, kind, case.meant);
    let length = bytes.len();
    bytes.copy_from_slice(&marked.to_bytes()[..length]);
    Some(Case {
        family: "marks",
        call,
        meant,
    })
}

/// The block in version 2 with some of the shell marked round an edge or a face, or all of it.
pub fn shell_marked(random: &mut Random, block: &[u8], numbers: &[usize]) -> Vec<u8> {
    let kind = random.pick(&[Kind::Shell, Kind::WholeShell]);
    let patch = open(block).expect("it opens");
    with_marks(random, patch, numbers, kind).to_bytes().to_vec()
}

/// The block in version 2 with some of all its faces marked.
pub fn freely_marked(random: &mut Random, block: &[u8]) -> Vec<u8> {
    let patch = open(block).expect("it opens");
    with_marks(random, patch, &[], Kind::Any)
        .to_bytes()
        .to_vec()
}

/// The block, or what is sealed, and the numbers of an edge or a face.
fn parts(call: &mut Call) -> (&mut [u8], Vec<usize>) {
    match call {
        Call::Open { block } | Call::Summary { block, .. } | Call::Shown { block, .. } => {
            (block, vec![])
        }
        Call::Seal { fields, .. } => (fields, vec![]),
        Call::Remove { block, ends, .. } | Call::Page { block, ends, .. } => (block, ends.to_vec()),
        Call::Flip { block, numbers, .. } => (block, numbers.clone()),
        Call::Printout { input } => {
            let length = input.len().min(BLOCK_BYTES);
            let (block, ends) = input.split_at_mut(length);
            (block, ends.iter().copied().map(usize::from).collect())
        }
    }
}

/// The patch of a block, or of what is sealed, if nothing is wrong in it.
fn patch_of(bytes: &[u8]) -> Option<Patch> {
    match bytes.try_into() {
        Ok(fields) => open(&with_sums(fields)).ok(),
        Err(_) => open(bytes).ok(),
    }
}

/// Makes version 2 of a block that has a fault, with sums that are as right as they were.
fn spoilt(bytes: &mut [u8]) {
    let right_sums = bytes
        .first_chunk()
        .is_some_and(|fields| with_sums(fields)[..] == *bytes);
    bytes[VERSION_AT] = MARKED;
    if right_sums {
        let fields = bytes.first_chunk().expect("it has sums");
        let anew = with_sums(fields);
        bytes.copy_from_slice(&anew);
    }
}

/// The answer, from what the other case was built to get: 22 comes behind the block's other refusals, 23 behind 20.
fn meant(patch: &Patch, numbers: &[usize], kind: Kind, of_case: Option<u32>) -> Option<u32> {
    let going = going(patch, numbers);
    let one_region = going.windows(2).all(|two| two[0].region == two[1].region);
    let marks = going.iter().any(|row| {
        let mut marked = row.marked_faces();
        marked.any(|face| holds(face, numbers))
    });
    match (kind, of_case?) {
        (_, answer::LENGTH) => Some(answer::LENGTH),
        (Kind::Disagreeing, _) => Some(answer::MARKS_DISAGREE),
        (_, answer::TWO_REGIONS) if one_region => None,
        (_, answer::DONE | answer::ROOM | answer::NOT_ADMISSIBLE | answer::NONE_BETTER)
            if marks =>
        {
            Some(answer::MARK_GOES)
        }
        (_, number) => Some(number),
    }
}

/// The rows of an edge or a face; none for any other count of numbers.
fn going(patch: &Patch, numbers: &[usize]) -> Vec<Row> {
    let goes = |row: &&Row| {
        let held = row.numbers.map(usize::from);
        [2, 3].contains(&numbers.len()) && numbers.iter().all(|number| held.contains(number))
    };
    patch.rows.iter().filter(goes).copied().collect()
}

fn holds(face: Face, numbers: &[usize]) -> bool {
    let held = face.map(usize::from);
    numbers.iter().all(|number| held.contains(number))
}

fn ascending(mut face: Face) -> Face {
    face.sort_unstable();
    face
}

fn faces_of(rows: &[Row]) -> BTreeSet<Face> {
    let all = rows.iter().flat_map(|row| faces(row.numbers));
    all.map(ascending).collect()
}

/// The patch in version 2, its regions folded into four bits: equal ones stay equal, and those that differ in one bit differ.
fn with_marks(random: &mut Random, mut patch: Patch, numbers: &[usize], kind: Kind) -> Patch {
    patch.version = MARKED;
    for row in &mut patch.rows {
        row.region = (row.region ^ row.region >> 4) & REGION_BITS;
    }
    let chosen = chosen(random, &patch, numbers, kind);
    for row in &mut patch.rows {
        row.marks = faces(row.numbers).map(|face| chosen.contains(&ascending(face)));
    }
    if kind == Kind::Disagreeing {
        disagree(random, &mut patch);
    }
    patch
}

/// The faces to be marked.
fn chosen(random: &mut Random, patch: &Patch, numbers: &[usize], kind: Kind) -> BTreeSet<Face> {
    let going = going(patch, numbers);
    let all = faces_of(&patch.rows);
    let of_going = faces_of(&going);
    let goes = |face: &Face| of_going.contains(face) && holds(*face, numbers);
    let inner: Vec<Face> = all.iter().copied().filter(goes).collect();
    let stays = |face: &&Face| !inner.contains(face);
    let percent = random.pick(&[5, 30, 50, 80]);
    let mut some = |from: &BTreeSet<Face>| {
        let drawn = from.iter().copied().filter(|_| random.percent(percent));
        drawn.collect::<BTreeSet<Face>>()
    };
    let shell: BTreeSet<Face> = of_going.iter().filter(stays).copied().collect();
    let kept: BTreeSet<Face> = all.iter().filter(stays).copied().collect();
    let mut marked = match kind {
        Kind::Any | Kind::Disagreeing => some(&all),
        Kind::Kept => some(&kept),
        Kind::Shell | Kind::OneInner | Kind::OneEnd | Kind::Closing => some(&shell),
        Kind::WholeShell => shell,
        Kind::AllKept => kept,
        Kind::All => all.clone(),
        Kind::None => BTreeSet::new(),
    };
    match kind {
        Kind::OneInner if !inner.is_empty() => {
            marked.insert(random.pick(&inner));
        }
        Kind::OneEnd => {
            let in_row = |row: &&Row, face: &Face| row.holds(face);
            let alone = |face: &&Face| going.iter().filter(|row| in_row(row, face)).count() == 1;
            let ends: Vec<Face> = inner.iter().filter(alone).copied().collect();
            marked.extend((!ends.is_empty()).then(|| random.pick(&ends)));
        }
        Kind::Closing => marked.extend(closing(patch, numbers).filter(|face| all.contains(face))),
        _ => {}
    }
    marked
}

/// The faces with which a chain closes.
fn closing(patch: &Patch, numbers: &[usize]) -> impl Iterator<Item = Face> {
    let chain = match *numbers {
        [a, b] => site(patch, a, b).ok().filter(|site| !site.closed),
        _ => None,
    };
    let faces = chain.map(|site| closing_faces(&site).map(ascending));
    faces.into_iter().flatten()
}

/// Two rows that have one face: the places of both in the table, and of the face in each.
type Pair = [(usize, usize); 2];

fn pairs(patch: &Patch) -> Vec<Pair> {
    let places = (0..patch.rows.len()).flat_map(|at| (0..4).map(move |t| (at, t)));
    let places: Vec<(usize, usize)> = places.collect();
    let face = |(at, t): (usize, usize)| ascending(faces(patch.rows[at].numbers)[t]);
    let mut pairs = vec![];
    for (index, one) in places.iter().enumerate() {
        let others = places[index + 1..].iter();
        let same = others.filter(|other| face(**other) == face(*one));
        pairs.extend(same.map(|other| [*one, *other]));
    }
    pairs
}

/// Marks a face in one of two rows, half of the time where one of them is the first or the last of the table.
fn disagree(random: &mut Random, patch: &mut Patch) {
    if pairs(patch).is_empty() {
        mirror(random, patch);
    }
    let pairs = pairs(patch);
    let last = patch.rows.len().saturating_sub(1);
    let at_an_end = |pair: &&Pair| pair.iter().any(|(at, _)| [0, last].contains(at));
    let at_ends: Vec<Pair> = pairs.iter().filter(at_an_end).copied().collect();
    let from = match random.percent(50) && !at_ends.is_empty() {
        true => &at_ends,
        false => &pairs,
    };
    if from.is_empty() {
        return;
    }
    let mut pair = random.pick(from);
    random.shuffle(&mut pair);
    for ((at, t), marked) in pair.into_iter().zip([true, false]) {
        patch.rows[at].marks[t] = marked;
    }
}

/// Gives one row its mirror image for a neighbour: it has all four faces the other way round.
fn mirror(random: &mut Random, patch: &mut Patch) {
    if patch.rows.is_empty() {
        patch.points.resize(patch.points.len().max(4), [0; 3]);
        patch.rows.push(Row::plain([0, 1, 2, 3], 0));
    }
    let mut image = random.pick(&patch.rows);
    image.numbers.swap(2, 3);
    image.marks.swap(2, 3);
    if patch.rows.len() == MAX_ROWS {
        let without: Vec<usize> = (0..MAX_ROWS)
            .filter(|at| {
                let mut sorted = [patch.rows[*at].numbers, image.numbers];
                sorted
                    .iter_mut()
                    .for_each(|numbers| numbers.sort_unstable());
                sorted[0] != sorted[1]
            })
            .collect();
        patch.rows.remove(random.pick(&without));
    }
    patch.rows.insert(random.below(patch.rows.len() + 1), image);
    debug_assert!(mesh_rule(&patch.rows, patch.points.len()));
}
