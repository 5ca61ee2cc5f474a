//! Fine points of blocks of version 2: which faces are marked, where marks disagree, what else is or would be refused, and
//! which marks new rows get.

use super::regions::kind;
use crate::model::block::row_of;
use crate::model::limits::*;
use crate::model::mesh::{back, faces, mark_of, turned};
use crate::model::pieces::closing_faces;
use crate::model::ring::{site, Site};
use crate::model::{answer, open, run, Call, Outcome, Patch, Row};

/// The block of a call, or what it seals: its first bytes, whatever their length.
pub fn input_of(call: &Call) -> &[u8] {
    match call {
        Call::Open { block }
        | Call::Summary { block, .. }
        | Call::Shown { block, .. }
        | Call::Remove { block, .. }
        | Call::Page { block, .. }
        | Call::Flip { block, .. } => block,
        Call::Seal { fields, .. } => fields,
        Call::Printout { input } => input,
    }
}

/// Whether a call gets a block of version 2, right or wrong.
pub fn is_marked(call: &Call) -> bool {
    input_of(call).first() == Some(&MARKED)
}

/// What a call of version 2 shows, by name.
pub fn mark_points(call: &Call, outcome: &Outcome) -> Vec<String> {
    let shown = points(call, outcome).into_iter();
    shown.map(|name| format!("version 2, {name}")).collect()
}

fn points(call: &Call, outcome: &Outcome) -> Vec<String> {
    let number = outcome.answer();
    if !is_marked(call) || number == answer::LENGTH {
        return vec![];
    }
    if number == answer::MARKS_DISAGREE {
        return where_they_disagree(input_of(call));
    }
    let (block, numbers) = match call {
        Call::Remove { block, ends, .. } => (block, &ends[..]),
        Call::Flip { block, numbers, .. } => (block, &numbers[..]),
        _ => return vec![],
    };
    let Ok(patch) = open(block) else {
        return vec![];
    };
    let held: Option<Vec<u8>> = numbers.iter().map(|n| u8::try_from(*n).ok()).collect();
    let Some(held) = held.filter(|held| [2, 3].contains(&held.len())) else {
        return vec![];
    };
    let edge = match *numbers {
        [a, b] => site(&patch, a, b).ok(),
        _ => None,
    };
    let shown = Shown {
        kind: kind(call, edge.as_ref()),
        going: patch
            .rows
            .iter()
            .copied()
            .filter(|row| row.holds(&held))
            .collect(),
        held,
        edge,
    };
    match (number, outcome) {
        (answer::DONE, Outcome::Bytes(_, out)) => shown.of_done(&open(out).expect("it opens")),
        (answer::MARK_GOES, _) => shown.of_23(call, patch),
        _ => shown.of_refusal(number),
    }
}

/// What goes, and where.
struct Shown {
    kind: &'static str,
    held: Vec<u8>,
    going: Vec<Row>,
    edge: Option<Site>,
}

impl Shown {
    fn goes(&self, face: [u8; 3]) -> bool {
        self.held.iter().all(|point| face.contains(point))
    }

    /// The marked faces that go, or those of the same rows that stay, without direction and each once.
    fn marked(&self, going: bool) -> Vec<[u8; 3]> {
        let marked = self.going.iter().flat_map(Row::marked_faces);
        let mut found: Vec<[u8; 3]> = marked.filter(|face| self.goes(*face) == going).collect();
        found.iter_mut().for_each(|face| face.sort_unstable());
        found.sort_unstable();
        found.dedup();
        found
    }

    fn of_refusal(&self, number: u32) -> Vec<String> {
        let kind = self.kind;
        let behind = [answer::ROOM, answer::NOT_ADMISSIBLE, answer::NONE_BETTER];
        let mut shown = vec![];
        let looked_at = number >= answer::OPEN;
        if looked_at && !self.marked(true).is_empty() {
            shown.push(format!("{kind}: {number} before 23"));
        }
        if behind.contains(&number) && !self.marked(false).is_empty() {
            shown.push(format!("{kind}, {number}: a marked shell"));
        }
        if number == answer::NOT_ADMISSIBLE && self.closing(true).contains(&Some(true)) {
            shown.push(format!("{kind}, 15: a closing face used along is marked"));
        }
        shown
    }

    /// 23: by which faces, and what the answer would be without their marks.
    fn of_23(&self, call: &Call, mut patch: Patch) -> Vec<String> {
        let kind = self.kind;
        let going = self.marked(true);
        let in_first = going.iter().any(|face| self.going[0].holds(face));
        let mut shown = vec![];
        if !in_first {
            shown.push(format!("{kind}, 23: not by a face of the first row"));
        }
        if let ([face], Some(site)) = (&going[..], &self.edge) {
            let point = *face
                .iter()
                .find(|n| !self.held.contains(n))
                .expect("one more");
            let ends = [site.v(1), site.v(site.m())];
            let which = match (site.closed, point) {
                (false, v) if v == ends[0] => "the face at v1 alone",
                (false, v) if v == ends[1] => "the face at vm alone",
                _ => "one face between two rows",
            };
            shown.push(format!("{kind}, 23: {which}"));
        }
        for row in patch.rows.iter_mut().filter(|row| row.holds(&self.held)) {
            for (face, mark) in faces(row.numbers).into_iter().zip(&mut row.marks) {
                *mark &= !self.goes(face);
            }
        }
        let mut call = call.clone();
        if let Call::Remove { block, .. } | Call::Flip { block, .. } = &mut call {
            *block = patch.to_bytes().to_vec();
        }
        let otherwise = run(&call).answer();
        shown.push(format!("{kind}, 23: otherwise {otherwise}"));
        shown
    }

    /// The marks that kept rows have on the closing faces of a chain: along as the new rows use them, or across.
    fn closing(&self, along: bool) -> [Option<bool>; 2] {
        let Some(site) = self.edge.as_ref().filter(|site| !site.closed) else {
            return [None; 2];
        };
        closing_faces(site).map(|face| match along {
            true => mark_of(&site.kept, face),
            false => mark_of(&site.kept, back(face)),
        })
    }

    fn of_done(&self, after: &Patch) -> Vec<String> {
        let kind = self.kind;
        let same_marks = self
            .going
            .windows(2)
            .all(|two| two[0].marks == two[1].marks);
        let new = match (self.held.len(), &self.edge) {
            (2, Some(site)) => &after.rows[site.kept.len()..],
            _ => &after.rows[after.rows.len() - 3..],
        };
        let shell = self.marked(false).len();
        let across = self.closing(false);
        let points = [
            ("no mark on the shell", shell == 0),
            ("a marked shell", shell > 0),
            ("the whole shell is marked", shell == self.shell_faces()),
            ("one region and other marks", !same_marks),
            ("a's closing face takes a mark", across[0] == Some(true)),
            ("b's closing face takes a mark", across[1] == Some(true)),
            (
                "a closing face takes no mark",
                across.contains(&Some(false)),
            ),
        ];
        let seen = points.into_iter().filter(|(_, seen)| *seen);
        let mut shown: Vec<String> = seen.map(|(name, _)| format!("{kind}, 0: {name}")).collect();
        if after.rows.len() == MAX_ROWS {
            shown.push(String::from("0: 60 rows after"));
        }
        for (place, row) in new.iter().enumerate() {
            let of = match (self.held.len(), place % 2) {
                (3, _) => "a new row",
                (_, 0) => "a row of a",
                _ => "a row of b",
            };
            let marked = (0..4).filter(|t| row.marks[*t]);
            shown.extend(marked.map(|t| format!("{kind}, 0: {of} has mark {t}")));
        }
        shown.sort_unstable();
        shown.dedup();
        shown
    }

    /// How many faces the shell has; two rows may have one between them, if they lie back to back.
    fn shell_faces(&self) -> usize {
        let all = self.going.iter().flat_map(|row| faces(row.numbers));
        let mut stay: Vec<[u8; 3]> = all.filter(|face| !self.goes(*face)).collect();
        stay.iter_mut().for_each(|face| face.sort_unstable());
        stay.sort_unstable();
        stay.dedup();
        stay.len()
    }
}

/// The pairs of rows between which marks disagree.
fn where_they_disagree(input: &[u8]) -> Vec<String> {
    let count = usize::from(input[ROW_COUNT_AT]);
    let rows = input[ROWS_AT..].chunks_exact(ROW_BYTES).take(count);
    let rows: Vec<Row> = rows.map(|bytes| row_of(MARKED, bytes)).collect();
    let mut shown = vec![];
    for (at, row) in rows.iter().enumerate() {
        for (other_at, other) in rows.iter().enumerate() {
            let across = |face: [u8; 3]| mark_of(&[*other], turned(back(face))) == Some(false);
            if !row.marked_faces().any(across) {
                continue;
            }
            shown.push(match at < other_at {
                true => "22: marked in the earlier row",
                false => "22: marked in the later row",
            });
            let ends = [at, other_at];
            if ends.contains(&0) {
                shown.push("22: at the first row");
            } else if ends.contains(&(count - 1)) {
                shown.push("22: at the last row");
            } else {
                shown.push("22: between others");
            }
        }
    }
    shown.sort_unstable();
    shown.dedup();
    shown.into_iter().map(String::from).collect()
}
