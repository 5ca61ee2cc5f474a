//! Openings that get the version wrong, or the agreement of marks.

use crate::model::answer;
use crate::model::limits::*;

/// What such an opening gets wrong.
#[derive(Clone, Copy, Debug, PartialEq, Eq)]
pub enum OpenFault {
    OpensVersion1Only,
    ReadsMarksInVersion1,
    TakesMarksThatDisagree,
    /// The faces of the first row with all others, and no more.
    HoldsMarksToFirstRow,
    /// The faces of each row with those of the next.
    HoldsMarksToNextRow,
    /// A face that is marked in the earlier of its two rows only is refused, one that is in the later only is not.
    HoldsMarksOneWay,
    /// A marked face that no other row has.
    RefusesMarksOfOneRow,
    TestsMarksBeforeFaces,
    ReadsMarksInLowBits,
    /// The mark beside a number is taken for that of the face before it.
    ReadsMarksInOtherOrder,
}

/// Every such opening.
pub const OPEN_FAULTS: [OpenFault; 10] = [
    OpenFault::OpensVersion1Only,
    OpenFault::ReadsMarksInVersion1,
    OpenFault::TakesMarksThatDisagree,
    OpenFault::HoldsMarksToFirstRow,
    OpenFault::HoldsMarksToNextRow,
    OpenFault::HoldsMarksOneWay,
    OpenFault::RefusesMarksOfOneRow,
    OpenFault::TestsMarksBeforeFaces,
    OpenFault::ReadsMarksInLowBits,
    OpenFault::ReadsMarksInOtherOrder,
];

/// The answer of an opening with a fault, where it comes to bear; the model's, which is given, elsewhere. Without a fault it is
/// the model's everywhere.
pub fn faulty_open(block: &[u8], number: u32, fault: Option<OpenFault>) -> u32 {
    let looked_at = match fault {
        Some(OpenFault::TestsMarksBeforeFaces) => {
            [answer::DONE, answer::MARKS_DISAGREE, answer::FACE_TWICE]
        }
        _ => [answer::DONE, answer::DONE, answer::MARKS_DISAGREE],
    };
    if !looked_at.contains(&number) {
        return number;
    }
    let version = block[VERSION_AT];
    if version == MARKED && fault == Some(OpenFault::OpensVersion1Only) {
        return answer::VERSION;
    }
    let reads = version == MARKED || fault == Some(OpenFault::ReadsMarksInVersion1);
    match reads && disagree(&seen(block, fault), fault) {
        true => answer::MARKS_DISAGREE,
        false if number == answer::FACE_TWICE => number,
        false => answer::DONE,
    }
}

/// The three points of a face in order, its row and its mark.
type Seen = ([u8; 3], usize, bool);

/// Every face, those of the same points side by side in the order of their rows.
fn seen(block: &[u8], fault: Option<OpenFault>) -> Vec<Seen> {
    let count = usize::from(block[ROW_COUNT_AT]);
    let rows = block[ROWS_AT..].chunks_exact(ROW_BYTES).take(count);
    let of_row = |(at, row): (usize, &[u8])| {
        let byte = match fault {
            Some(OpenFault::ReadsMarksInLowBits) => row[4],
            _ => row[4] >> 4,
        };
        let shift = usize::from(fault == Some(OpenFault::ReadsMarksInOtherOrder));
        [0, 1, 2, 3].map(|t| {
            let mut face = [1, 2, 3].map(|more| row[(t + more) % 4]);
            face.sort_unstable();
            (face, at, byte >> ((t + shift) % 4) & 1 == 1)
        })
    };
    let mut seen: Vec<Seen> = rows.enumerate().flat_map(of_row).collect();
    seen.sort_unstable();
    seen
}

fn disagree(seen: &[Seen], fault: Option<OpenFault>) -> bool {
    let mut of_faces = seen.chunk_by(|one, other| one.0 == other.0);
    of_faces.any(|face| match face {
        [(_, _, marked)] => *marked && fault == Some(OpenFault::RefusesMarksOfOneRow),
        _ => face.windows(2).any(|two| differ(two[0], two[1], fault)),
    })
}

/// Whether a rival sees that two rows disagree about a face; the first row is the earlier one.
fn differ(
    (_, at, marked): Seen,
    (_, next_at, next_marked): Seen,
    fault: Option<OpenFault>,
) -> bool {
    let compared = match fault {
        Some(OpenFault::TakesMarksThatDisagree) => false,
        Some(OpenFault::HoldsMarksToFirstRow) => at == 0,
        Some(OpenFault::HoldsMarksToNextRow) => at + 1 == next_at,
        Some(OpenFault::HoldsMarksOneWay) => marked,
        _ => true,
    };
    compared && marked != next_marked
}
