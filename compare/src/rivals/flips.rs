//! Flips that get the count of their numbers wrong, the regions of the rows that go, or marks. A kernel whose removal is right
//! and whose flip is not has one of these faults and none of the removal's.

use super::regions::{sees_several, Compared};
use crate::model::block::{open, with_sums};
use crate::model::limits::{BLOCK_BYTES, PLAIN, VERSION_AT};
use crate::model::mesh::faces;
use crate::model::{answer, flip, Patch, Row};

/// What such a flip gets wrong.
#[derive(Clone, Copy, Debug, PartialEq, Eq)]
pub enum FlipFault {
    TakesFourForThree,
    TakesTwoForAFace,
    TestsNumbersBeforeCount,
    TestsCountBeforeBlock,
    /// And gives the new rows that of the first one.
    EdgeFlipTakesSeveralRegions,
    FaceFlipTakesSeveralRegions,
    FlipLooksAtTwoRegions,
    FlipComparesOuterRegions,
    FlipComparesLowBitsOfRegions,
    FlipComparesRegionsOfTable,
    FlipTestsRegionsBeforeLength,
    FlipTestsRegionsBeforeApex,
    FlipTestsRegionsAfterRoom,
    FlipTestsRegionsLast,
    FlipComparesRegionsWithMarks,
    EdgeFlipLetsMarkedFacesGo,
    FaceFlipLetsMarkedFaceGo,
    EdgeFlipDropsMarks,
    FaceFlipDropsMarks,
    /// As if the rows at the face stood as (a,u,v,w) and (b,u,w,v).
    FaceFlipReadsMarksByFixedPlace,
    FlipTestsMarksBeforeRegions,
    FlipTestsMarksAfterRoom,
    FlipTestsMarksLast,
    FlipWritesVersion1,
}

impl FlipFault {
    /// Whether only blocks of version 2 tell it.
    pub fn is_of_marks(self) -> bool {
        self as usize >= FlipFault::FlipComparesRegionsWithMarks as usize
    }
}

/// Every such flip.
pub const FLIP_FAULTS: [FlipFault; 24] = [
    FlipFault::TakesFourForThree,
    FlipFault::TakesTwoForAFace,
    FlipFault::TestsNumbersBeforeCount,
    FlipFault::TestsCountBeforeBlock,
    FlipFault::EdgeFlipTakesSeveralRegions,
    FlipFault::FaceFlipTakesSeveralRegions,
    FlipFault::FlipLooksAtTwoRegions,
    FlipFault::FlipComparesOuterRegions,
    FlipFault::FlipComparesLowBitsOfRegions,
    FlipFault::FlipComparesRegionsOfTable,
    FlipFault::FlipTestsRegionsBeforeLength,
    FlipFault::FlipTestsRegionsBeforeApex,
    FlipFault::FlipTestsRegionsAfterRoom,
    FlipFault::FlipTestsRegionsLast,
    FlipFault::FlipComparesRegionsWithMarks,
    FlipFault::EdgeFlipLetsMarkedFacesGo,
    FlipFault::FaceFlipLetsMarkedFaceGo,
    FlipFault::EdgeFlipDropsMarks,
    FlipFault::FaceFlipDropsMarks,
    FlipFault::FaceFlipReadsMarksByFixedPlace,
    FlipFault::FlipTestsMarksBeforeRegions,
    FlipFault::FlipTestsMarksAfterRoom,
    FlipFault::FlipTestsMarksLast,
    FlipFault::FlipWritesVersion1,
];

/// The flip with a fault, where it comes to bear; the model's elsewhere.
pub fn faulty_flip(block: &[u8], numbers: &[usize], out: &mut [u8], fault: FlipFault) -> u32 {
    let right_lengths = block.len() == BLOCK_BYTES && out.len() == BLOCK_BYTES;
    match (fault, numbers) {
        (FlipFault::TakesFourForThree, [u, v, w, _]) => flip(block, &[*u, *v, *w], out),
        (FlipFault::TakesTwoForAFace, [u, v]) => flip(block, &[*u, *v, 0], out),
        (_, [_, _] | [_, _, _]) => match open(block) {
            Ok(patch) if right_lengths => flip_in_parts(patch, numbers, out, fault),
            _ => flip(block, numbers, out),
        },
        (FlipFault::TestsNumbersBeforeCount, _) if right_lengths && bad_number(block, numbers) => {
            answer::BAD_NUMBER
        }
        (FlipFault::TestsCountBeforeBlock, _) if right_lengths => answer::NOT_TWO_OR_THREE,
        _ => flip(block, numbers, out),
    }
}

/// Whether a block that opens lacks one of the points.
fn bad_number(block: &[u8], numbers: &[usize]) -> bool {
    open(block).is_ok_and(|patch| numbers.iter().any(|number| *number >= patch.points.len()))
}

/// The model's flip of a table whose rows that go all have the region of the first and no mark that would go, and the regions
/// and those marks looked at apart from it.
fn flip_in_parts(mut patch: Patch, numbers: &[usize], out: &mut [u8], fault: FlipFault) -> u32 {
    let table = patch.rows.clone();
    let held = |points: &[u8]| {
        let points: Vec<usize> = points.iter().copied().map(usize::from).collect();
        numbers.iter().all(|number| points.contains(number))
    };
    let going: Vec<Row> = table
        .iter()
        .copied()
        .filter(|row| held(&row.numbers))
        .collect();
    let mut marked = false;
    for row in patch.rows.iter_mut().filter(|row| held(&row.numbers)) {
        row.region = going[0].region;
        for (face, mark) in faces(row.numbers).into_iter().zip(&mut row.marks) {
            marked |= *mark && held(&face);
            *mark &= !held(&face);
        }
    }
    let mut written = out.to_vec();
    let number = flip(&patch.to_bytes(), numbers, &mut written);
    let several = sees_several(&table, &going, compared(fault, numbers.len()));
    let marked = marked && !lets_go(fault, numbers.len());
    let before_regions = tested_before(number, fault);
    if marked && !before_regions && fault == FlipFault::FlipTestsMarksBeforeRegions {
        return answer::MARK_GOES;
    }
    if several && !before_regions {
        return answer::TWO_REGIONS;
    }
    if marked && !before_regions && !before_marks(number, fault) {
        return answer::MARK_GOES;
    }
    if number == answer::DONE {
        spoil(&mut written, &going, numbers, fault);
    }
    out.copy_from_slice(&written);
    number
}

fn lets_go(fault: FlipFault, count: usize) -> bool {
    match fault {
        FlipFault::EdgeFlipLetsMarkedFacesGo => count == 2,
        FlipFault::FaceFlipLetsMarkedFaceGo => count == 3,
        _ => false,
    }
}

/// Writes what a rival writes in the place of a right block.
fn spoil(written: &mut [u8], going: &[Row], numbers: &[usize], fault: FlipFault) {
    let mut after = open(written).expect("it opens");
    let new = match numbers.len() {
        2 => 2,
        _ => 3,
    };
    let kept = after.rows.len() - new;
    let new = &mut after.rows[kept..];
    match (fault, numbers.len()) {
        (FlipFault::EdgeFlipDropsMarks, 2) | (FlipFault::FaceFlipDropsMarks, 3) => {
            new.iter_mut().for_each(|row| row.marks = [false; 4]);
        }
        (FlipFault::FaceFlipReadsMarksByFixedPlace, 3) => by_fixed_place(new, going),
        _ => {}
    }
    written.copy_from_slice(&after.to_bytes());
    if fault == FlipFault::FlipWritesVersion1 {
        written[VERSION_AT] = PLAIN;
        let fields = written.first_chunk().expect("a block has its fields");
        let anew = with_sums(fields);
        written.copy_from_slice(&anew);
    }
}

/// The three rows (a,b,x,y) have the faces opposite b of a's row and opposite a of b's row; each is read at the place where the
/// point off it would stand in (a,u,v,w) or (b,u,w,v).
fn by_fixed_place(new: &mut [Row], going: &[Row]) {
    let [a, b, u, v] = new[0].numbers;
    let w = new[1].numbers[3];
    let row_with = |end: u8| going.iter().find(|row| row.numbers.contains(&end));
    let orders = [[a, u, v, w], [b, u, w, v]];
    for row in new {
        let [_, _, x, y] = row.numbers;
        for (order, place) in orders.into_iter().zip([1, 0]) {
            let off = order.iter().position(|n| ![order[0], x, y].contains(n));
            let from = row_with(order[0]).expect("a row at the face");
            row.marks[place] = from.marks[off.expect("a point off the face")];
        }
    }
}

fn compared(fault: FlipFault, count: usize) -> Compared {
    match (fault, count) {
        (FlipFault::EdgeFlipTakesSeveralRegions, 2) => Compared::Nothing,
        (FlipFault::FaceFlipTakesSeveralRegions, 3) => Compared::Nothing,
        (FlipFault::FlipLooksAtTwoRegions, _) => Compared::TheFirstTwo,
        (FlipFault::FlipComparesOuterRegions, _) => Compared::TheOuterTwo,
        (FlipFault::FlipComparesLowBitsOfRegions, _) => Compared::LowBits,
        (FlipFault::FlipComparesRegionsOfTable, _) => Compared::WholeTable,
        (FlipFault::FlipComparesRegionsWithMarks, _) => Compared::WithMarks,
        _ => Compared::EachWithTheNext,
    }
}

/// Is this refusal tested before the regions?
fn tested_before(number: u32, fault: FlipFault) -> bool {
    match number {
        answer::BAD_NUMBER | answer::NOT_HELD | answer::OPEN | answer::CIRCLES => true,
        answer::RING_LENGTH => fault != FlipFault::FlipTestsRegionsBeforeLength,
        answer::ONE_APEX => fault != FlipFault::FlipTestsRegionsBeforeApex,
        answer::ROOM => {
            fault == FlipFault::FlipTestsRegionsAfterRoom
                || fault == FlipFault::FlipTestsRegionsLast
        }
        answer::NOT_ADMISSIBLE => fault == FlipFault::FlipTestsRegionsLast,
        _ => false,
    }
}

/// Is this refusal, behind the regions, tested before the marks?
fn before_marks(number: u32, fault: FlipFault) -> bool {
    match number {
        answer::RING_LENGTH | answer::ONE_APEX => true,
        answer::ROOM => {
            fault == FlipFault::FlipTestsMarksAfterRoom || fault == FlipFault::FlipTestsMarksLast
        }
        answer::NOT_ADMISSIBLE => fault == FlipFault::FlipTestsMarksLast,
        _ => false,
    }
}
