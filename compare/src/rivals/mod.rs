//! Removal written a second time, by the published method's tables (Shewchuk 2002), and kernels that get one thing wrong, of
//! which `flips` has those of the flip.
//!
//! Without a fault it has to agree with `model` on every case. With a fault it shows whether the
//! cases can tell that wrong kernel from a right one.

mod flips;
mod marks;
mod opening;
mod order;
mod regions;
mod table;

use crate::model::limits::{LONGEST_RING, MAX_ROWS, SHORTEST_RING};
use crate::model::mesh::marks_disagree;
use crate::model::{answer, Patch, Quality, Row};
use marks::{halves_swapped, version_after, Round};
use regions::{sees_several, Compared};
use table::Table;

pub use flips::{faulty_flip, FlipFault, FLIP_FAULTS};
pub use opening::{faulty_open, OpenFault, OPEN_FAULTS};
pub use order::whole_part_order;

/// What a rival gets wrong.
#[derive(Clone, Copy, Debug, PartialEq, Eq)]
pub enum Fault {
    None,
    ComparesRounded,
    IgnoresTheSign,
    /// With the answer 6.
    RefusesCoordinatesOver128,
    ReadsCoordinatesSigned,
    ForgetsDiagonals,
    ForgetsDiagonalsOfB,
    ForgetsTriangles,
    LooksOneWayRound,
    JudgesTheRingSide,
    TakesLargestApex,
    FansTheRest,
    TakesEqualForBetter,
    ComparesWithPatchWorst,
    StartsAtFirstRow,
    /// And gives the new rows that of the first one.
    TakesSeveralRegions,
    LooksAtTwoRegions,
    ComparesOuterRegions,
    ComparesRegionsTwoByTwo,
    ComparesLowBitsOfRegions,
    ComparesRegionsOfTable,
    TestsRegionsBeforeLength,
    TestsRegionsBeforeFlat,
    TestsRegionsAfterRoom,
    TestsRegionsLast,
    TestsRoomLast,
    CirclesBeforeChains,
    CutsEndsToBytes,
    SwapsRowPair,
    RefusesChains,
    StartsChainsAtSmallest,
    TakesChainBesideCircle,
    CountsChainsInRows,
    TakesBentChains,
    TestsFlatBeforeLength,
    TestsFlatAfterRoom,
    RoomAsForRings,
    ForgetsClosingFaces,
    ForgetsClosingFaceOfB,
    ClosingFacesEitherWay,
    /// As if every removed row stood as (a,b,v,w).
    ReadsMarksByFixedPlace,
    ReadsMarksFromLowBits,
    DropsShellMarks,
    /// The new rows of a get those of b's faces, and the other way round.
    SwapsMarksOfEnds,
    ForgetsMarksOfKeptRows,
    LetsMarkedFacesGo,
    LetsEndFacesGo,
    LooksAtMarksOfFirstRow,
    RefusesMarkedShells,
    ComparesRegionsWithMarks,
    TestsMarksBeforeRegions,
    TestsMarksAfterRoom,
    TestsMarksLast,
    WritesVersion1,
}

impl Fault {
    /// Whether only blocks of version 2 tell it.
    pub fn is_of_marks(self) -> bool {
        self as usize >= Fault::ReadsMarksByFixedPlace as usize
    }
}

/// Every wrong kernel.
pub const FAULTS: [Fault; 53] = [
    Fault::ComparesRounded,
    Fault::IgnoresTheSign,
    Fault::RefusesCoordinatesOver128,
    Fault::ReadsCoordinatesSigned,
    Fault::ForgetsDiagonals,
    Fault::ForgetsDiagonalsOfB,
    Fault::ForgetsTriangles,
    Fault::LooksOneWayRound,
    Fault::JudgesTheRingSide,
    Fault::TakesLargestApex,
    Fault::FansTheRest,
    Fault::TakesEqualForBetter,
    Fault::ComparesWithPatchWorst,
    Fault::StartsAtFirstRow,
    Fault::TakesSeveralRegions,
    Fault::LooksAtTwoRegions,
    Fault::ComparesOuterRegions,
    Fault::ComparesRegionsTwoByTwo,
    Fault::ComparesLowBitsOfRegions,
    Fault::ComparesRegionsOfTable,
    Fault::TestsRegionsBeforeLength,
    Fault::TestsRegionsBeforeFlat,
    Fault::TestsRegionsAfterRoom,
    Fault::TestsRegionsLast,
    Fault::TestsRoomLast,
    Fault::CirclesBeforeChains,
    Fault::CutsEndsToBytes,
    Fault::SwapsRowPair,
    Fault::RefusesChains,
    Fault::StartsChainsAtSmallest,
    Fault::TakesChainBesideCircle,
    Fault::CountsChainsInRows,
    Fault::TakesBentChains,
    Fault::TestsFlatBeforeLength,
    Fault::TestsFlatAfterRoom,
    Fault::RoomAsForRings,
    Fault::ForgetsClosingFaces,
    Fault::ForgetsClosingFaceOfB,
    Fault::ClosingFacesEitherWay,
    Fault::ReadsMarksByFixedPlace,
    Fault::ReadsMarksFromLowBits,
    Fault::DropsShellMarks,
    Fault::SwapsMarksOfEnds,
    Fault::ForgetsMarksOfKeptRows,
    Fault::LetsMarkedFacesGo,
    Fault::LetsEndFacesGo,
    Fault::LooksAtMarksOfFirstRow,
    Fault::RefusesMarkedShells,
    Fault::ComparesRegionsWithMarks,
    Fault::TestsMarksBeforeRegions,
    Fault::TestsMarksAfterRoom,
    Fault::TestsMarksLast,
    Fault::WritesVersion1,
];

/// The patch after the removal, or the answer: 9 to 16, 19, 20 and 23.
pub fn removal(patch: &Patch, ends: [usize; 2], fault: Fault) -> Result<Patch, u32> {
    if fault == Fault::ReadsMarksFromLowBits {
        let swapped = halves_swapped(patch);
        return match marks_disagree(&swapped.rows) {
            true => Err(answer::MARKS_DISAGREE),
            false => removal(&swapped, ends, Fault::None).map(|after| halves_swapped(&after)),
        };
    }
    let far = patch.points.iter().flatten().any(|c| *c > 128);
    if far && fault == Fault::RefusesCoordinatesOver128 {
        return Err(6);
    }
    let [a, b] = ordered_ends(patch, ends, fault)?;
    let hit: Vec<bool> = patch
        .rows
        .iter()
        .map(|row| row.numbers.contains(&a) && row.numbers.contains(&b))
        .collect();
    let links: Vec<(u8, u8)> = (0..hit.len())
        .filter(|index| hit[*index])
        .map(|index| link_by_parity(patch.rows[index].numbers, a, b))
        .collect();
    let (ring, closed) = circle_or_chain(&links, fault)?;
    let m = ring.len();
    let kept: Vec<Row> = pick(patch, &hit, false);
    let removed: Vec<Row> = pick(patch, &hit, true);
    let several = sees_several(&patch.rows, &removed, compared(fault));
    let in_order = removed.iter().map(|row| {
        let (v, w) = link_by_parity(row.numbers, a, b);
        (*row, [a, b, v, w])
    });
    let in_order: Vec<(Row, [u8; 4])> = in_order.collect();
    let round = Round {
        ends: [a, b],
        rows: &in_order,
    };
    let marked = round.a_mark_goes(fault);
    let bent = !closed && is_bent(patch, [a, b, ring[0], ring[m - 1]], fault);
    if bent && fault == Fault::TestsFlatBeforeLength {
        return Err(answer::NOT_FLAT);
    }
    if several && fault == Fault::TestsRegionsBeforeLength {
        return Err(answer::TWO_REGIONS);
    }
    let counted = match fault {
        Fault::CountsChainsInRows => links.len(),
        _ => m,
    };
    if !(SHORTEST_RING..=LONGEST_RING).contains(&counted) {
        return Err(answer::RING_LENGTH);
    }
    if several && fault == Fault::TestsRegionsBeforeFlat {
        return Err(answer::TWO_REGIONS);
    }
    if bent && fault != Fault::TestsFlatAfterRoom {
        return Err(answer::NOT_FLAT);
    }
    if marked && fault == Fault::TestsMarksBeforeRegions {
        return Err(answer::MARK_GOES);
    }
    let late = [Fault::TestsRegionsAfterRoom, Fault::TestsRegionsLast].contains(&fault);
    if several && !late {
        return Err(answer::TWO_REGIONS);
    }
    let late = late || [Fault::TestsMarksAfterRoom, Fault::TestsMarksLast].contains(&fault);
    if marked && !late {
        return Err(answer::MARK_GOES);
    }
    let no_room = patch.rows.len() + m > room(closed, fault);
    if no_room && fault != Fault::TestsRoomLast {
        return Err(answer::ROOM);
    }
    if bent {
        return Err(answer::NOT_FLAT);
    }
    if several && fault == Fault::TestsRegionsAfterRoom {
        return Err(answer::TWO_REGIONS);
    }
    let after_room = [Fault::TestsRegionsAfterRoom, Fault::TestsMarksAfterRoom];
    if marked && after_room.contains(&fault) {
        return Err(answer::MARK_GOES);
    }
    let table = Table::fill(patch, &kept, [a, b], (&ring, closed), fault);
    let new = table.expanded().ok_or(answer::NOT_ADMISSIBLE)?;
    let judged = match fault {
        Fault::ComparesWithPatchWorst => &patch.rows,
        _ => &removed,
    };
    let old_worst = order::worst(patch, judged, fault);
    if !order::good_enough(table.best_worst(), old_worst, fault) {
        return Err(answer::NONE_BETTER);
    }
    if no_room {
        return Err(answer::ROOM);
    }
    if several {
        return Err(answer::TWO_REGIONS);
    }
    if marked {
        return Err(answer::MARK_GOES);
    }
    let region = removed[0].region;
    let new: Vec<Row> = new
        .into_iter()
        .map(|numbers| Row {
            numbers,
            region,
            marks: round.marks_of(numbers, &kept, fault),
        })
        .collect();
    Ok(Patch {
        version: version_after(patch, fault),
        points: patch.points.clone(),
        rows: kept.into_iter().chain(new).collect(),
    })
}

fn ordered_ends(patch: &Patch, ends: [usize; 2], fault: Fault) -> Result<[u8; 2], u32> {
    let [x, y] = match fault {
        Fault::CutsEndsToBytes => ends.map(|end| end % 256),
        _ => ends,
    };
    if x.max(y) >= patch.points.len() || x == y {
        return Err(answer::BAD_NUMBER);
    }
    Ok([x.min(y) as u8, x.max(y) as u8])
}

fn pick(patch: &Patch, hit: &[bool], wanted: bool) -> Vec<Row> {
    let indexed = patch.rows.iter().zip(hit);
    indexed
        .filter(|(_, is)| **is == wanted)
        .map(|(row, _)| *row)
        .collect()
}

/// v and w of the even arrangement (a,b,v,w), by counting how many pairs stand out of order.
fn link_by_parity(numbers: [u8; 4], a: u8, b: u8) -> (u8, u8) {
    let at = |end: u8| numbers.iter().position(|n| *n == end).expect("held");
    let rest: Vec<usize> = (0..4).filter(|x| ![at(a), at(b)].contains(x)).collect();
    let order = [at(a), at(b), rest[0], rest[1]];
    let swaps: usize = (0..4)
        .map(|x| (x + 1..4).filter(|y| order[x] > order[*y]).count())
        .sum();
    let (v, w) = (numbers[rest[0]], numbers[rest[1]]);
    match swaps % 2 {
        0 => (v, w),
        _ => (w, v),
    }
}

/// The most that rows before and m may be together.
fn room(closed: bool, fault: Fault) -> usize {
    match closed || fault == Fault::RoomAsForRings {
        true => MAX_ROWS + 4,
        false => MAX_ROWS + 3,
    }
}

/// Whether the row over the ends of the edge and of its chain is upright or inverted.
fn is_bent(patch: &Patch, outer: [u8; 4], fault: Fault) -> bool {
    let flat = seen_quality(patch, outer, fault).numerator == 0;
    !flat && fault != Fault::TakesBentChains
}

/// The one circle that all links form, or the one chain, and whether it closes: answers 10 to 12.
fn circle_or_chain(links: &[(u8, u8)], fault: Fault) -> Result<(Vec<u8>, bool), u32> {
    let &(first_v, _) = links.first().ok_or(answer::NOT_HELD)?;
    let mut next = [None; 256];
    let mut ended = [false; 256];
    for (v, w) in links {
        next[usize::from(*v)] = Some(*w);
        ended[usize::from(*w)] = true;
    }
    let all_close = (0..256).all(|p| next[p].is_some() == ended[p]);
    let smallest = links.iter().map(|(v, _)| *v).min().expect("some link");
    let start_of_chain = || {
        links
            .iter()
            .map(|(v, _)| *v)
            .find(|v| !ended[usize::from(*v)])
    };
    let start = match (all_close, fault) {
        (true, Fault::StartsAtFirstRow) => first_v,
        (true, _) => smallest,
        (false, _) => start_of_chain().expect("a chain has a start"),
    };
    let mut ring = vec![start];
    while let Some(w) = next[usize::from(ring[ring.len() - 1])].filter(|w| *w != start) {
        ring.push(w);
    }
    let points = (0..256).filter(|p| next[*p].is_some() || ended[*p]).count();
    match (all_close, ring.len() == points) {
        (true, true) => Ok((ring, true)),
        (true, false) => Err(answer::CIRCLES),
        (false, true) => chain_seen(ring, fault).map(|chain| (chain, false)),
        (false, false) if fault == Fault::CirclesBeforeChains => Err(answer::CIRCLES),
        (false, false) if fault == Fault::TakesChainBesideCircle => Ok((ring, false)),
        (false, false) => Err(answer::OPEN),
    }
}

/// The one chain, as a rival takes it.
fn chain_seen(mut chain: Vec<u8>, fault: Fault) -> Result<Vec<u8>, u32> {
    match fault {
        Fault::RefusesChains => return Err(answer::OPEN),
        Fault::StartsChainsAtSmallest => {
            let places = 0..chain.len();
            let least = places.min_by_key(|place| chain[*place]).expect("points");
            chain.rotate_left(least);
        }
        _ => {}
    }
    Ok(chain)
}

fn compared(fault: Fault) -> Compared {
    match fault {
        Fault::TakesSeveralRegions => Compared::Nothing,
        Fault::LooksAtTwoRegions => Compared::TheFirstTwo,
        Fault::ComparesOuterRegions => Compared::TheOuterTwo,
        Fault::ComparesRegionsTwoByTwo => Compared::TwoByTwo,
        Fault::ComparesLowBitsOfRegions => Compared::LowBits,
        Fault::ComparesRegionsOfTable => Compared::WholeTable,
        Fault::ComparesRegionsWithMarks => Compared::WithMarks,
        _ => Compared::EachWithTheNext,
    }
}

/// The quality of four points given by number, as a rival sees it.
fn seen_quality(patch: &Patch, numbers: [u8; 4], fault: Fault) -> Quality {
    let mut corners = numbers.map(|number| patch.points[usize::from(number)]);
    if fault == Fault::ReadsCoordinatesSigned {
        // 128 more than each signed byte: D and S are the same.
        corners = corners.map(|place| place.map(|c| c.wrapping_add(128)));
    }
    let quality = Quality::of(corners);
    match fault {
        Fault::IgnoresTheSign => Quality {
            numerator: quality.numerator.abs(),
            denominator: quality.denominator,
        },
        _ => quality,
    }
}
