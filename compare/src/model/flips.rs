//! "Plain flips (no quality test)".

use super::answer;
use super::block::{open, Patch};
use super::limits::{BLOCK_BYTES, MAX_ROWS, SHORTEST_RING};
use super::mesh::{
    a_marked_face_holds, even_arrangements, mesh_rule, new_row, region_of, Numbers, Row,
};
use super::pieces::ring_admissible;
use super::ring::site;
use super::triangulations::{new_rows, ways};

/// Writes the block afterwards and answers 0, or refuses: lengths first, then the block, then the flip.
pub fn flip(block: &[u8], numbers: &[usize], out: &mut [u8]) -> u32 {
    if block.len() != BLOCK_BYTES || out.len() != BLOCK_BYTES {
        return answer::LENGTH;
    }
    match open(block).and_then(|patch| flipped(&patch, numbers)) {
        Ok(after) => {
            out.copy_from_slice(&after.to_bytes());
            answer::DONE
        }
        Err(number) => number,
    }
}

/// Two numbers are the ends of an edge, three are a face; any other count is refused, whatever the numbers are.
fn flipped(patch: &Patch, numbers: &[usize]) -> Result<Patch, u32> {
    match *numbers {
        [a, b] => three_to_two(patch, a, b),
        [u, v, w] => two_to_three(patch, [u, v, w]),
        _ => Err(answer::NOT_TWO_OR_THREE),
    }
}

/// "3-2: removal of an edge with m = 3", of a ring alone: answers 9 to 13, 20, 23 and 15. The table gets one row shorter, so
/// 14 never comes.
fn three_to_two(patch: &Patch, a: usize, b: usize) -> Result<Patch, u32> {
    let site = site(patch, a, b)?;
    if !site.closed {
        return Err(answer::OPEN);
    }
    if site.m() != SHORTEST_RING {
        return Err(answer::RING_LENGTH);
    }
    if site.region.is_none() {
        return Err(answer::TWO_REGIONS);
    }
    if site.a_mark_goes() {
        return Err(answer::MARK_GOES);
    }
    let [only_way] = ways(1, SHORTEST_RING) else {
        unreachable!("three points have one triangle");
    };
    if !ring_admissible(patch, &site, only_way) {
        return Err(answer::NOT_ADMISSIBLE);
    }
    Ok(site.patch_after(patch, &new_rows(&site, only_way)))
}

/// "2-3: a face u,v,w in two rows": answers 9, 10, 11, 18, 20, 23, 14 and 15.
fn two_to_three(patch: &Patch, face: [usize; 3]) -> Result<Patch, u32> {
    let count = patch.points.len();
    let [x, y, z] = face;
    if face.iter().any(|n| *n >= count) || x == y || y == z || x == z {
        return Err(answer::BAD_NUMBER);
    }
    let face = face.map(|n| n as u8);
    let (going, kept): (Vec<Row>, Vec<Row>) = patch.rows.iter().partition(|row| row.holds(&face));
    let (first, second) = match going[..] {
        [] => return Err(answer::NOT_HELD),
        [_] => return Err(answer::OPEN),
        [first, second] => (first, second),
        _ => unreachable!("a face stands in at most two rows, once each way"),
    };
    let (first_apex, second_apex) = (apex(first.numbers, face), apex(second.numbers, face));
    if first_apex == second_apex {
        return Err(answer::ONE_APEX);
    }
    let Some(region) = region_of(&going) else {
        return Err(answer::TWO_REGIONS);
    };
    if a_marked_face_holds(&going, &face) {
        return Err(answer::MARK_GOES);
    }
    if kept.len() + 3 > MAX_ROWS {
        return Err(answer::ROOM);
    }
    let (a, b, row_of_a) = match first_apex < second_apex {
        true => (first_apex, second_apex, first),
        false => (second_apex, first_apex, second),
    };
    let new = three_rows(a, b, row_of_a.numbers, face);
    let new = new.map(|numbers| new_row(numbers, region, &going, &kept));
    let rows = [&kept[..], &new].concat();
    if !mesh_rule(&rows, count) {
        return Err(answer::NOT_ADMISSIBLE);
    }
    Ok(Patch {
        version: patch.version,
        points: patch.points.clone(),
        rows,
    })
}

/// The point of a row that is not on its face.
fn apex(numbers: Numbers, face: [u8; 3]) -> u8 {
    let off_face = numbers.into_iter().find(|n| !face.contains(n));
    off_face.expect("a row has a point off its face")
}

/// "a is the smaller apex, u the smallest number of the face, and (a,u,v,w) an even arrangement of
/// a's row"; "(a,b,u,v), (a,b,v,w), (a,b,w,u) are appended".
fn three_rows(a: u8, b: u8, row_of_a: Numbers, face: [u8; 3]) -> [Numbers; 3] {
    let u = face.into_iter().min().expect("a face has numbers");
    let arranged = even_arrangements(row_of_a).find(|n| n[0] == a && n[1] == u);
    let [_, _, v, w] = arranged.expect("a's row holds a and u");
    [[a, b, u, v], [a, b, v, w], [a, b, w, u]]
}
