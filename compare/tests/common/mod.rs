//! What several tests build.

#![allow(dead_code)]

pub mod commands;
pub mod sizes;

use compare::gen::{cases, Random};
use compare::model::block::with_sums;
use compare::model::limits::{BLOCK_BYTES, MARKED, PLAIN, REGION_BITS, ROWS_AT, ROW_BYTES};
use compare::model::measure::determinant;
use compare::model::mesh::{faces, mesh_rule, EVEN};
use compare::model::{open, Call, Patch, Point, Row};
use compare::tally::{SHARED_IN_TABLE, SHARED_ROUND_EDGE};
use std::collections::BTreeSet;

/// A patch of these points and rows, all rows in one region.
pub fn patch(points: &[Point], rows: &[[u8; 4]], region: u8) -> Patch {
    let rows = rows.iter().map(|numbers| Row::plain(*numbers, region));
    Patch {
        version: PLAIN,
        points: points.to_vec(),
        rows: rows.collect(),
    }
}

/// Block A of the facts.
pub fn block_a() -> Patch {
    patch(
        &[[4, 4, 12], [4, 4, 0], [0, 0, 6], [12, 0, 6], [0, 12, 6]],
        &[[0, 1, 2, 3], [0, 1, 3, 4], [0, 1, 4, 2]],
        7,
    )
}

/// Block A with four of the six faces of its shell marked.
pub fn block_a_marked() -> Patch {
    with_marked(&block_a(), &BLOCK_A_SHELL)
}

/// The faces that are marked in it: three of point 0's, one of point 1's.
pub const BLOCK_A_SHELL: [[u8; 3]; 4] = [[0, 2, 3], [0, 3, 4], [0, 4, 2], [1, 3, 4]];

/// The same beside a row on the face 0, 2, 3, which has the face marked too.
pub fn block_a_beside_marked() -> Patch {
    let mut patch = block_a();
    patch.points.push([0, 0, 14]);
    patch.rows.insert(1, Row::plain([5, 0, 2, 3], 3));
    with_marked(&patch, &BLOCK_A_SHELL)
}

/// What a removal from block A leaves.
pub fn block_a_after() -> Patch {
    let rows = &[[0, 2, 3, 4], [2, 3, 4, 1]];
    patch(&block_a().points, rows, 7)
}

/// The edge 0, 1 on the flat face z = 12 with the points 2 and 3, and the chain 3, 5, 4, 2 below it.
pub fn plate() -> Patch {
    let points = [
        [0, 8, 12],
        [24, 8, 12],
        [12, 2, 12],
        [12, 14, 12],
        [12, 0, 0],
        [12, 16, 0],
    ];
    patch(&points, &[[0, 1, 4, 2], [0, 1, 5, 4], [0, 1, 3, 5]], 7)
}

/// 64 points, no two in one place.
fn scattered() -> Vec<Point> {
    let places = (0..64u8).map(|n| [n.wrapping_mul(151), n.wrapping_mul(61), n]);
    places.collect()
}

/// The edge 0, 1 with a ring of m points from 2 on, some of them on obstacles.
pub fn ring(m: u8, obstacles: &[[u8; 4]]) -> Patch {
    let links = (0..m).map(|step| [0, 1, 2 + step, 2 + (step + 1) % m]);
    let rows: Vec<[u8; 4]> = links.chain(obstacles.iter().copied()).collect();
    patch(&scattered(), &rows, 1)
}

/// The chain from 2 to m + 1 round the edge 0, 1, with vm in one plane with the edge and v1, or not.
pub fn chain(m: u8, flat: bool) -> Patch {
    let mut places = scattered();
    let last = usize::from(m) + 1;
    places[1] = [100, 3, 0];
    for place in [0, 1, 2, last] {
        places[place][2] = 60;
    }
    places[last][2] += u8::from(!flat);
    let rows: Vec<[u8; 4]> = (2..m + 1).map(|v| [0, 1, v, v + 1]).collect();
    patch(&places, &rows, 1)
}

/// Rings and flat chains of 3 to 10 points round the edge 0, 1; no other rows.
pub fn rings_and_chains() -> impl Iterator<Item = Patch> {
    (3..=10).flat_map(|m| [ring(m, &[]), chain(m, true)])
}

/// The patch with its rows in every way to have one of two regions, and whether they all have one.
pub fn shared_in_every_way(patch: Patch) -> impl Iterator<Item = (Patch, bool)> {
    let ways = 1 << patch.rows.len();
    (0..ways).map(move |way: u32| {
        let mut shared = patch.clone();
        for (at, row) in shared.rows.iter_mut().enumerate() {
            row.region = 5 + 16 * (way >> at & 1) as u8;
        }
        (shared, way == 0 || way == ways - 1)
    })
}

/// The patch in version 2 in every way to set the marks of its rows, which mostly disagree.
pub fn marked_in_every_way(patch: Patch) -> impl Iterator<Item = Vec<u8>> {
    let fields = with_marked(&patch, &[]).to_fields();
    let rows = patch.rows.len();
    (0..1 << (4 * rows)).map(move |ways: u32| {
        let mut fields = fields;
        for row in 0..rows {
            fields[ROWS_AT + ROW_BYTES * row + 4] += ((ways >> (4 * row) & 15) << 4) as u8;
        }
        with_sums(&fields).to_vec()
    })
}

/// An output block as it comes.
pub const UNTOUCHED: [u8; BLOCK_BYTES] = [0xA5; BLOCK_BYTES];

/// The answer of a removal.
pub fn remove_answer(patch: &Patch, a: usize, b: usize) -> u32 {
    let mut out = UNTOUCHED;
    let outcome = compare::model::remove(&patch.to_bytes(), a, b, &mut out);
    outcome.err().unwrap_or(0)
}

/// The answer of a flip.
pub fn flip_answer(patch: &Patch, numbers: &[usize]) -> u32 {
    let mut out = UNTOUCHED;
    compare::model::flip(&patch.to_bytes(), numbers, &mut out)
}

/// The patches and edges of generated removals whose block opens.
pub fn edges(seed: u64, count: u64) -> impl Iterator<Item = (Patch, [usize; 2])> {
    cases(seed, count).filter_map(|case| match case.call {
        Call::Remove { block, ends, .. } => Some((open(&block).ok()?, ends)),
        _ => None,
    })
}

/// The patch with rows on the points from `from` on, until it has `rows` of them.
pub fn filled(mut patch: Patch, rows: usize, from: u8) -> Patch {
    let mut random = Random::of_case(0, 0);
    let pool: Vec<u8> = (from..patch.points.len() as u8).collect();
    while patch.rows.len() < rows {
        let four = random.some(4, &pool);
        let numbers = [four[0], four[1], four[2], four[3]];
        patch.rows.push(Row::plain(numbers, 0));
        if !mesh_rule(&patch.rows, patch.points.len()) {
            patch.rows.pop();
        }
    }
    patch
}

/// The same rows in another order, each in another even arrangement with its marks moved along.
pub fn rearranged(patch: &Patch, random: &mut Random) -> Patch {
    let mut other = patch.clone();
    random.shuffle(&mut other.rows);
    for row in &mut other.rows {
        *row = row.arranged(random.pick(&EVEN));
    }
    other
}

/// The rows up to row order and even rearrangement, each mark moved along.
pub fn tetrahedra(patch: &Patch) -> Vec<Row> {
    let least = |row: &Row| {
        let arranged = EVEN.iter().map(|places| row.arranged(*places));
        arranged.min().expect("twelve")
    };
    let mut rows: Vec<Row> = patch.rows.iter().map(least).collect();
    rows.sort_unstable();
    rows
}

/// The marked faces without direction, each once.
pub fn marked_set(patch: &Patch) -> BTreeSet<[u8; 3]> {
    let marked = patch.rows.iter().flat_map(Row::marked_faces);
    marked
        .map(|mut face| {
            face.sort_unstable();
            face
        })
        .collect()
}

/// The patch in version 2 with these faces marked in every row that has them, and its regions in four bits.
pub fn with_marked(patch: &Patch, marked: &[[u8; 3]]) -> Patch {
    let mut other = patch.clone();
    other.version = MARKED;
    for row in &mut other.rows {
        row.region &= REGION_BITS;
        row.marks = faces(row.numbers).map(|face| {
            let same = |other: &[u8; 3]| face.iter().all(|point| other.contains(point));
            marked.iter().any(same)
        });
    }
    other
}

/// The patch once for each row that holds the numbers, with another region in that row alone.
pub fn in_two_regions(patch: &Patch, numbers: &[u8]) -> Vec<Patch> {
    let places = 0..patch.rows.len();
    let going = places.filter(|at| patch.rows[*at].holds(numbers));
    let with_other = |at: usize| {
        let mut other = patch.clone();
        other.rows[at].region ^= match patch.version {
            PLAIN => 128,
            _ => 8,
        };
        other
    };
    going.map(with_other).collect()
}

/// The patch in version 2 once for each face of its rows that holds the numbers, with that face marked beside what is.
pub fn with_one_marked(patch: &Patch, numbers: &[u8]) -> Vec<Patch> {
    let all = patch.rows.iter().flat_map(|row| faces(row.numbers));
    let ascending = |mut face: [u8; 3]| {
        face.sort_unstable();
        face
    };
    let held = all.filter(|face| numbers.iter().all(|number| face.contains(number)));
    let held: BTreeSet<[u8; 3]> = held.map(ascending).collect();
    let before: Vec<[u8; 3]> = marked_set(patch).into_iter().collect();
    let with = |face| with_marked(patch, &[&before[..], &[face]].concat());
    held.into_iter().map(with).collect()
}

/// What a case that is refused with 20 or 23 would be answered with otherwise, by its kind.
const OTHERWISE: [(&str, &[u32]); 4] = [
    ("ring", &[0, 14, 15, 16]),
    ("chain", &[0, 14, 15, 16]),
    ("3-2 flip", &[0, 15]),
    ("2-3 flip", &[0, 14, 15]),
];

/// What cases of several regions have to show, by its name in a tally.
pub fn region_points() -> Vec<String> {
    let before: [(&str, &[u32]); 5] = [
        ("ring", &[13]),
        ("chain", &[13, 19]),
        ("several rings or chains", &[11, 12]),
        ("3-2 flip", &[11, 12, 13]),
        ("2-3 flip", &[18]),
    ];
    let mut names = vec![String::from("2-3 flip, 20: the lower four bits agree")];
    for (kind, numbers) in OTHERWISE {
        names.extend(numbers.iter().map(|n| format!("{kind}, 20: otherwise {n}")));
    }
    for (kind, numbers) in before {
        names.extend(numbers.iter().map(|n| format!("{kind}: {n} before 20")));
    }
    for kind in ["ring", "chain", "3-2 flip"] {
        names.extend(SHARED_IN_TABLE.map(|sharing| format!("{kind}, 20: {sharing}")));
    }
    for kind in ["ring", "chain"] {
        names.extend(SHARED_ROUND_EDGE.map(|sharing| format!("{kind}, 20: {sharing}")));
    }
    names
}

/// What cases of version 2 have to show, by its name in a tally.
pub fn mark_points() -> Vec<String> {
    let before: [(&str, &[u32]); 5] = [
        ("ring", &[13, 20]),
        ("chain", &[13, 19, 20]),
        ("several rings or chains", &[11, 12]),
        ("3-2 flip", &[11, 12, 13, 20]),
        ("2-3 flip", &[11, 18, 20]),
    ];
    let mut names: Vec<String> = [
        "0: 60 rows after",
        "22: at the first row",
        "22: at the last row",
        "22: between others",
        "22: marked in the earlier row",
        "22: marked in the later row",
        "2-3 flip, 0: a new row has mark 0",
        "2-3 flip, 0: a new row has mark 1",
        "chain, 0: a closing face takes no mark",
        "chain, 0: a's closing face takes a mark",
        "chain, 0: b's closing face takes a mark",
        "chain, 15: a closing face used along is marked",
        "chain, 23: the face at v1 alone",
        "chain, 23: the face at vm alone",
    ]
    .map(String::from)
    .to_vec();
    for (kind, numbers) in OTHERWISE {
        names.extend(numbers.iter().map(|n| format!("{kind}, 23: otherwise {n}")));
        let refusals = numbers.iter().filter(|n| **n != 0);
        names.extend(refusals.map(|n| format!("{kind}, {n}: a marked shell")));
        let done = [
            "a marked shell",
            "no mark on the shell",
            "the whole shell is marked",
            "one region and other marks",
        ];
        names.extend(done.map(|name| format!("{kind}, 0: {name}")));
    }
    for (kind, numbers) in before {
        names.extend(numbers.iter().map(|n| format!("{kind}: {n} before 23")));
    }
    for kind in ["ring", "chain", "3-2 flip"] {
        for (row, places) in [("a", [1, 2, 3]), ("b", [0, 1, 2])] {
            names.extend(places.map(|t| format!("{kind}, 0: a row of {row} has mark {t}")));
        }
        names.push(format!("{kind}, 23: one face between two rows"));
        names.push(format!("{kind}, 23: not by a face of the first row"));
    }
    names
        .iter()
        .map(|name| format!("version 2, {name}"))
        .collect()
}

/// For each region number the total D of the rows of that region.
pub fn d_by_region(patch: &Patch) -> [i64; 256] {
    let mut totals = [0; 256];
    for row in &patch.rows {
        totals[usize::from(row.region)] += determinant(patch.corners(row));
    }
    totals
}

/// The total D of all rows.
pub fn total_d(patch: &Patch) -> i64 {
    let volumes = patch.rows.iter().map(|row| determinant(patch.corners(row)));
    volumes.sum()
}
