//! Blocks that do not open, with one fault or several: the smallest number has to win.

use super::obstacles::fill;
use super::random::Random;
use super::scene::{any_out, any_point, Finished, Naming, Scene, A, B};
use super::summaries::any_patch;
use crate::model::answer;
use crate::model::block::with_sums;
use crate::model::call::{PAGE_NUMBERS, SUMMARY_NUMBERS};
use crate::model::limits::*;
use crate::model::mesh::faces;
use crate::model::Call;

type Fields = [u8; FIELD_BYTES];
type Spoiler = fn(&mut Random, &mut Fields);

/// The answers that a block can get after its length, in the order in which they are tested.
const BAD_BLOCK: [u32; 6] = [
    answer::SUM,
    answer::VERSION,
    answer::COUNT,
    answer::NOT_ZERO,
    answer::ROW,
    answer::FACE_TWICE,
];

/// What spoils a block for each of them but the sums.
const SPOILERS: [(u32, Spoiler); 5] = [
    (answer::FACE_TWICE, twice),
    (answer::ROW, bad_row),
    (answer::NOT_ZERO, not_zero),
    (answer::COUNT, over_count),
    (answer::VERSION, other_version),
];

/// A patch with rows and with room for points and rows, so that every fault can be put in.
fn spoilable(random: &mut Random) -> Finished {
    let mut scene = Scene::new((0..6).map(|_| any_point(random)).collect());
    scene.push(random, [A, B, 2, 3]);
    scene.push(random, [A, B, 3, 2]);
    let points = random.within(7..=MAX_POINTS - 1);
    if random.percent(50) {
        let rows = random.within(2..=MAX_ROWS - 2);
        fill(&mut scene, random, rows, None);
        scene.points.truncate(MAX_POINTS - 1);
        scene.rows.retain(|row| !row.holds(&[MAX_POINTS as u8 - 1]));
    }
    scene.widen(random, points);
    scene.finish(random, Naming::Any, 0)
}

/// Fields spoiled for each of these answers.
fn spoiled(random: &mut Random, numbers: &[u32]) -> Fields {
    let mut fields = spoilable(random).patch.to_fields();
    for (number, spoil) in SPOILERS {
        if numbers.contains(&number) {
            spoil(random, &mut fields);
        }
    }
    fields
}

/// One of these answers, and up to three that stand behind it.
fn several(random: &mut Random, numbers: &[u32]) -> Vec<u32> {
    let first = random.below(numbers.len() - 1);
    let count = random.within(1..=3);
    let behind = random.some(count, &numbers[first + 1..]);
    [vec![numbers[first]], behind].concat()
}

/// A second row with a directed face of the first.
fn twice(random: &mut Random, fields: &mut Fields) {
    let rows = usize::from(fields[ROW_COUNT_AT]);
    let points = fields[POINT_COUNT_AT];
    let at = ROWS_AT + ROW_BYTES * random.below(rows);
    let row = [fields[at], fields[at + 1], fields[at + 2], fields[at + 3]];
    let [p, q, r] = random.pick(&faces(row));
    let others: Vec<u8> = (0..points).filter(|x| ![p, q, r].contains(x)).collect();
    let apex = random.pick(&others);
    let copy = random.pick(&[[apex, p, q, r], [apex, q, r, p], [apex, r, p, q]]);
    let end = ROWS_AT + ROW_BYTES * rows;
    fields[end..end + 4].copy_from_slice(&copy);
    fields[ROW_COUNT_AT] += 1;
}

fn bad_row(random: &mut Random, fields: &mut Fields) {
    let row = random.below(usize::from(fields[ROW_COUNT_AT]));
    let at = ROWS_AT + ROW_BYTES * row;
    let place = random.below(4);
    let points = usize::from(fields[POINT_COUNT_AT]);
    fields[at + place] = match random.below(3) {
        0 => fields[at + (place + 1 + random.below(3)) % 4],
        1 => points as u8,
        _ => random.within(points..=255) as u8,
    };
}

fn not_zero(random: &mut Random, fields: &mut Fields) {
    let points_end = POINTS_AT + POINT_BYTES * usize::from(fields[POINT_COUNT_AT]);
    let rows_end = ROWS_AT + ROW_BYTES * usize::from(fields[ROW_COUNT_AT]);
    let gaps = [
        (ZEROS_AT, POINTS_AT),
        (points_end, ROWS_AT),
        (rows_end, FIELD_BYTES),
    ];
    let (from, to) = random.pick(&gaps);
    let edges = [from, to - 1, random.within(from..=to - 1)];
    fields[random.pick(&edges)] = random.within(1..=255) as u8;
}

fn over_count(random: &mut Random, fields: &mut Fields) {
    let which = random.below(3);
    if which != 1 {
        fields[POINT_COUNT_AT] = random.within(MAX_POINTS + 1..=255) as u8;
    }
    if which != 0 {
        fields[ROW_COUNT_AT] = random.within(MAX_ROWS + 1..=255) as u8;
    }
}

fn other_version(random: &mut Random, fields: &mut Fields) {
    let any = random.within(3..=255) as u8;
    fields[VERSION_AT] = random.pick(&[0, 3, any]);
}

/// A block with one fault, in any call.
pub fn one_fault(random: &mut Random) -> (Call, Option<u32>) {
    let number = random.pick(&BAD_BLOCK);
    faulty(random, &[number])
}

/// A block with two faults or more, in any call.
pub fn several_faults(random: &mut Random) -> (Call, Option<u32>) {
    let numbers = several(random, &BAD_BLOCK);
    faulty(random, &numbers)
}

/// A block with these faults; a wrong sum is a sum changed, or a byte changed under it.
fn faulty(random: &mut Random, numbers: &[u32]) -> (Call, Option<u32>) {
    let mut block = with_sums(&spoiled(random, numbers)).to_vec();
    if numbers.contains(&answer::SUM) {
        let at = match random.percent(70) {
            true => random.within(FIELD_BYTES..=BLOCK_BYTES - 1),
            false => random.below(FIELD_BYTES),
        };
        block[at] = block[at].wrapping_add(random.within(1..=255) as u8);
    }
    let smallest = numbers.iter().copied().min();
    (any_call(random, block), smallest)
}

/// Fields with one fault or more, to be sealed.
pub fn faulty_fields(random: &mut Random) -> (Call, Option<u32>) {
    let without_sums = &BAD_BLOCK[1..];
    let numbers = match random.percent(50) {
        true => vec![random.pick(without_sums)],
        false => several(random, without_sums),
    };
    let call = Call::Seal {
        fields: spoiled(random, &numbers).to_vec(),
        out: any_out(random),
    };
    (call, numbers.into_iter().min())
}

/// Any call but sealing.
fn any_call(random: &mut Random, block: Vec<u8>) -> Call {
    let [x, y, z] = [0; 3].map(|_| random.below(8));
    let (ends, out) = ([x, y], any_out(random));
    match random.below(7) {
        0 => Call::Open { block },
        1 => Call::Summary {
            block,
            out: vec![random.number(); SUMMARY_NUMBERS],
        },
        2 => Call::Remove { block, ends, out },
        3 => Call::Page {
            block,
            ends,
            row: vec![f64::from(random.byte()); PAGE_NUMBERS],
        },
        4 => flip(block, &ends, out),
        5 => flip(block, &[x, y, z], out),
        _ => Call::Printout {
            input: [&block[..], &[x as u8, y as u8]].concat(),
        },
    }
}

fn flip(block: Vec<u8>, numbers: &[usize], out: Vec<u8>) -> Call {
    let numbers = numbers.to_vec();
    Call::Flip {
        block,
        numbers,
        out,
    }
}

/// A wrong length somewhere (1), of a good block or a bad one.
pub fn lengths(random: &mut Random) -> (Call, Option<u32>) {
    let mut block = match random.percent(50) {
        true => any_patch(random).block(),
        false => with_sums(&spoiled(random, &[answer::COUNT, answer::ROW])).to_vec(),
    };
    let any = random.below(1200);
    let mut wrong = |right: usize| {
        let near = [
            0,
            right - 1,
            right + 1,
            2 * right,
            FIELD_BYTES,
            INPUT_BYTES,
            any,
        ];
        let others: Vec<usize> = near.into_iter().filter(|n| *n != right).collect();
        random.pick(&others)
    };
    let (wrong_block, wrong_fields) = (wrong(BLOCK_BYTES), wrong(FIELD_BYTES));
    let (wrong_input, wrong_seven) = (wrong(INPUT_BYTES), wrong(SUMMARY_NUMBERS));
    let wrong_two = wrong(PAGE_NUMBERS);
    let in_block = random.percent(50);
    let ends = [0, 1];
    let length = |fits: usize, misfits: usize, bad: bool| if bad { misfits } else { fits };
    let out = random.bytes(length(BLOCK_BYTES, wrong_block, !in_block));
    let kind = random.below(7);
    block.resize(length(BLOCK_BYTES, wrong_block, in_block || kind == 0), 0);
    let call = match kind {
        0 => Call::Open { block },
        1 => {
            block.resize(length(FIELD_BYTES, wrong_fields, in_block), 0);
            Call::Seal { fields: block, out }
        }
        2 => Call::Summary {
            block,
            out: vec![7; length(SUMMARY_NUMBERS, wrong_seven, !in_block)],
        },
        3 => Call::Page {
            block,
            ends,
            row: vec![7.0; length(PAGE_NUMBERS, wrong_two, !in_block)],
        },
        4 => flip(block, &ends, out),
        5 => flip(block, &[0, 1, 2], out),
        _ if random.percent(50) => Call::Remove { block, ends, out },
        _ => {
            block.resize(wrong_input, 0);
            Call::Printout { input: block }
        }
    };
    (call, Some(answer::LENGTH))
}

/// Bytes that mean nothing, sometimes with a good start and good sums.
pub fn raw(random: &mut Random) -> (Call, Option<u32>) {
    let mut fields: Fields = std::array::from_fn(|_| random.byte());
    if random.percent(80) {
        fields[..POINTS_AT].fill(0);
        fields[VERSION_AT] = PLAIN;
        fields[POINT_COUNT_AT] = random.within(0..=70) as u8;
        fields[ROW_COUNT_AT] = random.within(0..=64) as u8;
    }
    let mut block = with_sums(&fields).to_vec();
    if random.percent(20) {
        block = random.bytes(BLOCK_BYTES);
    }
    (any_call(random, block), None)
}
