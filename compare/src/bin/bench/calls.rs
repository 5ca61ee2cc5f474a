//! The calls that are timed, each with its counterpart in Rust.

use crate::inputs::{Edge, Fraction, Inputs, Rings};
use crate::probes;
use crate::timing::Times;
use compare::model::answer;
use compare::model::call::{PAGE_NUMBERS, SUMMARY_NUMBERS};
use compare::model::limits::BLOCK_BYTES;
use compare::{kernel, quick};

/// Numbers and bytes as one number that tells most others apart.
fn mixed(parts: impl IntoIterator<Item = u64>) -> u64 {
    let mix = |sum: u64, part: u64| (sum.rotate_left(5) ^ part).wrapping_mul(0x9E37_79B9_7F4A_7C15);
    parts.into_iter().fold(0, mix)
}

pub fn quality(corners: &[[u8; 12]]) -> Times {
    let mut from_kernel = [0; 3];
    let mut from_rust = [0; 3];
    Times::of(
        corners,
        |corners| {
            probes::quality(corners, &mut from_kernel);
            from_kernel[0] ^ from_kernel[1] ^ from_kernel[2]
        },
        |corners| {
            quick::quality(corners, &mut from_rust);
            from_rust[0] ^ from_rust[1] ^ from_rust[2]
        },
    )
}

pub fn comparison(pairs: &[[Fraction; 2]]) -> Times {
    Times::of(
        pairs,
        |[x, y]| probes::less(x.0, x.1, y.0, y.1).into(),
        |[x, y]| quick::less(x.0, x.1, y.0, y.1).into(),
    )
}

pub fn score(fractions: &[Fraction]) -> Times {
    Times::of(
        fractions,
        |(numerator, denominator)| probes::score(*numerator, *denominator),
        |(numerator, denominator)| quick::score(*numerator, *denominator).into(),
    )
}

pub fn opening(blocks: &[Vec<u8>]) -> Times {
    Times::of(
        blocks,
        |block| kernel::open(block).into(),
        |block| quick::open(block).into(),
    )
}

pub fn summary(blocks: &[Vec<u8>]) -> Times {
    let mut from_kernel = [0; SUMMARY_NUMBERS];
    let mut from_rust = [0; SUMMARY_NUMBERS];
    Times::of(
        blocks,
        |block| {
            let answer = kernel::summary(block, &mut from_kernel);
            u64::from(answer) ^ mixed(from_kernel)
        },
        |block| {
            let answer = quick::summary(block, &mut from_rust);
            u64::from(answer) ^ mixed(from_rust)
        },
    )
}

/// The table of pieces: what it takes beyond opening the block and finding the ring.
pub fn table(edges: &[Edge]) -> Times {
    Times::beyond(
        edges,
        [
            |(block, ends)| probes::top_apex(block, *ends),
            |(block, ends)| probes::ring_length(block, *ends),
        ],
        [
            |(block, [a, b])| quick::top_apex(block, *a, *b),
            |(block, [a, b])| quick::ring_length(block, *a, *b),
        ],
    )
}

/// A removal, and a few of the bytes it wrote; all of them are compared once, outside the rounds.
pub fn removal(inputs: &Inputs, rings: Rings) -> Times {
    let edges = inputs.edges(rings);
    let mut from_kernel = [0; BLOCK_BYTES];
    let mut from_rust = [0; BLOCK_BYTES];
    let times = Times::of(
        &edges,
        |(block, ends)| {
            let answer = kernel::remove(block, *ends, &mut from_kernel);
            u64::from(answer) ^ u64::from(from_kernel[BLOCK_BYTES - 1])
        },
        |(block, ends)| {
            let answer = rust_answer(block, *ends, &mut from_rust);
            u64::from(answer) ^ u64::from(from_rust[BLOCK_BYTES - 1])
        },
    );
    let same = edges.iter().all(|edge| both_answer(edge, rings.answer));
    Times {
        agree: times.agree && same,
        ..times
    }
}

/// Whether both sides give this answer and write the same block.
fn both_answer((block, ends): &Edge, answer: u32) -> bool {
    let mut from_kernel = [0; BLOCK_BYTES];
    let mut from_rust = [0; BLOCK_BYTES];
    let answers = [
        kernel::remove(block, *ends, &mut from_kernel),
        rust_answer(block, *ends, &mut from_rust),
    ];
    answers == [answer; 2] && from_kernel == from_rust
}

/// The answer of Rust's removal.
pub fn rust_answer(block: &[u8], [a, b]: [usize; 2], out: &mut [u8]) -> u32 {
    quick::remove(block, a, b, out)
        .err()
        .unwrap_or(answer::DONE)
}

/// The page row of a removal; Rust's comes with the block.
pub fn page(edges: &[Edge]) -> Times {
    let mut from_kernel = [0.0; PAGE_NUMBERS];
    let mut from_rust = [0; BLOCK_BYTES];
    Times::of(
        edges,
        |(block, ends)| {
            let answer = kernel::page(block, *ends, &mut from_kernel);
            u64::from(answer) ^ mixed(from_kernel.map(f64::to_bits))
        },
        |(block, [a, b])| {
            let page = quick::remove(block, *a, *b, &mut from_rust);
            let page = page.map(|page| [page.before, page.after].map(f64::to_bits));
            page.map_or_else(u64::from, mixed)
        },
    )
}
