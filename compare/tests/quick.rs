//! What the benchmark holds the kernel against is right itself: it agrees with the model.

use compare::gen::cases;
use compare::model::answer;
use compare::model::limits::{BLOCK_BYTES, MARKED, VERSION_AT};
use compare::model::measure::{score, Corners};
use compare::model::pieces::Pieces;
use compare::model::removal::removable_site;
use compare::model::{open, remove, run, Call, Outcome, PageRow, Patch, Quality};
use compare::quick;
use compare::tally::ANSWERS;

fn blocks() -> impl Iterator<Item = Vec<u8>> {
    cases(21, 3000).filter_map(|case| match case.call {
        Call::Open { block } | Call::Remove { block, .. } | Call::Summary { block, .. } => {
            Some(block)
        }
        _ => None,
    })
}

fn parts(corners: Corners) -> quick::Parts {
    let mut parts = [7; 3];
    quick::quality(corners.as_flattened(), &mut parts);
    parts
}

fn rows(patch: &Patch) -> Vec<Corners> {
    patch.rows.iter().map(|row| patch.corners(row)).collect()
}

#[test]
fn blocks_open_with_the_same_answer() {
    for block in blocks() {
        let expected = open(&block).map_or_else(|number| number, |_| 0);
        assert_eq!(quick::open(&block), expected);
    }
}

#[test]
fn qualities_and_scores_are_the_same() {
    for patch in blocks().filter_map(|block| open(&block).ok()) {
        for corners in rows(&patch) {
            let quality = Quality::of(corners);
            let [kind, numerator, denominator] = parts(corners);
            assert_eq!(1 - kind as i128, quality.numerator.signum());
            assert_eq!(u128::from(numerator), quality.numerator.unsigned_abs());
            assert_eq!(i128::from(denominator), quality.denominator);
            if kind == 0 {
                assert_eq!(quick::score(numerator, denominator), score(corners));
            }
        }
    }
}

#[test]
fn fractions_stand_in_the_same_order() {
    for patch in blocks().filter_map(|block| open(&block).ok()) {
        for pair in rows(&patch).windows(2) {
            let [x, y] = [pair[0], pair[1]].map(parts);
            let size = |[_, n, d]: quick::Parts| Quality {
                numerator: n.into(),
                denominator: d.into(),
            };
            assert_eq!(quick::less(x[1], x[2], y[1], y[2]), size(x) < size(y));
        }
    }
}

#[test]
fn another_length_has_no_quality() {
    let mut parts = [7; 3];
    quick::quality(&[0; 11], &mut parts);
    assert_eq!(parts, [7; 3]);
}

/// The block and the ends of every case about an edge, with the output as it comes.
fn edges(seed: u64, count: u64) -> impl Iterator<Item = (Vec<u8>, [usize; 2], Vec<u8>)> {
    cases(seed, count).filter_map(|case| match case.call {
        Call::Remove { block, ends, out } => Some((block, ends, out)),
        Call::Flip {
            block,
            numbers,
            out,
        } => Some((block, numbers.try_into().ok()?, out)),
        Call::Page { block, ends, .. } => Some((block, ends, vec![0xA5; BLOCK_BYTES])),
        Call::Printout { input } if input.len() > BLOCK_BYTES + 1 => {
            let ends = [input[BLOCK_BYTES], input[BLOCK_BYTES + 1]].map(usize::from);
            Some((input[..BLOCK_BYTES].to_vec(), ends, vec![7; BLOCK_BYTES]))
        }
        _ => None,
    })
}

#[test]
fn removals_are_the_same() {
    let bits = |page: PageRow| [page.before.to_bits(), page.after.to_bits()];
    let mut answers = [0; ANSWERS];
    let [mut count, mut marked] = [0; 2];
    for (block, [a, b], out) in edges(22, 10_000) {
        let [mut expected, mut written] = [out.clone(), out];
        let by_model = remove(&block, a, b, &mut expected).map(|removal| bits(removal.page));
        assert_eq!(
            quick::remove(&block, a, b, &mut written).map(bits),
            by_model
        );
        assert_eq!(written, expected);
        let number = by_model.err().unwrap_or(answer::DONE);
        answers[number as usize] += 1;
        count += 1;
        marked += usize::from(number == answer::DONE && block[VERSION_AT] == MARKED);
    }
    assert!(
        count >= 5000 && marked > 300,
        "{count} removals, {marked} marked"
    );
    let met = |number: u32| answers[number as usize] > 0;
    let behind = [
        answer::NOT_FLAT,
        answer::TWO_REGIONS,
        answer::MARKS_DISAGREE,
        answer::MARK_GOES,
    ];
    let before = answer::DONE..=answer::NOT_ZERO;
    let mut possible = before
        .chain(answer::ROW..=answer::NONE_BETTER)
        .chain(behind);
    assert!(possible.all(met), "{answers:?}");
}

#[test]
fn the_table_has_the_same_apex() {
    let mut chains = 0;
    for (block, [a, b], _) in edges(23, 2000) {
        let Ok(patch) = open(&block) else { continue };
        let Ok(site) = removable_site(&patch, a, b) else {
            continue;
        };
        let best = Pieces::of(&patch, &site).best(1, site.m());
        let expected = best.map_or(0, |best| best.apex as u64);
        assert_eq!(quick::ring_length(&block, a, b), site.m() as u64);
        assert_eq!(quick::top_apex(&block, a, b), expected);
        chains += usize::from(!site.closed);
    }
    assert!(chains > 100, "{chains}");
}

#[test]
fn summaries_are_the_same() {
    for case in cases(24, 5000) {
        let Call::Summary { block, out } = &case.call else {
            continue;
        };
        let mut numbers = out.clone();
        let answer = quick::summary(block, &mut numbers);
        assert_eq!(Outcome::Numbers(answer, numbers), run(&case.call));
    }
}
