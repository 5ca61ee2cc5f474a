//! The kernel, through its archive, against the model: every call, its answer and every element of its output.

#[cfg(not(kernel))]
#[test]
fn the_archive_is_there() {
    panic!("no archive of the kernel: run compare/archive sumpnewt");
}

#[cfg(kernel)]
mod common;

#[cfg(kernel)]
mod held {
    use super::common::sizes::shows;
    use super::common::*;
    use compare::gen::{cases, Random};
    use compare::held::Held;
    use compare::model::block::with_sums;
    use compare::model::call::calls_on;
    use compare::model::limits::{BLOCK_BYTES, FIELD_BYTES, MARKED, PLAIN};
    use compare::model::removal::removal;
    use compare::model::{open, Call, Outcome, Quality};

    /// Generated cases of the gate; `hold` takes any number.
    const CASES: u64 = 36_000;
    /// The calls that a block is tried with.
    const CALLS: u64 = 9;
    /// More than a block and its output together.
    const LENGTHS: usize = 1_100;

    /// Every byte of some bytes with every other value.
    fn changes(bytes: &[u8]) -> impl Iterator<Item = Vec<u8>> + '_ {
        (0..bytes.len()).flat_map(move |at| {
            (1..=255).map(move |change| {
                let mut other = bytes.to_vec();
                other[at] ^= change;
                other
            })
        })
    }

    /// Blocks that open, with an edge of theirs.
    fn open_blocks(count: usize) -> Vec<(Vec<u8>, [usize; 2])> {
        edges(7, 400)
            .filter(|(patch, _)| patch.version == PLAIN && patch.rows.len() < 20)
            .map(|(patch, ends)| (patch.to_bytes().to_vec(), ends))
            .take(count)
            .collect()
    }

    #[test]
    fn on_generated_cases() {
        Held::of(cases(1, CASES).map(|case| case.call)).expect(102_000);
    }

    #[test]
    fn on_every_change_of_one_byte() {
        let marked = block_a_beside_marked().to_bytes().to_vec();
        for (block, [a, b]) in open_blocks(3).into_iter().chain([(marked, [0, 1])]) {
            let calls = changes(&block).flat_map(|other| calls_on(&other, [a, b, 2]));
            Held::of(calls).expect(CALLS * 255 * 512);
        }
    }

    #[test]
    fn on_every_change_of_one_byte_with_its_sums_made_anew() {
        for patch in [block_a(), plate(), block_a_beside_marked()] {
            let fields = patch.to_fields();
            let calls = changes(&fields).flat_map(|other| {
                let fields: [u8; FIELD_BYTES] = other.try_into().expect("as many bytes");
                calls_on(&with_sums(&fields), [0, 1, 2])
            });
            Held::of(calls).expect(CALLS * 255 * 508);
        }
    }

    #[test]
    fn on_every_length() {
        let block = block_a().to_bytes();
        let long: Vec<u8> = block.iter().copied().cycle().take(LENGTHS).collect();
        let inputs = (0..=LENGTHS).flat_map(|length| {
            let mut calls = calls_on(&long[..length], [0, 1, 2]);
            for call in &mut calls {
                // Not cut to the length that sealing wants.
                if let Call::Seal { fields, .. } = call {
                    *fields = long[..length].to_vec();
                }
            }
            calls
        });
        Held::of(inputs).expect(CALLS * (LENGTHS as u64 + 1));
        let outputs = (0..=LENGTHS).flat_map(|length| {
            let mut calls = calls_on(&block, [0, 1, 2]);
            for call in &mut calls {
                match call {
                    Call::Open { .. } => {}
                    Call::Seal { out, .. } | Call::Remove { out, .. } | Call::Flip { out, .. } => {
                        *out = long[..length].to_vec()
                    }
                    Call::Summary { out, .. } => *out = vec![9; length],
                    Call::Shown { out, .. } => *out = vec![9.0; length],
                    Call::Page { row, .. } => *row = vec![9.0; length],
                    Call::Printout { .. } => unreachable!("not among them"),
                }
            }
            calls
        });
        Held::of(outputs).expect(CALLS * (LENGTHS as u64 + 1));
    }

    #[test]
    fn on_every_number_of_an_edge() {
        let block = block_a().to_bytes();
        let numbers = [0, 1, 2, 3, 4, 5, 63, 64, 255, 256, 257, 1 << 32, usize::MAX];
        let calls = numbers
            .iter()
            .flat_map(|a| numbers.iter().map(move |b| (*a, *b)))
            .flat_map(|(a, b)| calls_on(&block, [a, b, 4]));
        Held::of(calls).expect(CALLS * 169);
    }

    /// Of rings of 3 to 10 rows and chains of 2 to 9, and of two rows on a face.
    #[test]
    fn on_every_way_to_share_two_regions() {
        let round_an_edge = rings_and_chains().flat_map(shared_in_every_way);
        let calls = round_an_edge.flat_map(|(patch, _)| calls_on(&patch.to_bytes(), [0, 1, 2]));
        Held::of(calls).expect(CALLS * (2_040 + 1_020));
        let on_a_face = shared_in_every_way(block_a_after());
        let calls = on_a_face.flat_map(|(patch, _)| calls_on(&patch.to_bytes(), [2, 3, 4]));
        Held::of(calls).expect(CALLS * 4);
    }

    /// Of the three rows of a ring and of a chain, and of two rows on a face.
    #[test]
    fn on_every_way_to_mark_three_rows_or_two() {
        let round_an_edge = [block_a(), plate()]
            .into_iter()
            .flat_map(marked_in_every_way);
        let calls = round_an_edge.flat_map(|block| calls_on(&block, [0, 1, 2]));
        Held::of(calls).expect(CALLS * 2 * 4_096);
        let on_a_face = marked_in_every_way(block_a_after());
        let calls = on_a_face.flat_map(|block| calls_on(&block, [2, 3, 4]));
        Held::of(calls).expect(CALLS * 256);
    }

    #[test]
    fn on_random_bytes() {
        let mut random = Random::of_case(11, 0);
        let calls = (0..4_000).flat_map(|_| {
            let mut fields: [u8; FIELD_BYTES] = random.bytes(FIELD_BYTES).try_into().expect("508");
            let raw = random.bytes(BLOCK_BYTES);
            // From wholly random to a body whose faults are few.
            fields[0] = random.pick(&[PLAIN, MARKED]);
            fields[1] %= 66;
            fields[2] %= 62;
            fields[3..16].fill(0);
            let kept = random.below(FIELD_BYTES);
            let mut sparse = fields;
            sparse[kept.max(16)..].fill(0);
            let numbers = [random.below(66), random.below(66), random.below(66)];
            [
                raw,
                with_sums(&fields).to_vec(),
                with_sums(&sparse).to_vec(),
            ]
            .into_iter()
            .flat_map(move |block| calls_on(&block, numbers))
        });
        Held::of(calls).expect(CALLS * 12_000);
    }

    /// The bound by whole numbers alone, on the kernel's own f64 values.
    #[test]
    fn what_it_shows_is_near_the_fraction() {
        let [mut rows, mut pages] = [0; 2];
        for call in cases(4, 6_000).map(|case| case.call) {
            let outcome = compare::kernel::run(&call);
            match (&call, outcome) {
                (Call::Shown { block, .. }, Some(Outcome::Shown(0, out))) => {
                    let patch = open(block).expect("it is shown");
                    for (row, bits) in patch.rows.iter().zip(out) {
                        shows(bits, Quality::of(patch.corners(row)));
                        rows += 1;
                    }
                }
                (Call::Page { block, ends, .. }, Some(Outcome::Page(0, out))) => {
                    let before = open(block).expect("it opens");
                    let removal = removal(before, ends[0], ends[1]).expect("done");
                    for (patch, bits) in [removal.before, removal.after].iter().zip(out) {
                        let rows = patch.rows.iter();
                        let worst = rows.map(|row| Quality::of(patch.corners(row))).min();
                        shows(bits, worst.expect("rows"));
                    }
                    pages += 1;
                }
                _ => {}
            }
        }
        assert!(rows > 50_000 && pages > 100, "{rows} {pages}");
    }

    /// An output block that the kernel has written opens, also for the model.
    #[test]
    fn what_it_writes_opens() {
        let mut written = 0;
        for call in cases(3, 4_000).map(|case| case.call) {
            let Some(Outcome::Bytes(0, bytes)) = compare::kernel::run(&call) else {
                continue;
            };
            assert!(open(&bytes).is_ok(), "{call:?}");
            written += 1;
        }
        assert!(written >= 800, "{written}");
    }
}
