//! The stack of every call: no more than the header promises, and the header promises no more than what is needed.
//!
//! Not to be run under valgrind (compare/src/stack.rs).

#[cfg(kernel)]
mod common;

#[cfg(kernel)]
mod promised {
    use super::common::commands::house;
    use compare::stack::{deepest, NAMES};
    use std::fs;

    /// The most that the header may promise.
    const MOST: usize = 4_096;
    /// The most by which a promise may be over what is measured: it is for two processors.
    const SLACK: usize = 256;

    /// What the header promises, in its order.
    fn promises() -> Vec<(String, usize)> {
        let header = fs::read_to_string(house().join("include/sumpnewt.h")).expect("the header");
        let promise = |line: &str| {
            let rest = line.strip_prefix("#define SUMPNEWT_STACK_")?;
            let (name, bytes) = rest.split_once(' ')?;
            Some((name.to_string(), bytes.parse().expect("a number of bytes")))
        };
        header.lines().filter_map(promise).collect()
    }

    /// What is wrong with a promise, if anything.
    fn fault(name: &str, promised: usize, needed: usize) -> Option<String> {
        let why = if needed > promised {
            "too little is promised".to_string()
        } else if promised > MOST {
            format!("more than {MOST} is promised")
        } else if promised > needed + SLACK {
            format!("over {SLACK} too much is promised")
        } else {
            return None;
        };
        let both = format!("{promised} bytes promised, {needed} needed");
        Some(format!("SUMPNEWT_STACK_{name}: {both}: {why}"))
    }

    #[test]
    fn every_call_keeps_its_promise() {
        let promises = promises();
        let names: Vec<&str> = promises.iter().map(|(name, _)| name.as_str()).collect();
        assert_eq!(names, NAMES);
        let measured = promises.iter().zip(deepest());
        let faults: Vec<String> = measured
            .filter_map(|((name, promised), (_, needed))| fault(name, *promised, needed))
            .collect();
        assert!(faults.is_empty(), "\n{}", faults.join("\n"));
    }
}

/// What the measure sees.
#[cfg(kernel)]
mod measure {
    use compare::stack::depth;
    use std::hint::black_box;

    const WRITTEN: usize = 1_000;

    extern "C" fn nothing() {}

    /// Each byte has the colour of a paint.
    extern "C" fn writes() {
        black_box(&mut [0xA5_u8; WRITTEN]);
    }

    #[test]
    fn an_empty_function_has_a_return_address_at_most() {
        let return_address = match cfg!(target_arch = "x86_64") {
            true => 8,
            false => 0,
        };
        assert_eq!(depth(nothing), return_address);
    }

    #[test]
    fn every_byte_that_is_written_counts() {
        let bytes = depth(writes);
        assert!((WRITTEN..WRITTEN + 128).contains(&bytes), "{bytes}");
    }
}

/// That the inputs go where they are meant to go.
#[cfg(kernel)]
mod reached {
    use compare::gen::deep_sites;
    use compare::kernel;
    use compare::model::call::calls_on;
    use compare::model::limits::{BLOCK_BYTES, LONGEST_RING, MARKED, PLAIN};
    use compare::model::ring::{site, Site};
    use compare::model::{answer, open, Call, Patch, Row};
    use std::collections::BTreeSet;

    /// The kernel's answers of a kind of call on the deep sites of some kind.
    fn answers(
        is_site: impl Fn(&Patch, Option<Site>) -> bool,
        is_call: fn(&Call) -> bool,
    ) -> BTreeSet<u32> {
        let sites = deep_sites().into_iter().filter(|(block, [a, b, _])| {
            let patch = open(block).expect("a deep block opens");
            let edge = site(&patch, *a, *b).ok();
            is_site(&patch, edge)
        });
        let calls = sites.flat_map(|(block, numbers)| calls_on(&block, numbers));
        let outcomes = calls.filter(is_call).filter_map(|call| kernel::run(&call));
        outcomes.map(|outcome| outcome.answer()).collect()
    }

    /// Whether an edge has a ring, or a chain, of m.
    fn has(edge: Option<Site>, closed: bool, m: usize) -> bool {
        edge.is_some_and(|site| site.closed == closed && site.m() == m)
    }

    fn is_remove(call: &Call) -> bool {
        matches!(call, Call::Remove { .. })
    }

    /// Whether a call is a flip with so many numbers.
    fn flips(call: &Call, count: usize) -> bool {
        matches!(call, Call::Flip { numbers, .. } if numbers.len() == count)
    }

    #[test]
    fn every_outcome_of_a_removal() {
        let outcomes = [answer::DONE, answer::NOT_ADMISSIBLE, answer::NONE_BETTER];
        for (closed, rows) in [(true, 54), (false, 53)] {
            for version in [PLAIN, MARKED] {
                let longest = |patch: &Patch, edge: Option<Site>| {
                    let full = patch.rows.len() == rows && patch.version == version;
                    full && has(edge, closed, LONGEST_RING)
                };
                assert_eq!(answers(longest, is_remove), BTreeSet::from(outcomes));
            }
        }
    }

    #[test]
    fn every_outcome_of_a_flip() {
        let outcomes = BTreeSet::from([answer::DONE, answer::NOT_ADMISSIBLE]);
        for version in [PLAIN, MARKED] {
            let has_rows =
                |patch: &Patch, rows: usize| patch.version == version && patch.rows.len() == rows;
            let three =
                |patch: &Patch, edge: Option<Site>| has_rows(patch, 60) && has(edge, true, 3);
            assert_eq!(answers(three, |call| flips(call, 2)), outcomes);
            let with_room = |patch: &Patch, _: Option<Site>| has_rows(patch, 59);
            assert_eq!(answers(with_room, |call| flips(call, 3)), outcomes);
        }
        let refused = BTreeSet::from([answer::NOT_TWO_OR_THREE]);
        assert_eq!(answers(|_, _| true, |call| flips(call, 4)), refused);
    }

    /// A mark on the shell comes into a new row.
    #[test]
    fn marks_are_handed_on() {
        let marks = |block: &[u8]| {
            let rows = open(block).expect("it opens").rows;
            rows.iter().any(|row| row.marks != [false; 4])
        };
        let sites = deep_sites().into_iter();
        let marked = sites.filter(|(block, _)| marks(block));
        let handed_on = marked.filter(|(block, [a, b, _])| {
            let mut out = [0; BLOCK_BYTES];
            kernel::remove(block, [*a, *b], &mut out) == answer::DONE && marks(&out)
        });
        let count = handed_on.count();
        assert!(count > 30, "{count}");
    }

    /// The places i, k, j of the triangles of an accepted removal, as they were written.
    fn triangles(block: &[u8], ends: [usize; 2]) -> Option<(Site, Vec<[usize; 3]>)> {
        let edge = site(&open(block).ok()?, ends[0], ends[1]).ok()?;
        let mut out = [0; BLOCK_BYTES];
        if kernel::remove(block, ends, &mut out) != answer::DONE {
            return None;
        }
        let after = open(&out).ok()?;
        let place = |number: u8| edge.ring.iter().position(|v| *v == number);
        let of_row = |row: &Row| {
            let [_, v, w, x] = row.numbers;
            [v, w, x].map(|number| place(number).map_or(0, |at| at + 1))
        };
        let a_rows = after.rows[edge.kept.len()..].iter().step_by(2);
        let triangles = a_rows.map(of_row).collect();
        Some((edge, triangles))
    }

    #[test]
    fn both_fans_of_a_ring_and_of_a_chain() {
        let at_first: Vec<[usize; 3]> = (3..=10).rev().map(|j| [1, j - 1, j]).collect();
        let at_last: Vec<[usize; 3]> = (1..=8).map(|i| [i, i + 1, 10]).collect();
        let mut fans = BTreeSet::new();
        for (block, [a, b, _]) in deep_sites() {
            let Some((edge, triangles)) = triangles(&block, [a, b]) else {
                continue;
            };
            for (name, fan) in [("at the first point", &at_first), ("at the last", &at_last)] {
                if triangles == *fan {
                    fans.insert((edge.closed, name));
                }
            }
        }
        assert_eq!(fans.len(), 4, "{fans:?}");
    }
}
