//! The arguments that the commands share.

/// COUNT and SEED, 20,000 and 1 where they are not given; none if something else is.
pub fn count_and_seed() -> Option<(u64, u64)> {
    let numbers: Option<Vec<u64>> = std::env::args()
        .skip(1)
        .map(|text| text.parse().ok())
        .collect();
    match numbers?.as_slice() {
        [] => Some((20_000, 1)),
        [count] => Some((*count, 1)),
        [count, seed] => Some((*count, *seed)),
        _ => None,
    }
}
