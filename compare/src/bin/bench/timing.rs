//! Both sides called with the same inputs, round after round in turns.

use std::hint::black_box;
use std::time::{Duration, Instant};

/// Rounds are short and many, so that in most of them nothing else ran on the processor, and go on through the inputs,
/// so that no branch is learnt by heart.
const ROUNDS: usize = 1001;
const ROUND: Duration = Duration::from_micros(100);
const MOST_CALLS: usize = 500;

/// The calls before the rounds, of which the quickest says how many a round has time for.
const TRIALS: usize = 5;

/// What a call takes on each side.
#[derive(Clone, Copy)]
pub struct Times {
    /// Nanoseconds a call, the median of the rounds.
    pub kernel: f64,
    pub rust: f64,
    /// Both sides gave the same answers.
    pub agree: bool,
}

/// The nanoseconds a call of each round, and what the answers add up to.
#[derive(Default)]
struct Side {
    rounds: Vec<f64>,
    checksum: u64,
}

impl Side {
    /// The nanoseconds a call of one round.
    fn timed<I>(&mut self, inputs: &[I], call: &mut impl FnMut(&I) -> u64) -> f64 {
        let start = Instant::now();
        let mut checksum = self.checksum;
        for input in inputs {
            checksum = checksum.rotate_left(5) ^ call(black_box(input));
        }
        self.checksum = black_box(checksum);
        let nanoseconds = start.elapsed().as_nanos() as f64;
        nanoseconds / inputs.len() as f64
    }

    fn round<I>(&mut self, inputs: &[I], call: &mut impl FnMut(&I) -> u64) {
        let round = self.timed(inputs, call);
        self.rounds.push(round);
    }

    /// A round of what the first call does beyond the second.
    fn round_beyond<I>(&mut self, inputs: &[I], [all, less]: &mut [fn(&I) -> u64; 2]) {
        let round = self.timed(inputs, all) - self.timed(inputs, less);
        self.rounds.push(round);
    }

    fn median(mut self) -> f64 {
        self.rounds.sort_by(f64::total_cmp);
        self.rounds[self.rounds.len() / 2]
    }
}

impl Times {
    pub fn of<I>(
        inputs: &[I],
        mut on_kernel: impl FnMut(&I) -> u64,
        mut on_rust: impl FnMut(&I) -> u64,
    ) -> Times {
        let [mut kernel, mut rust] = [Side::default(), Side::default()];
        for part in rounds(inputs, &mut on_kernel) {
            kernel.round(part, &mut on_kernel);
            rust.round(part, &mut on_rust);
        }
        Times::medians(kernel, rust)
    }

    /// What the first call of each side does beyond the second.
    pub fn beyond<I>(
        inputs: &[I],
        mut on_kernel: [fn(&I) -> u64; 2],
        mut on_rust: [fn(&I) -> u64; 2],
    ) -> Times {
        let [mut kernel, mut rust] = [Side::default(), Side::default()];
        for part in rounds(inputs, &mut on_kernel[0]) {
            kernel.round_beyond(part, &mut on_kernel);
            rust.round_beyond(part, &mut on_rust);
        }
        Times::medians(kernel, rust)
    }

    fn medians(kernel: Side, rust: Side) -> Times {
        Times {
            agree: kernel.checksum == rust.checksum,
            kernel: kernel.median(),
            rust: rust.median(),
        }
    }

    /// How many times as long the kernel takes.
    pub fn ratio(&self) -> f64 {
        self.kernel / self.rust
    }
}

/// The inputs of each round: as many as one round has time for.
fn rounds<'a, I>(
    inputs: &'a [I],
    call: &mut impl FnMut(&I) -> u64,
) -> impl Iterator<Item = &'a [I]> {
    let trials = (0..TRIALS).map(|_| {
        let start = Instant::now();
        black_box(call(black_box(&inputs[0])));
        start.elapsed()
    });
    let quickest = trials.min().expect("there are trials");
    let calls = ROUND.as_nanos() / quickest.as_nanos().max(1);
    let calls = (calls as usize).clamp(1, MOST_CALLS);
    inputs.chunks(calls).cycle().take(ROUNDS)
}
