//! `cargo run --release --bin cases -- COUNT SEED`: runs seeded cases through the model and prints
//! how often each answer, each ring length and each fine point came.

use compare::arguments::count_and_seed;
use compare::gen::cases;
use compare::tally::Tally;
use std::process::ExitCode;

fn main() -> ExitCode {
    let Some((count, seed)) = count_and_seed() else {
        eprintln!("usage: cases [COUNT [SEED]]");
        return ExitCode::FAILURE;
    };
    let tally = Tally::of(cases(seed, count));
    print!("{tally}");
    for disagreement in tally.disagreements.iter().take(10) {
        println!("{disagreement}");
    }
    match tally.disagreements.is_empty() {
        true => ExitCode::SUCCESS,
        false => ExitCode::FAILURE,
    }
}
