//! `cargo run --release --bin hold -- COUNT SEED`: holds the kernel to the model on seeded cases, answer and every element.

use std::process::ExitCode;

#[cfg(kernel)]
fn main() -> ExitCode {
    use compare::arguments::count_and_seed;
    use compare::gen::cases;
    use compare::held::Held;

    let Some((count, seed)) = count_and_seed() else {
        eprintln!("usage: hold [COUNT [SEED]]");
        return ExitCode::FAILURE;
    };
    let held = Held::of(cases(seed, count).map(|case| case.call));
    print!("{held}");
    match held.differing.is_empty() {
        true => ExitCode::SUCCESS,
        false => ExitCode::FAILURE,
    }
}

#[cfg(not(kernel))]
fn main() -> ExitCode {
    eprintln!("hold: no archive of the kernel: run compare/archive sumpnewt");
    ExitCode::FAILURE
}
