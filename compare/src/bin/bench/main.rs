//! `compare/archive sumpnewt`, `compare/archive probes`, then `cargo run --release --bin bench`: the kernel beside Rust, in
//! one run, on the same inputs. Both sides are called, never inlined, and write into buffers that are not cleared first.
//!
//! With the argument `picture` the run also draws how a removal's cost grows, into `docs/benchmark-<processor>.svg`. Any
//! other argument is a part of a line's name: the lines whose names have it are measured, and nothing else.

#[cfg(all(kernel, probes))]
mod calls;
#[cfg(all(kernel, probes))]
mod growth;
#[cfg(all(kernel, probes))]
mod inputs;
#[cfg(all(kernel, probes))]
mod lines;
#[cfg(all(kernel, probes))]
mod machine;
#[cfg(all(kernel, probes))]
mod picture;
#[cfg(all(kernel, probes))]
mod probes;
#[cfg(all(kernel, probes))]
mod report;
#[cfg(all(kernel, probes))]
mod timing;

use std::process::ExitCode;

#[cfg(all(kernel, probes))]
fn main() -> ExitCode {
    let arguments: Vec<String> = std::env::args().skip(1).collect();
    let outcome = match arguments.as_slice() {
        [] => report::whole().map(drop),
        [word] if word == "picture" => report::whole().and_then(|growth| growth.draw()),
        [part] => report::lines_with(part),
        _ => Err("usage: bench [picture | PART OF A NAME]".to_string()),
    };
    match outcome {
        Ok(()) => ExitCode::SUCCESS,
        Err(what) => {
            eprintln!("bench: {what}");
            ExitCode::FAILURE
        }
    }
}

#[cfg(not(all(kernel, probes)))]
fn main() -> ExitCode {
    eprintln!("bench: no archives: run compare/archive sumpnewt and compare/archive probes");
    ExitCode::FAILURE
}
