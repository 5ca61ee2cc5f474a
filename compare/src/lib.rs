//! An independent model of the requirement and the cases to hold a kernel against it.
//!
//! `model` renders docs/REQUIREMENT.md by brute force, written for obviousness. `gen` makes seeded cases,
//! `rivals` are kernels that get one thing wrong, `tally` counts what the cases cover, `vectors` picks the cases that are
//! stored for the program of that name, and `quick` is what the benchmark holds the kernel against. `kernel` is the kernel
//! itself behind its C boundary, `held` holds it to the model and `stack` measures its stack; all three are there if its
//! archive is.

pub mod arguments;
pub mod gen;
#[cfg(kernel)]
pub mod held;
#[cfg(kernel)]
pub mod kernel;
pub mod model;
pub mod quick;
pub mod rivals;
#[cfg(kernel)]
pub mod stack;
pub mod tally;
pub mod vectors;
