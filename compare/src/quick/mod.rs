//! The kernel as it would be written in Rust for speed: what the benchmark holds it against. Nothing is put on the heap.

mod bits;
mod block;
mod measure;
mod pieces;
mod removal;
mod rim;
mod ring;
mod summary;

pub use block::open;
pub use measure::{less, quality, score, Parts};
pub use removal::{remove, ring_length, top_apex};
pub use summary::summary;
