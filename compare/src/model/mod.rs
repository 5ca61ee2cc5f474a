//! The requirement (docs/REQUIREMENT.md) by brute force. Every public call says its answer for all inputs.

pub mod answer;
pub mod block;
pub mod call;
pub mod flips;
pub mod limits;
pub mod measure;
pub mod mesh;
pub mod pieces;
pub mod printout;
pub mod removal;
pub mod ring;
pub mod shown;
pub mod summary;
pub mod triangulations;

pub use block::{open, seal, Patch};
pub use call::{run, Call, Outcome};
pub use flips::flip;
pub use measure::{PageRow, Point, Quality, Shown};
pub use mesh::Row;
pub use printout::printout;
pub use removal::{remove, Removal};
pub use shown::shown;
pub use summary::{summary, Summary};
