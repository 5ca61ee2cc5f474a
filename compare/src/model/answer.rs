//! "Numbered answers, tested from the top". The numbers 6 and 17 are unused.

/// Done.
pub const DONE: u32 = 0;
/// A block, or the output block, is not 512 bytes (sealing: input not 508).
pub const LENGTH: u32 = 1;
/// A sum is wrong.
pub const SUM: u32 = 2;
/// The version is neither 1 nor 2.
pub const VERSION: u32 = 3;
/// A count is over its limit.
pub const COUNT: u32 = 4;
/// A byte that must be zero is not.
pub const NOT_ZERO: u32 = 5;
/// A row's number is not below the point count, or repeats.
pub const ROW: u32 = 7;
/// A directed face stands in two rows.
pub const FACE_TWICE: u32 = 8;
/// A face stands in two rows, in one of them marked and in the other not. Tested directly after 8.
pub const MARKS_DISAGREE: u32 = 22;
/// Edge or face number not below the point count, or equal to another.
pub const BAD_NUMBER: u32 = 9;
/// No row holds the edge or face.
pub const NOT_HELD: u32 = 10;
/// The links do not all close and are not one chain (3-2 flip: they do not all close; face: only one row).
pub const OPEN: u32 = 11;
/// More than one closed circle.
pub const CIRCLES: u32 = 12;
/// m below 3 or over 10, counted in points of the ring or the chain (3-2 flip: m not 3).
pub const RING_LENGTH: u32 = 13;
/// Rows afterwards would be over 60.
pub const ROOM: u32 = 14;
/// No admissible triangulation (2-3: the table afterwards would break the mesh rule).
pub const NOT_ADMISSIBLE: u32 = 15;
/// Removal only: none better.
pub const NONE_BETTER: u32 = 16;
/// 2-3 only: both apexes are one point. Tested between 13 and 14.
pub const ONE_APEX: u32 = 18;
/// Removal only: the chain is not flat. Tested between 13 and 14.
pub const NOT_FLAT: u32 = 19;
/// The rows that would go have more than one region. Tested after 13, 18 and 19, before 14.
pub const TWO_REGIONS: u32 = 20;
/// A marked face would go. Tested directly after 20.
pub const MARK_GOES: u32 = 23;
/// Flip only: neither two numbers nor three. Tested between 22 and 9.
pub const NOT_TWO_OR_THREE: u32 = 21;
