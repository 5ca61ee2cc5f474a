//! The numbers of the requirement, each once.

/// "The patch block, 512 bytes".
pub const BLOCK_BYTES: usize = 512;
/// "Sealing takes the first 508 bytes"; the four bytes behind them are the two sums.
pub const FIELD_BYTES: usize = 508;
/// "The program takes 514 bytes on standard input: a block, then the two ends."
pub const INPUT_BYTES: usize = BLOCK_BYTES + 2;

/// Byte 0 of a block whose rows have a region of 0 to 255 and no marks.
pub const PLAIN: u8 = 1;
/// Byte 0 of a block whose rows have a region of 0 to 15 and a mark for each face.
pub const MARKED: u8 = 2;
/// Byte 0 is the version.
pub const VERSION_AT: usize = 0;
/// Byte 1: "points".
pub const POINT_COUNT_AT: usize = 1;
/// Byte 2: "rows".
pub const ROW_COUNT_AT: usize = 2;
/// "3 to 15: zero".
pub const ZEROS_AT: usize = 3;
/// "16 to 207: 64 points of 3 bytes".
pub const POINTS_AT: usize = 16;
/// A point is "x, y, z".
pub const POINT_BYTES: usize = 3;
/// "208 to 507: 60 rows of 5 bytes".
pub const ROWS_AT: usize = 208;
/// A row is "four point numbers, then the region", in version 2 with the marks of its faces.
pub const ROW_BYTES: usize = 5;
/// The bits of the region in the last byte of a row of version 2.
pub const REGION_BITS: u8 = 15;
/// The bit there of the mark of each face of a row (p,q,r,s): (q,r,s), (p,s,r), (p,q,s), (p,r,q).
pub const MARK_BITS: [u8; 4] = [16, 32, 64, 128];

/// "points, 0 to 64".
pub const MAX_POINTS: usize = 64;
/// "rows, 0 to 60".
pub const MAX_ROWS: usize = 60;

/// "The quality is 432·D²/S³".
pub const QUALITY_FACTOR: i128 = 432;
/// "the largest n from 0 to 1000"; "otherwise 0".
pub const LEAST_SCORE: u32 = 0;
/// "the largest n from 0 to 1000".
pub const BEST_SCORE: u32 = 1000;
/// "n³·S³ ≤ 10^9·432·D²".
pub const SCORE_SCALE: u128 = 1_000_000_000;

/// "m below 3".
pub const SHORTEST_RING: usize = 3;
/// "or over 10".
pub const LONGEST_RING: usize = 10;
