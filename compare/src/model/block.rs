//! "The patch block, 512 bytes": opening and sealing.

use super::answer;
use super::limits::*;
use super::measure::{Corners, Point};
use super::mesh::{a_face_stands_twice, marks_disagree, numbers_are_good, Row};

/// The fields of a block.
#[derive(Clone, Debug, PartialEq, Eq)]
pub struct Patch {
    /// 1, or 2 with marks.
    pub version: u8,
    pub points: Vec<Point>,
    pub rows: Vec<Row>,
}

impl Patch {
    /// The four points of a row.
    pub fn corners(&self, row: &Row) -> Corners {
        row.numbers.map(|number| self.points[usize::from(number)])
    }

    /// The first 508 bytes. "Bytes of points and rows beyond the counts are zero."
    pub fn to_fields(&self) -> [u8; FIELD_BYTES] {
        let mut fields = [0; FIELD_BYTES];
        fields[VERSION_AT] = self.version;
        fields[POINT_COUNT_AT] = self.points.len() as u8;
        fields[ROW_COUNT_AT] = self.rows.len() as u8;
        for (number, point) in self.points.iter().enumerate() {
            let at = POINTS_AT + POINT_BYTES * number;
            fields[at..at + POINT_BYTES].copy_from_slice(point);
        }
        for (index, row) in self.rows.iter().enumerate() {
            let at = ROWS_AT + ROW_BYTES * index;
            fields[at..at + 4].copy_from_slice(&row.numbers);
            fields[at + 4] = region_byte(self.version, row);
        }
        fields
    }

    /// The whole block, with its sums.
    pub fn to_bytes(&self) -> [u8; BLOCK_BYTES] {
        with_sums(&self.to_fields())
    }
}

/// The last byte of a row.
fn region_byte(version: u8, row: &Row) -> u8 {
    let marked = MARK_BITS.into_iter().zip(row.marks).filter(|(_, on)| *on);
    let marks: u8 = marked.map(|(bit, _)| bit).sum();
    match version {
        PLAIN => {
            assert_eq!(marks, 0, "version 1 has no marks");
            row.region
        }
        _ => {
            assert!(row.region <= REGION_BITS, "a region of version 2");
            row.region + marks
        }
    }
}

/// A row of a block of this version.
pub fn row_of(version: u8, bytes: &[u8]) -> Row {
    let numbers = [bytes[0], bytes[1], bytes[2], bytes[3]];
    match version {
        PLAIN => Row::plain(numbers, bytes[4]),
        _ => Row {
            numbers,
            region: bytes[4] & REGION_BITS,
            marks: MARK_BITS.map(|bit| bytes[4] & bit != 0),
        },
    }
}

/// "Both sums start at 0 and wrap at 65,536. For bytes 0 to 507 in order, the byte is added to the
/// first sum, and then the first sum to the second."
pub fn sums(fields: &[u8]) -> (u16, u16) {
    let (mut first, mut second) = (0u16, 0u16);
    for byte in fields {
        first = first.wrapping_add(u16::from(*byte));
        second = second.wrapping_add(first);
    }
    (first, second)
}

/// "508, 509: first sum, low byte first; 510, 511: second sum, low byte first".
pub fn with_sums(fields: &[u8; FIELD_BYTES]) -> [u8; BLOCK_BYTES] {
    let (first, second) = sums(fields);
    let mut block = [0; BLOCK_BYTES];
    block[..FIELD_BYTES].copy_from_slice(fields);
    block[FIELD_BYTES..FIELD_BYTES + 2].copy_from_slice(&first.to_le_bytes());
    block[FIELD_BYTES + 2..].copy_from_slice(&second.to_le_bytes());
    block
}

/// Opens a block: its fields, or the first of the answers 1 to 8 and 22.
pub fn open(block: &[u8]) -> Result<Patch, u32> {
    let Ok(block): Result<&[u8; BLOCK_BYTES], _> = block.try_into() else {
        return Err(answer::LENGTH);
    };
    let fields: &[u8; FIELD_BYTES] = block.first_chunk().expect("a block has its fields");
    if with_sums(fields) != *block {
        return Err(answer::SUM);
    }
    read(fields)
}

/// "Sealing takes the first 508 bytes and writes the block, or refuses with 1 or 3 to 8", or 22.
pub fn seal(fields: &[u8], out: &mut [u8]) -> u32 {
    let Ok(fields): Result<&[u8; FIELD_BYTES], _> = fields.try_into() else {
        return answer::LENGTH;
    };
    if out.len() != BLOCK_BYTES {
        return answer::LENGTH;
    }
    match read(fields) {
        Ok(_) => {
            out.copy_from_slice(&with_sums(fields));
            answer::DONE
        }
        Err(number) => number,
    }
}

/// The fields in the first 508 bytes, or the first of the answers 3 to 8 and 22.
fn read(fields: &[u8; FIELD_BYTES]) -> Result<Patch, u32> {
    let version = fields[VERSION_AT];
    if ![PLAIN, MARKED].contains(&version) {
        return Err(answer::VERSION);
    }
    let point_count = usize::from(fields[POINT_COUNT_AT]);
    let row_count = usize::from(fields[ROW_COUNT_AT]);
    if point_count > MAX_POINTS || row_count > MAX_ROWS {
        return Err(answer::COUNT);
    }
    let points_end = POINTS_AT + POINT_BYTES * point_count;
    let rows_end = ROWS_AT + ROW_BYTES * row_count;
    let idle = [
        ZEROS_AT..POINTS_AT,
        points_end..ROWS_AT,
        rows_end..FIELD_BYTES,
    ];
    if idle.into_iter().flatten().any(|at| fields[at] != 0) {
        return Err(answer::NOT_ZERO);
    }
    let points: Vec<Point> = fields[POINTS_AT..points_end]
        .chunks_exact(POINT_BYTES)
        .map(|bytes| [bytes[0], bytes[1], bytes[2]])
        .collect();
    let rows: Vec<Row> = fields[ROWS_AT..rows_end]
        .chunks_exact(ROW_BYTES)
        .map(|bytes| row_of(version, bytes))
        .collect();
    if !rows
        .iter()
        .all(|row| numbers_are_good(row.numbers, point_count))
    {
        return Err(answer::ROW);
    }
    if a_face_stands_twice(&rows) {
        return Err(answer::FACE_TWICE);
    }
    if marks_disagree(&rows) {
        return Err(answer::MARKS_DISAGREE);
    }
    Ok(Patch {
        version,
        points,
        rows,
    })
}
