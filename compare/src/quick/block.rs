//! Opening a block: the tests of all its rows side by side, and a filter of bits for faces that stand twice.

use crate::model::answer;
use crate::model::limits::*;
use crate::model::Point;

/// A row as it stands in the block.
pub type RowBytes = [u8; ROW_BYTES];

/// The place of the region in a row, and there the bit of the first face's mark.
pub const REGION_AT: usize = ROW_BYTES - 1;
pub const FIRST_MARK: u8 = 4;

/// A one in each byte of a word.
pub const EACH_BYTE: u32 = 0x0101_0101;

/// The points and rows of a block, where they stand, and which bits of a row's last byte are its region; the others are marks.
#[derive(Clone, Copy)]
pub struct Fields<'a> {
    pub region_bits: u8,
    pub count: usize,
    /// The points, and idle ones behind them.
    pub points: &'a [Point; MAX_POINTS],
    pub rows: &'a [RowBytes],
}

impl Fields<'_> {
    /// The point of a number that a row has.
    #[inline]
    pub fn point(&self, number: u8) -> Point {
        self.points[usize::from(number) % MAX_POINTS]
    }

    /// The marks of a row, that of its first face in the low bit.
    #[inline]
    pub fn marks(&self, row: &RowBytes) -> u8 {
        (row[REGION_AT] & !self.region_bits) >> FIRST_MARK
    }
}

/// The four numbers of a row.
#[inline]
pub fn numbers([p, q, r, s, _]: &RowBytes) -> [u8; 4] {
    [*p, *q, *r, *s]
}

/// The four numbers of a row as one word, the first in its low byte.
#[inline]
pub fn word(row: &RowBytes) -> u32 {
    u32::from_le_bytes(numbers(row))
}

/// The answer of opening a block.
#[inline(never)]
pub fn open(block: &[u8]) -> u32 {
    let Ok(block) = block.try_into() else {
        return answer::LENGTH;
    };
    match opened(block) {
        Ok(_) => answer::DONE,
        Err(number) => number,
    }
}

/// The fields, or the first of the answers 2 to 8 and 22.
#[inline]
pub fn opened(block: &[u8; BLOCK_BYTES]) -> Result<Fields<'_>, u32> {
    let (fields, sums) = block.split_at(FIELD_BYTES);
    if sums != sum_bytes(fields) {
        return Err(answer::SUM);
    }
    let region_bits = match fields[VERSION_AT] {
        PLAIN => u8::MAX,
        MARKED => REGION_BITS,
        _ => return Err(answer::VERSION),
    };
    let count = usize::from(fields[POINT_COUNT_AT]);
    let row_count = usize::from(fields[ROW_COUNT_AT]);
    if count > MAX_POINTS || row_count > MAX_ROWS {
        return Err(answer::COUNT);
    }
    let (points, _) = fields[POINTS_AT..ROWS_AT].as_chunks();
    let (rows, _) = fields[ROWS_AT..].as_chunks();
    let (rows, idle_rows) = rows.split_at(row_count);
    let idle_points = points[count..].as_flattened();
    let idle = any_bit(idle_points) | any_bit(idle_rows.as_flattened());
    if idle | any_bit(&fields[ZEROS_AT..POINTS_AT]) {
        return Err(answer::NOT_ZERO);
    }
    let fields = Fields {
        region_bits,
        count,
        points: points.first_chunk().ok_or(answer::LENGTH)?,
        rows,
    };
    check_rows(fields)?;
    Ok(fields)
}

/// The sums of a block, made anew.
pub fn seal(block: &mut [u8; BLOCK_BYTES]) {
    let (fields, sums) = block.split_at_mut(FIELD_BYTES);
    sums.copy_from_slice(&sum_bytes(fields));
}

/// Each byte is in the first sum once, and in the second as often as there are bytes from it to the end.
#[inline(never)]
fn sum_bytes(fields: &[u8]) -> [u8; 4] {
    let (mut first, mut second) = (0u16, 0u16);
    for (i, byte) in fields.iter().enumerate() {
        let byte = u16::from(*byte);
        first = first.wrapping_add(byte);
        second = second.wrapping_add(byte.wrapping_mul((FIELD_BYTES - i) as u16));
    }
    let ([a, b], [c, d]) = (first.to_le_bytes(), second.to_le_bytes());
    [a, b, c, d]
}

/// All bytes are looked at, which takes less than stopping at the first.
fn any_bit(bytes: &[u8]) -> bool {
    bytes.iter().fold(0, |bits, byte| bits | byte) != 0
}

/// The mesh rule: the numbers of rows (7), no directed face twice (8); and one mark for both directions (22).
fn check_rows(fields: Fields) -> Result<(), u32> {
    let mark_bits = !fields.region_bits;
    let mut keys = [[0; MAX_ROWS]; 4];
    if !write_keys(fields.rows, mark_bits, fields.count, &mut keys) {
        return Err(answer::ROW);
    }
    let keys = keys.each_ref().map(|keys| &keys[..fields.rows.len()]);
    if any_twice(keys) {
        return Err(answer::FACE_TWICE);
    }
    if mark_bits != 0 && !marks_agree(keys) {
        return Err(answer::MARKS_DISAGREE);
    }
    Ok(())
}

/// The key of each face of each row: its numbers in order, its direction and its mark. False if the numbers of a row are not
/// below the count, or not apart. The last loop has no way out, and arrays alone, so that several rows are done at once.
#[inline(never)]
fn write_keys(rows: &[RowBytes], mark_bits: u8, count: usize, keys: &mut Keys) -> bool {
    let mut words = [0; MAX_ROWS];
    let mut marks = [0; MAX_ROWS];
    for (place, row) in words.iter_mut().zip(rows) {
        *place = word(row);
    }
    if mark_bits != 0 {
        for (place, row) in marks.iter_mut().zip(rows) {
            *place = i32::from((row[REGION_AT] & mark_bits) >> FIRST_MARK);
        }
    }
    let [of_p, of_q, of_r, of_s] = keys;
    let mut bad = false;
    for i in 0..rows.len().min(MAX_ROWS) {
        // A number, with the mark of the face opposite to it as the low bit.
        let number = |t: u32| (words[i] >> (8 * t) & 0xff) as i32;
        let corner = |t: u32| number(t) << 1 | marks[i] >> t & 1;
        let (p, q, turned_pq) = ordered(corner(0), corner(1));
        let (r, s, turned_rs) = ordered(corner(2), corner(3));
        let (p, r, turned_pr) = ordered(p, r);
        let (q, s, turned_qs) = ordered(q, s);
        let (q, r, turned_qr) = ordered(q, r);
        let odd = (turned_pq ^ turned_rs ^ turned_pr ^ turned_qs ^ turned_qr) & 2;
        let [mark_p, mark_q, mark_r, mark_s] = [p, q, r, s].map(|corner| corner & 1);
        let [p, q, r, s] = [p, q, r, s].map(|corner| corner >> 1);
        bad |= (p == q) | (q == r) | (r == s) | (s >= count as i32);
        of_p[i] = (q << 14 | r << 8 | s << 2 | odd | mark_p) as u32;
        of_q[i] = (p << 14 | r << 8 | s << 2 | odd ^ 2 | mark_q) as u32;
        of_r[i] = (p << 14 | q << 8 | s << 2 | odd | mark_r) as u32;
        of_s[i] = (p << 14 | q << 8 | r << 2 | odd ^ 2 | mark_s) as u32;
    }
    !bad
}

/// The lesser, the larger, and all bits if they were the other way round.
#[inline]
fn ordered(x: i32, y: i32) -> (i32, i32, i32) {
    let turned = -i32::from(x > y);
    let differ = (x ^ y) & turned;
    (x ^ differ, y ^ differ, turned)
}

/// The keys of the faces of all rows, those opposite to the first corner of each row, to the second, and so on.
type Keys = [[u32; MAX_ROWS]; 4];

/// Numbers that may have been put in, by one bit each.
struct Filter {
    words: [u64; 1 << 8],
}

impl Filter {
    const EMPTY: Filter = Filter { words: [0; 1 << 8] };

    /// The word of a number and the bit in it, by the top 14 bits of a product.
    #[inline]
    fn place(number: u32) -> (usize, u32) {
        let hash = number.wrapping_mul(0x9E37_79B1) >> 18;
        ((hash >> 6) as usize, hash & 63)
    }

    /// Puts in a number if asked to, and says whether it may have been in.
    #[inline]
    fn put(&mut self, number: u32, really: bool) -> bool {
        let (place, bit) = Filter::place(number);
        let word = self.words[place];
        self.words[place] = word | u64::from(really) << bit;
        word >> bit & 1 == 1
    }

    /// In the low bit, whether a number may have been put in.
    #[inline]
    fn get(&self, number: u32) -> u32 {
        let (place, bit) = Filter::place(number);
        (self.words[place] >> bit) as u32
    }
}

/// Whether two keys differ in nothing but their marks.
#[inline(never)]
fn any_twice(keys: [&[u32]; 4]) -> bool {
    let mut met = Filter::EMPTY;
    for of_corner in keys {
        for key in of_corner {
            let face = key >> 1;
            if met.put(face, true) && count(keys, face) > 1 {
                return true;
            }
        }
    }
    false
}

/// How many keys are of the directed face.
#[cold]
#[inline(never)]
fn count(keys: [&[u32]; 4], face: u32) -> usize {
    let of_corner = |keys: &[u32]| keys.iter().filter(|key| **key >> 1 == face).count();
    keys.into_iter().map(of_corner).sum()
}

/// Whether no face that is marked in one direction is there without its mark in the other; no directed face is there twice.
#[inline(never)]
fn marks_agree(keys: [&[u32]; 4]) -> bool {
    let mut marked = Filter::EMPTY;
    for of_corner in keys {
        for key in of_corner {
            marked.put(key >> 2, key & 1 == 1);
        }
    }
    for of_corner in keys {
        for key in of_corner {
            let may_differ = marked.get(key >> 2) & !key & 1;
            if may_differ == 1 && stands(keys, key ^ 3) {
                return false;
            }
        }
    }
    true
}

/// Whether the key is there.
#[cold]
#[inline(never)]
fn stands(keys: [&[u32]; 4], key: u32) -> bool {
    keys.into_iter().any(|keys| keys.contains(&key))
}
