//! Removal of one edge: answers 1 to 16, 19, 20, 22 and 23, the page row and the block afterwards.

use super::bits::Members;
use super::block::{opened, seal, Fields, RowBytes, FIRST_MARK};
use super::measure::{volume, Measures, Quality};
use super::pieces::{across_stands, any_admissible, stands_marked, Pieces};
use super::rim::{Rim, UsedFaces};
use super::ring::Ring;
use crate::model::answer;
use crate::model::limits::*;
use crate::model::PageRow;

/// An edge with its ring or chain in an opened block.
struct Site<'a> {
    fields: Fields<'a>,
    a: u8,
    b: u8,
    ring: Ring,
}

impl<'a> Site<'a> {
    /// The site of the edge between two points, or the first of the answers 2 to 13, 19 and 22.
    fn of(block: &'a [u8; BLOCK_BYTES], end: usize, other_end: usize) -> Result<Site<'a>, u32> {
        let fields = opened(block)?;
        let count = fields.count;
        if end >= count || other_end >= count || end == other_end {
            return Err(answer::BAD_NUMBER);
        }
        let (a, b) = (end.min(other_end) as u8, end.max(other_end) as u8);
        let ring = Ring::find(fields, a, b)?;
        let site = Site { fields, a, b, ring };
        match site.ring.closed || site.is_flat() {
            true => Ok(site),
            false => Err(answer::NOT_FLAT),
        }
    }

    /// Whether both ends lie in one plane with v1 and vm.
    fn is_flat(&self) -> bool {
        let ring = self.ring.points();
        let outer = [self.a, self.b, ring[0], ring[ring.len() - 1]];
        volume(outer.map(|number| self.fields.point(number))) == 0
    }

    fn m(&self) -> usize {
        self.ring.points().len()
    }

    /// The used faces, unless they leave no admissible triangulation.
    fn used_faces(&self) -> Option<UsedFaces> {
        let Site {
            fields,
            a,
            b,
            ref ring,
        } = *self;
        let used = UsedFaces::of(fields, a, b, ring);
        let across = !ring.closed && across_stands(fields, a, b, ring.points());
        (!across && any_admissible(&used, self.m())).then_some(used)
    }

    fn rim(&self) -> Rim {
        Rim::of(self.fields, self.a, self.b, self.ring.points())
    }

    /// Whether there is room for the rows afterwards.
    fn has_room(&self) -> bool {
        let m = self.m();
        let going = match self.ring.closed {
            true => m,
            false => m - 1,
        };
        self.fields.rows.len() - going + 2 * (m - 2) <= MAX_ROWS
    }

    /// The rows that stay.
    fn kept(&self) -> u64 {
        !self.ring.rows & ((1 << self.fields.rows.len()) - 1)
    }
}

/// The last bytes of new rows: the region, and the marks of the shell round the edge.
struct Shell {
    region: u8,
    /// The points whose link to the next has a marked face with a, and with b.
    marked: [u64; 2],
    /// Whether the faces of the side from vm to v1 are marked.
    closing: [bool; 2],
}

impl Shell {
    /// The faces of a chain's closing side are marked if they are in the row across.
    fn of(site: &Site, region: u8) -> Shell {
        let Site { fields, a, b, ring } = site;
        let points = ring.points();
        let (v1, vm) = (points[0], points[points.len() - 1]);
        let closing = match ring.closed {
            true => ring.marked.map(|marked| marked >> vm & 1 == 1),
            false => [[*a, vm, v1], [*b, v1, vm]].map(|face| stands_marked(*fields, face)),
        };
        Shell {
            region,
            marked: ring.marked,
            closing,
        }
    }

    /// The last bytes of the a-row and the b-row of a triangle.
    fn bytes(&self, ring: &[u8], [i, k, j]: [usize; 3]) -> [u8; 2] {
        let whole = i == 0 && j == ring.len() - 1;
        let of_end = |end: usize| {
            let side =
                |from: usize, to: usize| to == from + 1 && self.marked[end] >> ring[from] & 1 == 1;
            let opposite = [side(k, j), whole && self.closing[end], side(i, k)];
            let bits = opposite.map(u8::from);
            bits[0] | bits[1] << 1 | bits[2] << 2
        };
        // In a's row the triangle lies opposite to the first number, in b's to the last.
        let marks = [of_end(0) << 1, of_end(1)];
        marks.map(|marks| self.region | marks << FIRST_MARK)
    }
}

/// The worst of some rows, of equals the first.
#[derive(Clone, Copy)]
struct Worst {
    quality: Quality,
    row: usize,
}

impl Worst {
    #[inline(never)]
    fn of(measures: &Measures, rows: u64) -> Worst {
        let mut worst = Worst {
            quality: Quality::INFINITE,
            row: 0,
        };
        for row in Members(rows) {
            let quality = measures.quality(row);
            if quality.worse(worst.quality) {
                worst = Worst { quality, row };
            }
        }
        worst
    }

    /// The worse of both, of equals that of the earlier row: equal fractions may be shown as two f64.
    fn worse_of(self, other: Worst) -> Quality {
        match self.row < other.row {
            true => self.quality.worse_of(other.quality),
            false => other.quality.worse_of(self.quality),
        }
    }
}

/// Removes the edge and writes the block afterwards, or refuses and leaves `out` as it came.
#[inline(never)]
pub fn remove(block: &[u8], end: usize, other_end: usize, out: &mut [u8]) -> Result<PageRow, u32> {
    let (Ok(block), Ok(out)) = (block.try_into(), out.try_into()) else {
        return Err(answer::LENGTH);
    };
    let site = Site::of(block, end, other_end)?;
    let region = site.ring.region.ok_or(answer::TWO_REGIONS)?;
    if site.ring.mark_goes {
        return Err(answer::MARK_GOES);
    }
    if !site.has_room() {
        return Err(answer::ROOM);
    }
    let m = site.m();
    let used = site.used_faces().ok_or(answer::NOT_ADMISSIBLE)?;
    let rim = site.rim();
    let pieces = Pieces::above(rim.worst_removed(m, site.ring.closed), &rim, &used, m);
    let best = pieces.best(0, m - 1).ok_or(answer::NONE_BETTER)?;
    write(block, &site, &Shell::of(&site, region), &pieces, out);
    let measures = Measures::of(site.fields);
    let [removed, kept] = [site.ring.rows, site.kept()].map(|rows| Worst::of(&measures, rows));
    Ok(PageRow {
        before: kept.worse_of(removed).shown(),
        after: kept.quality.worse_of(best).shown(),
    })
}

/// The block afterwards: kept rows, new rows, zeros, sums.
#[inline(never)]
fn write(
    block: &[u8; BLOCK_BYTES],
    site: &Site,
    shell: &Shell,
    pieces: &Pieces,
    out: &mut [u8; BLOCK_BYTES],
) {
    out[..ROWS_AT].copy_from_slice(&block[..ROWS_AT]);
    let (table, _) = out[ROWS_AT..FIELD_BYTES].as_chunks_mut();
    let mut rows = Rows { count: 0, table };
    for row in Members(site.kept()) {
        rows.push(site.fields.rows[row]);
    }
    rows.push_piece(site, shell, pieces, 0, site.m() - 1);
    let count = rows.count;
    rows.table[count..].fill([0; ROW_BYTES]);
    out[ROW_COUNT_AT] = count as u8;
    seal(out);
}

/// The table of a block that is written, row after row.
struct Rows<'a> {
    count: usize,
    table: &'a mut [RowBytes],
}

impl Rows<'_> {
    #[inline]
    fn push(&mut self, row: RowBytes) {
        self.table[self.count] = row;
        self.count += 1;
    }

    /// The two rows of the triangle of piece (i,j), then those of the piece (i,k), then of (k,j). Neighbours have none.
    fn push_piece(&mut self, site: &Site, shell: &Shell, pieces: &Pieces, i: usize, j: usize) {
        if j == i + 1 {
            return;
        }
        let k = pieces.apex(i, j);
        let ring = site.ring.points();
        let (x, y, z) = (ring[i], ring[k], ring[j]);
        let [of_a, of_b] = shell.bytes(ring, [i, k, j]);
        self.push([site.a, x, y, z, of_a]);
        self.push([x, y, z, site.b, of_b]);
        self.push_piece(site, shell, pieces, i, k);
        self.push_piece(site, shell, pieces, k, j);
    }
}

/// The length of the ring or the flat chain round an edge; 0 where there is none.
#[inline(never)]
pub fn ring_length(block: &[u8], end: usize, other_end: usize) -> u64 {
    let block = block.try_into().ok();
    let site = block.and_then(|block| Site::of(block, end, other_end).ok());
    site.map_or(0, |site| site.m() as u64)
}

/// Its apex, counted from 1, by the table of its pieces; 0 where there is none.
#[inline(never)]
pub fn top_apex(block: &[u8], end: usize, other_end: usize) -> u64 {
    let block = block.try_into().ok();
    let site = block.and_then(|block| Site::of(block, end, other_end).ok());
    let apex = site.and_then(|site| {
        let used = site.used_faces()?;
        let pieces = Pieces::above(Quality::NONE, &site.rim(), &used, site.m());
        Some(pieces.apex(0, site.m() - 1) as u64 + 1)
    });
    apex.unwrap_or(0)
}
