//! Removal of one edge: answers 1 to 16, 19, 20, 22 and 23.

use super::answer;
use super::block::{open, Patch};
use super::limits::{BLOCK_BYTES, LONGEST_RING, MAX_ROWS, SHORTEST_RING};
use super::measure::{determinant, PageRow, Quality};
use super::mesh::Row;
use super::pieces::Pieces;
use super::ring::{site, Site};
use super::shown::shown_row;
use super::summary::worst_row;
use super::triangulations::new_rows;

/// What comes with answer 0 of a removal.
#[derive(Clone, Debug, PartialEq)]
pub struct Removal {
    pub ring: Vec<u8>,
    pub new_rows: Vec<Row>,
    pub page: PageRow,
    pub before: Patch,
    pub after: Patch,
}

/// Removes the edge and writes the block afterwards, or refuses and leaves `out` as it came.
pub fn remove(block: &[u8], a: usize, b: usize, out: &mut [u8]) -> Result<Removal, u32> {
    if block.len() != BLOCK_BYTES || out.len() != BLOCK_BYTES {
        return Err(answer::LENGTH);
    }
    let removal = removal(open(block)?, a, b)?;
    out.copy_from_slice(&removal.after.to_bytes());
    Ok(removal)
}

/// The removal from an opened patch: answers 9 to 16, 19, 20 and 23.
pub fn removal(before: Patch, a: usize, b: usize) -> Result<Removal, u32> {
    let site = removable_site(&before, a, b)?;
    let pieces = Pieces::of(&before, &site);
    let Some(best) = pieces.best(1, site.m()) else {
        return Err(answer::NOT_ADMISSIBLE);
    };
    if best.worst <= worst_removed(&before, &site) {
        return Err(answer::NONE_BETTER);
    }
    let new = new_rows(&site, &pieces.chosen(1, site.m()));
    let after = site.patch_after(&before, &new);
    Ok(Removal {
        new_rows: after.rows[site.kept.len()..].to_vec(),
        page: PageRow {
            before: shown_worst(&before),
            after: shown_worst(&after),
        },
        ring: site.ring,
        before,
        after,
    })
}

/// The site of the edge, or the first of the answers 9 to 13, 19, 20, 23 and 14.
pub fn removable_site(patch: &Patch, a: usize, b: usize) -> Result<Site, u32> {
    let site = site(patch, a, b)?;
    if !(SHORTEST_RING..=LONGEST_RING).contains(&site.m()) {
        return Err(answer::RING_LENGTH);
    }
    if !site.closed && !is_flat(patch, &site) {
        return Err(answer::NOT_FLAT);
    }
    if site.region.is_none() {
        return Err(answer::TWO_REGIONS);
    }
    if site.a_mark_goes() {
        return Err(answer::MARK_GOES);
    }
    let triangles = site.m() - 2;
    if site.kept.len() + 2 * triangles > MAX_ROWS {
        return Err(answer::ROOM);
    }
    Ok(site)
}

/// "D(a,b,v1,vm) is 0".
pub fn is_flat(patch: &Patch, site: &Site) -> bool {
    let outer = [site.a, site.b, site.v(1), site.v(site.m())];
    determinant(outer.map(|number| patch.points[usize::from(number)])) == 0
}

/// The quality that a replacement has to be better than: that of the worst removed row.
pub fn worst_removed(patch: &Patch, site: &Site) -> Quality {
    let qualities = site
        .removed
        .iter()
        .map(|row| Quality::of(patch.corners(row)));
    qualities.min().expect("an edge that is held has rows")
}

/// "Worst is taken over all rows of the patch"; a removal has rows before and after.
fn shown_worst(patch: &Patch) -> f64 {
    shown_row(patch, worst_row(patch).expect("the patch has rows"))
}
