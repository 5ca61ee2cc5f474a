//! "Orientation, faces and the mesh rule".

use super::limits::MAX_POINTS;

/// Point numbers of a row.
pub type Numbers = [u8; 4];
/// Three point numbers with a direction; turning them round in a circle gives the same face.
pub type Face = [u8; 3];

/// "four point numbers, then the region", and the mark of each face in the order of `faces`: none in version 1.
#[derive(Clone, Copy, Debug, PartialEq, Eq, PartialOrd, Ord, Hash)]
pub struct Row {
    pub numbers: Numbers,
    pub region: u8,
    pub marks: [bool; 4],
}

impl Row {
    /// A row without a mark.
    pub fn plain(numbers: Numbers, region: u8) -> Row {
        Row {
            numbers,
            region,
            marks: [false; 4],
        }
    }

    /// The row with its places in another order, each mark beside the number that its face lies opposite to.
    pub fn arranged(&self, places: [usize; 4]) -> Row {
        Row {
            numbers: places.map(|place| self.numbers[place]),
            region: self.region,
            marks: places.map(|place| self.marks[place]),
        }
    }

    /// The directed faces of the row that are marked.
    pub fn marked_faces(&self) -> impl Iterator<Item = Face> {
        let with_marks = faces(self.numbers).into_iter().zip(self.marks);
        with_marks
            .filter(|(_, marked)| *marked)
            .map(|(face, _)| face)
    }

    /// Does the row hold all of these points?
    pub fn holds(&self, points: &[u8]) -> bool {
        points.iter().all(|point| self.numbers.contains(point))
    }
}

/// The region that all of these rows have; none where there is more than one.
pub fn region_of(rows: &[Row]) -> Option<u8> {
    (0..=u8::MAX).find(|region| rows.iter().all(|row| row.region == *region))
}

/// The twelve even rearrangements of four places.
pub const EVEN: [[usize; 4]; 12] = [
    [0, 1, 2, 3],
    [0, 2, 3, 1],
    [0, 3, 1, 2],
    [1, 0, 3, 2],
    [1, 2, 0, 3],
    [1, 3, 2, 0],
    [2, 0, 1, 3],
    [2, 1, 3, 0],
    [2, 3, 0, 1],
    [3, 0, 2, 1],
    [3, 1, 0, 2],
    [3, 2, 1, 0],
];

/// Every even rearrangement of a row's four numbers.
pub fn even_arrangements(numbers: Numbers) -> impl Iterator<Item = Numbers> {
    EVEN.iter()
        .map(move |places| places.map(|place| numbers[place]))
}

/// "Row (p,q,r,s) has the directed faces (q,r,s), (p,s,r), (p,q,s), (p,r,q)".
pub fn faces([p, q, r, s]: Numbers) -> [Face; 4] {
    [[q, r, s], [p, s, r], [p, q, s], [p, r, q]]
}

/// "turning a face's three numbers round in a circle gives the same face": smallest first.
pub fn turned([p, q, r]: Face) -> Face {
    if p < q && p < r {
        [p, q, r]
    } else if q < r {
        [q, r, p]
    } else {
        [r, p, q]
    }
}

/// The same three points in the other direction.
pub fn back([p, q, r]: Face) -> Face {
    [p, r, q]
}

/// The mark that a directed face has in these rows, if it stands in one of them.
pub fn mark_of(rows: &[Row], face: Face) -> Option<bool> {
    let in_row = |row: &Row| {
        let with_marks = faces(row.numbers).into_iter().zip(row.marks);
        let mut same = with_marks.filter(|(own, _)| turned(*own) == turned(face));
        same.next().map(|(_, marked)| marked)
    };
    let mut holding = rows.iter().filter(|row| row.holds(&face));
    holding.find_map(in_row)
}

/// Does a face stand in two rows, marked in one and not in the other? In a table that keeps the mesh rule the two have it in
/// opposite directions.
pub fn marks_disagree(rows: &[Row]) -> bool {
    let mut marked = rows.iter().flat_map(Row::marked_faces);
    marked.any(|face| mark_of(rows, back(face)) == Some(false))
}

/// Is a face of these rows marked that holds all of these points?
pub fn a_marked_face_holds(rows: &[Row], points: &[u8]) -> bool {
    let mut marked = rows.iter().flat_map(Row::marked_faces);
    marked.any(|face| points.iter().all(|point| face.contains(point)))
}

/// A new row in the place of removed ones: a face that a removed row has takes that row's mark; one that a kept row has the
/// other way round takes the kept row's; every other face has none.
pub fn new_row(numbers: Numbers, region: u8, removed: &[Row], kept: &[Row]) -> Row {
    let marks = faces(numbers).map(|face| {
        let of_removed = mark_of(removed, face);
        let of_kept = mark_of(kept, back(face));
        of_removed.or(of_kept).unwrap_or(false)
    });
    Row {
        numbers,
        region,
        marks,
    }
}

/// "the numbers of a row are below the point count and all different".
pub fn numbers_are_good(numbers: Numbers, point_count: usize) -> bool {
    let below = numbers.iter().all(|n| usize::from(*n) < point_count);
    let different = (0..4).all(|x| (x + 1..4).all(|y| numbers[x] != numbers[y]));
    below && different
}

/// "no directed face stands in two rows", the negation: some directed face does.
/// The numbers of each row are good, so no row has one directed face twice by itself.
pub fn a_face_stands_twice(rows: &[Row]) -> bool {
    let mut seen = FaceSet::empty();
    rows.iter()
        .flat_map(|row| faces(row.numbers))
        .any(|face| !seen.insert(turned(face)))
}

/// The mesh rule of a whole table, from scratch.
pub fn mesh_rule(rows: &[Row], point_count: usize) -> bool {
    rows.iter()
        .all(|row| numbers_are_good(row.numbers, point_count))
        && !a_face_stands_twice(rows)
}

/// A set of directed faces: one bit for each three numbers below the largest point count.
struct FaceSet {
    bits: Vec<u64>,
}

impl FaceSet {
    fn empty() -> FaceSet {
        FaceSet {
            bits: vec![0; MAX_POINTS * MAX_POINTS],
        }
    }

    /// Adds a face; says whether it was absent.
    fn insert(&mut self, [p, q, r]: Face) -> bool {
        let word = &mut self.bits[usize::from(p) * MAX_POINTS + usize::from(q)];
        let absent = *word >> r & 1 == 0;
        *word |= 1 << r;
        absent
    }
}
