//! What rivals compare to find out whether rows have more than one region.

use crate::model::Row;

#[derive(Clone, Copy, Debug, PartialEq, Eq)]
pub enum Compared {
    /// Each row that goes with the next one, which leaves none out.
    EachWithTheNext,
    Nothing,
    TheFirstTwo,
    /// The first with the last.
    TheOuterTwo,
    /// The first with the second, the third with the fourth, and so on.
    TwoByTwo,
    /// Each with the next one, but only the lower four bits.
    LowBits,
    /// Each row of the table with the next one.
    WholeTable,
    /// Each with the next one, the marks too.
    WithMarks,
}

/// Does a rival that compares so see more than one region among the rows that go?
pub fn sees_several(table: &[Row], going: &[Row], compared: Compared) -> bool {
    let differ = |pair: &[Row]| pair[0].region != pair[1].region;
    let low_bits = |pair: &[Row]| pair[0].region % 16 != pair[1].region % 16;
    match compared {
        Compared::EachWithTheNext => going.windows(2).any(differ),
        Compared::Nothing => false,
        Compared::TheFirstTwo => going.windows(2).take(1).any(differ),
        Compared::TheOuterTwo => match going {
            [first, .., last] => differ(&[*first, *last]),
            _ => false,
        },
        Compared::TwoByTwo => going.chunks_exact(2).any(differ),
        Compared::LowBits => going.windows(2).any(low_bits),
        Compared::WholeTable => table.windows(2).any(differ),
        Compared::WithMarks => {
            let byte = |row: &Row| (row.region, row.marks);
            going
                .windows(2)
                .any(|pair| byte(&pair[0]) != byte(&pair[1]))
        }
    }
}
