//! The tally: how many records are held with each letter and each status.

use super::{Desk, CELL};
use crate::reply::{at, INFORMATION, LAST_RECORD, NOT_AVAILABLE, RECORD};

/// One row for each letter of a reply, in the order of `INFORMATION`.
pub const ROWS: usize = INFORMATION.len();

/// One column for each status, in this order.
pub const STATUSES: [u8; COLUMNS] = [RECORD, LAST_RECORD, NOT_AVAILABLE];
pub const COLUMNS: usize = 3;

/// The numbers by row and column. They are plain, so a tally that makes no desk can be held too.
#[derive(Clone, Copy, Debug, PartialEq, Eq)]
pub struct Tally(pub [[u32; COLUMNS]; ROWS]);

impl Default for Tally {
    fn default() -> Self {
        Tally([[0; COLUMNS]; ROWS])
    }
}

impl Tally {
    /// The count over the cells held, whatever the desk's own tally says. A cell with another
    /// letter or status is in no row or column.
    pub fn counted(desk: &Desk) -> Self {
        let mut tally = Tally::default();
        let cells = desk.cells.chunks_exact(CELL).take(desk.below_the_count());
        for cell in cells {
            tally.add_one(cell[at::INFORMATION], cell[at::STATUS]);
        }
        tally
    }

    /// Every place of the table, row by row.
    pub fn places() -> impl Iterator<Item = (usize, usize)> {
        (0..ROWS).flat_map(|row| (0..COLUMNS).map(move |column| (row, column)))
    }

    pub fn number(&self, (row, column): (usize, usize)) -> u32 {
        self.0[row][column]
    }

    pub(super) fn add_one(&mut self, letter: u8, status: u8) {
        if let Some((row, column)) = place(letter, status) {
            self.0[row][column] += 1;
        }
    }
}

/// Row and column of a letter and a status, if both are on their lists.
pub fn place(letter: u8, status: u8) -> Option<(usize, usize)> {
    let row = INFORMATION.iter().position(|&code| code == letter)?;
    let column = STATUSES.iter().position(|&code| code == status)?;
    Some((row, column))
}

#[cfg(test)]
mod tests {
    use super::*;
    use crate::desk::tests::{desk_of, reply};

    #[test]
    fn rows_and_columns_are_in_the_order_of_the_paper() {
        assert_eq!((ROWS, COLUMNS), (33, 3));
        for (letter, row) in [(b'0', 0), (b'9', 9), (b'A', 10), (b'P', 12), (b'a', 13)] {
            assert_eq!(place(letter, b'R'), Some((row, 0)));
        }
        for (letter, row) in [(b'K', 17), (b'R', 18), (b'G', 19), (b'X', 32)] {
            assert_eq!(place(letter, b'E'), Some((row, 1)));
            assert_eq!(place(letter, b'Z'), Some((row, 2)));
        }
    }

    #[test]
    fn only_99_pairs_have_a_place() {
        let pairs = (0..=u8::MAX).flat_map(|letter| (0..=u8::MAX).map(move |code| (letter, code)));
        let mut places: Vec<_> = pairs
            .filter_map(|(letter, status)| place(letter, status))
            .collect();
        places.sort_unstable();
        assert_eq!(places, Tally::places().collect::<Vec<_>>());
        assert_eq!(places.len(), 99);
        for letter in *b"Lt*lbcdqB\0\xff" {
            assert_eq!(place(letter, b'R'), None);
        }
        for status in *b"rezSP \0\xff" {
            assert_eq!(place(b'P', status), None);
        }
    }

    #[test]
    fn cells_below_the_count_are_counted() {
        let mut desk = desk_of(4);
        for (cell, status) in [(0, b'R'), (1, b'Z'), (2, b'R'), (3, b'E')] {
            desk.cells[cell * CELL..][..CELL].copy_from_slice(&reply(status, b'1', 7));
        }
        for (count, numbers) in [
            (0, [0, 0, 0]),
            (1, [1, 0, 0]),
            (3, [2, 0, 1]),
            (4, [2, 1, 1]),
            (5, [2, 1, 1]),
            (u32::MAX, [2, 1, 1]),
        ] {
            desk.count = count;
            let mut expected = Tally::default();
            expected.0[12] = numbers;
            assert_eq!(Tally::counted(&desk), expected);
        }
        // What is no letter and no status is not counted.
        desk.cells[at::INFORMATION] = b'L';
        desk.cells[2 * CELL + at::STATUS] = b'r';
        assert_eq!(Tally::counted(&desk).0[12], [0, 1, 1]);
    }
}
