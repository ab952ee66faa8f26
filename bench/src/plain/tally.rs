//! The tally: how many records are held with each letter and each status.

use super::desk::Label;
use super::refusal::{Refusal, NO_SUCH};
use crate::abi::{Tally, LETTERS, STATUSES};

pub const LETTER_ORDER: &[u8; LETTERS] = b"0123456789AQPaSsTKRGHhIiJjpkugWwX";
pub const STATUS_ORDER: &[u8; STATUSES] = b"REZ";

static ROWS: [u8; 256] = places(LETTER_ORDER);

/// The place of each byte in an order, or the length of the order. A search at each look would take longer.
const fn places<const SIZE: usize>(order: &[u8; SIZE]) -> [u8; 256] {
    let mut places = [SIZE as u8; 256];
    let mut place = 0;
    while place < SIZE {
        places[order[place] as usize] = place as u8;
        place += 1;
    }
    places
}

/// The row of a letter, or LETTERS.
#[inline(always)]
pub fn row_of(letter: u8) -> usize {
    ROWS[usize::from(letter)].into()
}

/// The column of a status, or STATUSES.
#[inline(always)]
pub fn column_of(status: u8) -> usize {
    STATUS_ORDER.iter().position(|&other| other == status).unwrap_or(STATUSES)
}

#[inline]
pub fn look(tally: &Tally, letter: u8, status: u8) -> Result<u32, Refusal> {
    let row = tally.get(row_of(letter)).ok_or(NO_SUCH)?;
    row.get(column_of(status)).copied().ok_or(NO_SUCH)
}

/// One record more. The label is that of a good reply.
#[inline(always)]
pub fn count_one(tally: &mut Tally, label: &Label) {
    tally[row_of(label.letter)][column_of(label.status)] += 1;
}
