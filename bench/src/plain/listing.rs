//! The list of a capture.

use super::desk::{capacity, capture_on_desk};
use super::refusal::{Refusal, ROOM};
use super::ways::Ways;
use crate::abi::{Counts, Desk, Seat, CELLS, CELL_SIZE, LETTERS, SEATS, STATUSES};
use std::ops::Range;

const MOST_INPUT: usize = 32_768;
const TOO_LONG: &[u8] = b"input too long\n";
const HEADING: &[u8] = b"seat\tfrom\taddr\tnumber\tbib\tgroup\trun\tphys\tlog\tinfo\ttime\tdate\tstatus\n";

/// How many bytes the columns of requester and address have.
const FIRST_COLUMNS: usize = 4;

/// The bytes of a frame that the other columns show.
const COLUMNS: [Range<usize>; 10] = [9..12, 12..17, 17..20, 20..23, 23..26, 26..29, 29..30, 30..40, 40..48, 5..6];

/// An output to which bytes are written one after the other.
struct Text<'a> {
    out: &'a mut [u8],
    size: usize,
}

impl Text<'_> {
    #[inline]
    fn put(&mut self, bytes: &[u8]) {
        self.out[self.size..self.size + bytes.len()].copy_from_slice(bytes);
        self.size += bytes.len();
    }

    fn put_decimal(&mut self, mut value: usize) {
        let width = width_of(value);
        for digit in self.out[self.size..self.size + width].iter_mut().rev() {
            *digit = b'0' + (value % 10) as u8;
            value /= 10;
        }
        self.size += width;
    }

    fn put_row(&mut self, seat: usize, frame: &[u8]) {
        self.put_decimal(seat);
        self.put(&first_columns(frame));
        for column in COLUMNS {
            self.put(b"\t");
            self.put(&frame[column]);
        }
        self.put(b"\n");
    }
}

/// The columns of requester and address, a space shown as `-`.
#[inline]
fn first_columns(frame: &[u8]) -> [u8; FIRST_COLUMNS] {
    let address = if frame[2] == b' ' { b'-' } else { frame[2] };
    [b'\t', frame[6], b'\t', address]
}

/// How many digits a number has.
fn width_of(value: usize) -> usize {
    value.checked_ilog10().map_or(1, |log| log as usize + 1)
}

/// Writes the list. The frames are first kept in local memory. They are copied to the lent cells and marks only if the
/// output has room for the list.
pub fn list<W: Ways>(capture: &[u8], cells: &mut [u8], marks: &mut [u32], out: &mut [u8]) -> Result<usize, Refusal> {
    if capture.len() > MOST_INPUT {
        out.get_mut(..TOO_LONG.len()).ok_or(ROOM)?.copy_from_slice(TOO_LONG);
        return Ok(TOO_LONG.len());
    }
    let room = capacity(cells.len(), marks.len());
    let mut own_cells = [0; CELLS * CELL_SIZE];
    let mut own_marks = [0; CELLS];
    let mut seats = [Seat::default(); SEATS];
    let mut keys = W::Keys::default();
    let mut tally = [[0; STATUSES]; LETTERS];
    let (desk, own) = (Desk::default(), &mut own_marks[..room]);
    let (desk, counts) = capture_on_desk::<W>(&mut seats, &mut keys, desk, &mut own_cells, own, &mut tally, capture);
    let count = desk.count as usize;
    let (own_cells, own_marks) = (&own_cells[..count * CELL_SIZE], &own_marks[..count]);
    let size = size_of_list(own_marks, &counts);
    let mut text = Text { out: out.get_mut(..size).ok_or(ROOM)?, size: 0 };
    cells[..own_cells.len()].copy_from_slice(own_cells);
    marks[..count].copy_from_slice(own_marks);
    put_list(&mut text, own_cells, own_marks, &counts);
    Ok(size)
}

fn numbers(counts: &Counts) -> [usize; 4] {
    [counts.opened, counts.collected, counts.dynamic, counts.refused]
}

fn size_of_list(marks: &[u32], counts: &Counts) -> usize {
    let columns: usize = COLUMNS.iter().map(|column| 1 + column.len()).sum();
    let rows: usize = marks.iter().map(|&mark| width_of(mark as usize) + FIRST_COLUMNS + columns + 1).sum();
    let end: usize = numbers(counts).iter().map(|&value| 1 + width_of(value)).sum();
    HEADING.len() + rows + "end".len() + end + 1
}

fn put_list(text: &mut Text, cells: &[u8], marks: &[u32], counts: &Counts) {
    text.put(HEADING);
    for seat in 0..SEATS {
        for (&mark, frame) in marks.iter().zip(cells.chunks_exact(CELL_SIZE)) {
            if mark as usize == seat {
                text.put_row(seat, frame);
            }
        }
    }
    text.put(b"end");
    for value in numbers(counts) {
        text.put(b"\t");
        text.put_decimal(value);
    }
    text.put(b"\n");
}
