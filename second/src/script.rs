//! What the lines of a script do to a desk from outside: they lend it memory, and they set any part
//! of it to any value.

use crate::desk::tally::{COLUMNS, ROWS};
use crate::desk::{Desk, Seat, SEATS};
use crate::spelling::{bytes_text, parse_bits, parse_bytes, parse_number, parse_place, NotACase};

/// What every lent byte and every lent mark holds at first.
const LENT_BYTE: u8 = 0xee;
const LENT_MARK: u32 = 0xeeee_eeee;

/// The most that is lent.
pub const MOST_LENT_BYTES: usize = 15_400;
pub const MOST_LENT_MARKS: usize = 310;

const NOT_IN_THE_TALLY: NotACase = NotACase("ROW is 0 to 32 and COLUMN is 0 to 2");

/// An empty desk with this many bytes and marks lent to it.
pub fn lend(bytes: usize, marks: usize) -> Desk {
    Desk::with(vec![LENT_BYTE; bytes], vec![LENT_MARK; marks])
}

/// A change of one part of a desk.
#[derive(Clone, Debug, PartialEq, Eq)]
pub enum Change {
    Bits(u64),
    Count(u32),
    /// The record of the seat at this place of the row.
    Seat(usize, Seat),
    /// The mark at this place.
    Mark(usize, u32),
    /// The bytes from this place on. The place counts bytes, not cells.
    Cell(usize, Vec<u8>),
    /// The number of the tally in this row and column.
    Tally(usize, usize, u32),
}

impl Change {
    /// The change that a line of these words makes, or nothing if it is not such a line.
    pub fn parse(words: &[&str]) -> Option<Result<Change, NotACase>> {
        Some(match words {
            ["bits", bits] => parse_bits(bits).map(Change::Bits),
            ["count", count] => parse_number(count).map(Change::Count),
            ["seat", place, record @ ..] => parse_seat(place, record),
            ["mark", place, mark] => parse_mark(place, mark),
            ["cell", place, bytes] => parse_cell(place, bytes),
            ["tally", row, column, number] => parse_tally(row, column, number),
            _ => return None,
        })
    }

    /// The line that makes this change.
    pub fn text(&self) -> String {
        match self {
            Change::Bits(bits) => format!("bits {bits}"),
            Change::Count(count) => format!("count {count}"),
            Change::Seat(place, seat) => seat_text(*place, seat),
            Change::Mark(place, mark) => format!("mark {place} {mark}"),
            Change::Cell(place, bytes) => format!("cell {place} {}", bytes_text(bytes)),
            Change::Tally(row, column, number) => tally_text(*row, *column, *number),
        }
    }

    /// Makes the change. It is an error if the part is not there.
    pub fn make(&self, desk: &mut Desk) -> Result<(), NotACase> {
        match self {
            Change::Bits(bits) => desk.bits = *bits,
            Change::Count(count) => desk.count = *count,
            Change::Seat(place, seat) => {
                let kept = desk.seats.get_mut(*place);
                *kept.ok_or(NotACase("SEAT is below 16"))? = *seat;
            }
            Change::Mark(place, mark) => {
                let kept = desk.marks.get_mut(*place);
                *kept.ok_or(NotACase("that mark is not lent"))? = *mark;
            }
            Change::Cell(place, bytes) => {
                let end = place.saturating_add(bytes.len());
                let kept = desk.cells.get_mut(*place..end);
                kept.ok_or(NotACase("not all of these bytes are lent"))?
                    .copy_from_slice(bytes);
            }
            Change::Tally(row, column, number) => {
                let kept = desk.tally.0.get_mut(*row);
                let kept = kept.and_then(|numbers| numbers.get_mut(*column));
                *kept.ok_or(NOT_IN_THE_TALLY)? = *number;
            }
        }
        Ok(())
    }
}

/// A seat's record, as a line sets it and as an answer shows it.
pub fn seat_text(place: usize, seat: &Seat) -> String {
    let Seat {
        address,
        requester,
        number,
        held,
        ended,
    } = seat;
    format!("seat {place} {address} {requester} {number} {held} {ended}")
}

/// A number of the tally, as a line sets it and as an answer shows it.
pub fn tally_text(row: usize, column: usize, number: u32) -> String {
    format!("tally {row} {column} {number}")
}

fn parse_seat(place: &str, record: &[&str]) -> Result<Change, NotACase> {
    let &[address, requester, number, held, ended] = record else {
        return Err(NotACase("a seat's record is five numbers"));
    };
    let place = parse_place(place)?;
    if place >= SEATS {
        return Err(NotACase("SEAT is below 16"));
    }
    let seat = Seat {
        address: parse_number(address)?,
        requester: parse_number(requester)?,
        number: parse_number(number)?,
        held: parse_number(held)?,
        ended: parse_number(ended)?,
    };
    Ok(Change::Seat(place, seat))
}

fn parse_mark(place: &str, mark: &str) -> Result<Change, NotACase> {
    Ok(Change::Mark(parse_place(place)?, parse_number(mark)?))
}

fn parse_cell(place: &str, bytes: &str) -> Result<Change, NotACase> {
    Ok(Change::Cell(parse_place(place)?, parse_bytes(bytes)?))
}

fn parse_tally(row: &str, column: &str, number: &str) -> Result<Change, NotACase> {
    let (row, column) = (parse_place(row)?, parse_place(column)?);
    if row >= ROWS || column >= COLUMNS {
        return Err(NOT_IN_THE_TALLY);
    }
    Ok(Change::Tally(row, column, parse_number(number)?))
}

#[cfg(test)]
mod tests {
    use super::*;

    fn parse(line: &str) -> Option<Result<Change, NotACase>> {
        let words: Vec<&str> = line.split(' ').collect();
        Change::parse(&words)
    }

    #[test]
    fn lent_memory_is_filled_and_the_rest_is_zero() {
        let desk = lend(103, 2);
        assert_eq!(desk.cells, [0xee; 103]);
        assert_eq!(desk.marks, [4_008_636_142; 2]);
        assert_eq!((desk.bits, desk.count), (0, 0));
        assert_eq!(desk.seats, [Seat::default(); 16]);
        assert_eq!(desk.tally.0, [[0; 3]; 33]);
    }

    #[test]
    fn changes_there_and_back() {
        for line in [
            "bits 9223372036854775807",
            "count 4294967295",
            "seat 15 4294967295 1 2 3 4",
            "mark 309 16",
            "cell 15399 ff",
            "tally 32 2 4294967295",
        ] {
            let change = parse(line).expect("a change").expect("spelled well");
            assert_eq!(change.text(), line);
        }
        assert_eq!(parse("reset"), None);
        assert_eq!(parse("bits"), None);
        for line in [
            "bits 9223372036854775808",
            "count -1",
            "seat 16 0 0 0 0 0",
            "seat 0 0 0 0 0",
            "seat 0 0 0 0 0 0 0",
            "seat 0 4294967296 0 0 0 0",
            "mark 0 4294967296",
            "cell 0 0",
            "tally 33 0 0",
            "tally 0 3 0",
            "tally 0 0 4294967296",
            "tally 0 -1 0",
        ] {
            assert!(parse(line).expect("a change").is_err(), "{line}");
        }
    }

    #[test]
    fn a_change_sets_its_part_and_no_other() {
        let untouched = lend(4, 2);
        let mut desk = untouched.clone();
        let seat = Seat {
            address: 11,
            requester: 1,
            number: 2,
            held: 3,
            ended: 4,
        };
        for change in [
            Change::Bits(5),
            Change::Count(6),
            Change::Seat(7, seat),
            Change::Mark(1, 8),
            Change::Cell(1, vec![9, 10]),
            Change::Tally(12, 1, 11),
        ] {
            assert_eq!(change.make(&mut desk), Ok(()));
        }
        let mut expected = untouched;
        (expected.bits, expected.count) = (5, 6);
        expected.seats[7] = seat;
        expected.marks = vec![0xeeee_eeee, 8];
        expected.cells = vec![0xee, 9, 10, 0xee];
        expected.tally.0[12][1] = 11;
        assert_eq!(desk, expected);
    }

    #[test]
    fn what_is_not_lent_is_not_set() {
        for change in [
            Change::Mark(2, 0),
            Change::Cell(3, vec![1, 2]),
            Change::Cell(usize::MAX, vec![1]),
            Change::Seat(16, Seat::default()),
            Change::Tally(33, 0, 1),
            Change::Tally(0, 3, 1),
        ] {
            let mut desk = lend(4, 2);
            assert!(change.make(&mut desk).is_err(), "{change:?}");
            assert_eq!(desk, lend(4, 2));
        }
    }
}
