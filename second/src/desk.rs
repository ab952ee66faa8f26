//! The desk: keeps open requests and sorts the replies to them.

mod clauses;
pub mod tally;
#[cfg(test)]
mod tests;

use crate::frame::Kind;
use crate::refusal::Refusal;
use crate::reply::{Reply, NOT_AVAILABLE, RECORD};
use crate::request::{Request, NO_ANSWER_DUE};
use tally::Tally;

pub const SEATS: usize = 16;

/// The bytes of one cell, which holds one reply.
pub const CELL: usize = Reply::LENGTH;

/// A desk has no more cells than this, however many are lent.
pub const MOST_CELLS: usize = 256;

/// The record of a seat. All five parts are plain numbers, so a seat that makes no desk can be held
/// too.
#[derive(Clone, Copy, Debug, Default, PartialEq, Eq)]
pub struct Seat {
    pub address: u32,
    pub requester: u32,
    pub number: u32,
    /// How many records it holds.
    pub held: u32,
    /// 1 after its E or Z, 0 before.
    pub ended: u32,
}

/// What a reply is matched by. Nothing else is compared.
#[derive(Clone, Copy, Debug, PartialEq, Eq)]
struct Key {
    address: u32,
    requester: u32,
    number: u64,
}

impl Seat {
    fn key(&self) -> Key {
        Key {
            address: self.address,
            requester: self.requester,
            number: self.number.into(),
        }
    }
}

/// A request's 007 and a reply's 00007 are the same number. No request has a number above 999.
impl Key {
    fn of_request(request: &Request) -> Self {
        Key {
            address: request.address.into(),
            requester: request.requester.into(),
            number: request.number,
        }
    }

    fn of_reply(reply: &Reply) -> Self {
        Key {
            address: reply.address.into(),
            requester: reply.requester.into(),
            number: reply.number,
        }
    }
}

/// The state (bits, count and tally) together with all that is lent: seats, cells and marks. The
/// type fixes the row at sixteen seats. The clauses say whether the rest makes a desk.
#[derive(Clone, Debug, Default, PartialEq, Eq)]
pub struct Desk {
    /// Bit i is set if seat i is in use.
    pub bits: u64,
    /// How many cells are taken, counted from the first.
    pub count: u32,
    pub tally: Tally,
    pub seats: [Seat; SEATS],
    pub cells: Vec<u8>,
    pub marks: Vec<u32>,
}

impl Desk {
    /// An empty desk with these cells and marks lent to it.
    pub fn with(cells: Vec<u8>, marks: Vec<u32>) -> Self {
        Desk {
            cells,
            marks,
            ..Desk::default()
        }
    }

    /// The number of whole cells. Bytes after the last whole cell do not count.
    fn whole_cells(&self) -> usize {
        self.cells.len() / CELL
    }

    pub fn capacity(&self) -> usize {
        MOST_CELLS.min(self.whole_cells()).min(self.marks.len())
    }

    /// Opens a request and returns its seat.
    pub fn open(&mut self, frame: &[u8]) -> Result<usize, Refusal> {
        self.must_be_a_desk()?;
        let request = Request::read(frame)?;
        if request.information == NO_ANSWER_DUE {
            return Err(Refusal::NoAnswerDue);
        }
        let key = Key::of_request(&request);
        if self.seat_with(key).is_some() {
            return Err(Refusal::InUse);
        }
        let seat = self.lowest_free_seat().ok_or(Refusal::NoSeat)?;
        self.take_seat(seat, &request);
        Ok(seat)
    }

    /// Takes a reply and returns the seat that it goes to.
    pub fn reply(&mut self, frame: &[u8]) -> Result<usize, Refusal> {
        self.must_be_a_desk()?;
        let reply = Reply::read(frame)?;
        let seat = self
            .seat_with(Key::of_reply(&reply))
            .ok_or(Refusal::Stray)?;
        if self.seats[seat].ended != 0 {
            return Err(Refusal::Ended);
        }
        if reply.status == NOT_AVAILABLE && self.seats[seat].held > 0 {
            return Err(Refusal::OutOfPlace);
        }
        let cell = self.free_cell().ok_or(Refusal::Full)?;
        self.keep(frame, cell, seat);
        self.tally.add_one(reply.information, reply.status);
        if reply.status != RECORD {
            self.seats[seat].ended = 1;
        }
        Ok(seat)
    }

    /// Sets seats, bits, count and tally to zero, whatever they were. Cells and marks stay. With a
    /// row of sixteen seats it is never refused.
    pub fn reset(&mut self) {
        self.bits = 0;
        self.count = 0;
        self.tally = Tally::default();
        self.seats = [Seat::default(); SEATS];
    }

    /// The number of ones in `bits`, including bits above the seats. The state need not be a desk.
    pub fn seats_in_use(&self) -> u32 {
        self.bits.count_ones()
    }

    /// The first cell, from this place on, whose mark is `seat`. The cell is below the count and
    /// below the capacity. The state need not be a desk, and `seat` may be any number.
    pub fn next_held(&self, seat: u32, place: usize) -> Option<usize> {
        let end = self.below_the_count().min(self.capacity());
        (place..end).find(|&cell| self.marks[cell] == seat)
    }

    /// The number in the tally for a letter and a status. Nothing else is looked at, so the state
    /// need not be a desk.
    pub fn look(&self, letter: u8, status: u8) -> Result<u32, Refusal> {
        let place = tally::place(letter, status).ok_or(Refusal::NoSuch)?;
        Ok(self.tally.number(place))
    }

    fn must_be_a_desk(&self) -> Result<(), Refusal> {
        if clauses::make_a_desk(self) {
            Ok(())
        } else {
            Err(Refusal::Desk)
        }
    }

    /// The count as a limit for places.
    fn below_the_count(&self) -> usize {
        usize::try_from(self.count).unwrap_or(usize::MAX)
    }

    fn is_used(&self, seat: usize) -> bool {
        (self.bits >> seat) & 1 == 1
    }

    /// The used seats, each with its place in the row.
    fn used_seats(&self) -> impl Iterator<Item = (usize, &Seat)> {
        let seats = self.seats.iter().enumerate();
        seats.filter(|&(place, _)| self.is_used(place))
    }

    /// The used seat that has this key, ended or not.
    fn seat_with(&self, key: Key) -> Option<usize> {
        let mut seats = self.used_seats();
        seats.find_map(|(place, seat)| (seat.key() == key).then_some(place))
    }

    fn lowest_free_seat(&self) -> Option<usize> {
        (0..SEATS).find(|&seat| !self.is_used(seat))
    }

    fn free_cell(&self) -> Option<usize> {
        let next = self.below_the_count();
        (next < self.capacity()).then_some(next)
    }

    fn take_seat(&mut self, seat: usize, request: &Request) {
        self.bits |= 1 << seat;
        self.seats[seat] = Seat {
            address: request.address.into(),
            requester: request.requester.into(),
            number: u32::try_from(request.number).expect("a request's number has three digits"),
            held: 0,
            ended: 0,
        };
    }

    fn keep(&mut self, frame: &[u8], cell: usize, seat: usize) {
        let first = cell * CELL;
        self.cells[first..first + CELL].copy_from_slice(frame);
        self.marks[cell] = u32::try_from(seat).expect("a seat is below sixteen");
        self.seats[seat].held += 1;
        self.count += 1;
    }
}
