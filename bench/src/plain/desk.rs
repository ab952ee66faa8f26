//! The desk: opens requests and sorts replies to them.

use super::finder::WHOLE;
use super::refusal::{Refusal, DESK, ENDED, FULL, IN_USE, NO_ANSWER_DUE, NO_SEAT, OUT_OF_PLACE, STRAY};
use super::tally::count_one;
use super::test::is_desk;
use super::ways::{Keys, Ways};
use super::{reply, request};
use crate::abi::{Counts, Desk, ReplyHead, Seat, Tally, CELLS, CELL_SIZE, SEATS};

/// The key by which a reply finds its seat.
#[derive(Clone, Copy, PartialEq)]
pub struct Key {
    pub address: u32,
    pub requester: u32,
    pub number: u32,
}

#[inline]
pub fn key_of(seat: &Seat) -> Key {
    Key { address: seat.address, requester: seat.requester, number: seat.number }
}

/// What the desk needs of a reply.
pub struct Label {
    pub status: u8,
    pub letter: u8,
    pub key: Key,
}

impl Label {
    #[inline(always)]
    pub fn of(head: &ReplyHead) -> Self {
        let key = Key { address: head.address.into(), requester: head.requester.into(), number: head.number };
        Label { status: head.status, letter: head.information, key }
    }
}

#[inline]
pub fn is_used(bits: u64, place: usize) -> bool {
    bits >> place & 1 == 1
}

#[inline]
pub fn capacity(cells: usize, marks: usize) -> usize {
    CELLS.min(cells / CELL_SIZE).min(marks)
}

/// The state after a call, and the place of the seat.
type Done = Result<(Desk, usize), Refusal>;

pub fn open<W: Ways>(seats: &mut [Seat], desk: Desk, cells: &[u8], marks: &[u32], tally: &Tally, frame: &[u8]) -> Done {
    let mut keys = W::Keys::default();
    let row = row_of_desk::<W>(seats, &mut keys, desk, cells, marks, tally)?;
    open_on_desk(row, &mut keys, desk, frame)
}

pub fn reply<W: Ways>(
    seats: &mut [Seat],
    desk: Desk,
    cells: &mut [u8],
    marks: &mut [u32],
    tally: &mut Tally,
    frame: &[u8],
) -> Done {
    let mut keys = W::Keys::default();
    let row = row_of_desk::<W>(seats, &mut keys, desk, cells, marks, tally)?;
    reply_on_desk::<W>(row, &keys, desk, cells, marks, tally, frame)
}

/// The row, if state and memory make a desk. Its keys are taken too.
#[inline]
fn row_of_desk<'a, W: Ways>(
    seats: &'a mut [Seat],
    keys: &mut W::Keys,
    desk: Desk,
    cells: &[u8],
    marks: &[u32],
    tally: &Tally,
) -> Result<&'a mut [Seat; SEATS], Refusal> {
    let row: &mut [Seat; SEATS] = seats.try_into().map_err(|_| DESK)?;
    if is_desk::<W>(row, keys, desk, cells, marks, tally) {
        Ok(row)
    } else {
        Err(DESK)
    }
}

fn open_on_desk(seats: &mut [Seat; SEATS], keys: &mut impl Keys, desk: Desk, frame: &[u8]) -> Done {
    let request = request::read(frame)?;
    if request.information == b'q' {
        return Err(NO_ANSWER_DUE);
    }
    let key = Key { address: request.address.into(), requester: request.requester.into(), number: request.number };
    if keys.find(seats, desk.bits, key).is_some() {
        return Err(IN_USE);
    }
    let seat = desk.bits.trailing_ones() as usize;
    if seat >= SEATS {
        return Err(NO_SEAT);
    }
    seats[seat] = Seat { address: key.address, requester: key.requester, number: key.number, held: 0, ended: 0 };
    keys.put(seat, key);
    Ok((Desk { bits: desk.bits | 1 << seat, ..desk }, seat))
}

fn reply_on_desk<W: Ways>(
    seats: &mut [Seat; SEATS],
    keys: &W::Keys,
    desk: Desk,
    cells: &mut [u8],
    marks: &mut [u32],
    tally: &mut Tally,
    frame: &[u8],
) -> Done {
    let label = W::label(frame)?;
    let place = keys.find(seats, desk.bits, label.key).ok_or(STRAY)?;
    let seat = &mut seats[place];
    if seat.ended != 0 {
        return Err(ENDED);
    }
    if label.status == b'Z' && seat.held != 0 {
        return Err(OUT_OF_PLACE);
    }
    let cell = desk.count as usize;
    if cell >= capacity(cells.len(), marks.len()) {
        return Err(FULL);
    }
    cells[cell * CELL_SIZE..][..CELL_SIZE].copy_from_slice(frame);
    marks[cell] = place as u32;
    seat.held += 1;
    seat.ended = u32::from(label.status != b'R');
    count_one(tally, &label);
    Ok((Desk { count: desk.count + 1, ..desk }, place))
}

/// Processes all frames of a capture, with one test of the desk.
pub fn capture<W: Ways>(
    seats: &mut [Seat],
    desk: Desk,
    cells: &mut [u8],
    marks: &mut [u32],
    tally: &mut Tally,
    bytes: &[u8],
) -> Result<(Desk, Counts), Refusal> {
    let mut keys = W::Keys::default();
    let row = row_of_desk::<W>(seats, &mut keys, desk, cells, marks, tally)?;
    Ok(capture_on_desk::<W>(row, &mut keys, desk, cells, marks, tally, bytes))
}

pub fn capture_on_desk<W: Ways>(
    seats: &mut [Seat; SEATS],
    keys: &mut W::Keys,
    mut desk: Desk,
    cells: &mut [u8],
    marks: &mut [u32],
    tally: &mut Tally,
    bytes: &[u8],
) -> (Desk, Counts) {
    let mut counts = Counts::default();
    let mut at = 0;
    while let Some(found) = W::next_frame(bytes, at) {
        at = found.next;
        let frame = &bytes[found.start..found.end];
        let (done, count) = match frame[0] {
            _ if found.kind != WHOLE => (None, &mut counts.refused),
            request::LEAD => (open_on_desk(seats, keys, desk, frame).ok(), &mut counts.opened),
            reply::LEAD => {
                (reply_on_desk::<W>(seats, keys, desk, cells, marks, tally, frame).ok(), &mut counts.collected)
            }
            _ => (W::read_dynamic(frame).ok().map(|_| (desk, 0)), &mut counts.dynamic),
        };
        match done {
            Some((after, _)) => {
                desk = after;
                *count += 1;
            }
            None => counts.refused += 1,
        }
    }
    (desk, counts)
}

pub fn next_held(desk: Desk, cells: &[u8], marks: &[u32], seat: u32, from: usize) -> Option<usize> {
    let limit = capacity(cells.len(), marks.len()).min(desk.count as usize);
    let marks = &marks[..limit];
    (from..limit).find(|&cell| marks[cell] == seat)
}
