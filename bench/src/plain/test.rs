//! The desk test: its clauses, with one pass over the held cells.

use super::desk::{capacity, is_used, key_of, Key};
use super::fields::{is_address, is_requester};
use super::tally::count_one;
use super::ways::{Keys, Ways};
use crate::abi::{Desk, Seat, Tally, CELL_SIZE, LETTERS, SEATS, STATUSES};

/// What the cells that were read so far say about one seat.
#[derive(Clone, Copy, Default)]
struct View {
    held: u32,
    ended: bool,
}

/// Tests all clauses but the first, and takes the keys. Clause 1 holds by the type of the row.
pub fn is_desk<W: Ways>(
    seats: &[Seat; SEATS],
    keys: &mut W::Keys,
    desk: Desk,
    cells: &[u8],
    marks: &[u32],
    tally: &Tally,
) -> bool {
    desk.bits >> SEATS == 0
        && keys.take(seats, desk.bits)
        && desk.count as usize <= capacity(cells.len(), marks.len())
        && cells_are_good::<W>(seats, keys, desk, cells, marks, tally)
}

pub fn seats_are_good(seats: &[Seat; SEATS], bits: u64) -> bool {
    seats.iter().enumerate().all(|(place, seat)| seat_is_good(seat, is_used(bits, place)))
}

#[inline(always)]
pub fn seat_is_good(seat: &Seat, used: bool) -> bool {
    if used {
        is_request_key(key_of(seat))
    } else {
        *seat == Seat::default()
    }
}

fn is_request_key(key: Key) -> bool {
    u8::try_from(key.address).is_ok_and(is_address)
        && u8::try_from(key.requester).is_ok_and(is_requester)
        && key.number <= 999
}

pub fn keys_differ(seats: &[Seat; SEATS], bits: u64) -> bool {
    (1..SEATS).filter(|&place| is_used(bits, place)).all(|place| {
        let key = key_of(&seats[place]);
        (0..place).all(|other| !is_used(bits, other) || key_of(&seats[other]) != key)
    })
}

fn cells_are_good<W: Ways>(
    seats: &[Seat; SEATS],
    keys: &W::Keys,
    desk: Desk,
    cells: &[u8],
    marks: &[u32],
    tally: &Tally,
) -> bool {
    if W::EMPTY_APART && desk.count == 0 {
        return nothing_is_held(seats, tally);
    }
    let mut views = [View::default(); SEATS];
    let mut counted = [[0; STATUSES]; LETTERS];
    let marks = &marks[..desk.count as usize];
    for (&mark, cell) in marks.iter().zip(cells.chunks_exact(CELL_SIZE)) {
        let place = mark as usize;
        if place >= SEATS {
            return false;
        }
        let Some(label) = W::held_label(cell) else { return false };
        let view = &mut views[place];
        let in_place = !view.ended && (label.status != b'Z' || view.held == 0);
        if !keys.is_at(seats, desk.bits, place, label.key) || !in_place {
            return false;
        }
        view.held += 1;
        view.ended = label.status != b'R';
        count_one(&mut counted, &label);
    }
    // For a seat that is not in use, both the seat and its view are all zero.
    views.iter().zip(seats).all(|(view, seat)| view.held == seat.held && u32::from(view.ended) == seat.ended)
        && counted == *tally
}

/// The numbers of the tally are tested without an early return.
fn nothing_is_held(seats: &[Seat; SEATS], tally: &Tally) -> bool {
    seats.iter().all(|seat| seat.held == 0 && seat.ended == 0)
        && tally.as_flattened().iter().fold(0, |any, &number| any | number) == 0
}
