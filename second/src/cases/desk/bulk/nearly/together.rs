//! Changes that belong together. If all of them are made to a desk, and the tally goes along, the
//! result is mostly a desk again. If not, it usually breaks only one clause: a Z that is not the
//! first record, or a record after the end.

use crate::cases::desk::bulk::{key_of, random_key, under_any_address};
use crate::cases::desk::frames::{random_reply, Key, E, R, Z};
use crate::cases::desk::script::seat_of;
use crate::desk::{Desk, Seat, CELL, SEATS};
use crate::random::Random;
use crate::reply::at;
use crate::script::Change;

/// Any of these changes. For some states there is none to make.
pub fn changes(desk: &Desk, random: &mut Random) -> Vec<Change> {
    match random.below(9) {
        0 => another_key(desk, random),
        1 | 2 => a_record_more(desk, random),
        3 => a_record_less(desk),
        4 => a_seat_more(desk, random),
        5 => a_seat_less(desk, random),
        6 => another_end(desk, random),
        7 => two_records_changed_about(desk, random),
        _ => a_record_of_another_seat(desk, random),
    }
}

/// How many cells hold records, as far as the cells are lent.
fn taken(desk: &Desk) -> usize {
    usize::try_from(desk.count).map_or(desk.capacity(), |count| count.min(desk.capacity()))
}

/// The cell of some record, if there is one.
fn some_record(desk: &Desk, random: &mut Random) -> Option<usize> {
    let taken = taken(desk);
    (taken > 0).then(|| random.place(taken))
}

/// The places of the seats whose bit has this value.
fn seats_with(desk: &Desk, bit: u64) -> Vec<usize> {
    (0..SEATS)
        .filter(|&seat| (desk.bits >> seat) & 1 == bit)
        .collect()
}

fn some_seat(desk: &Desk, bit: u64, random: &mut Random) -> Option<usize> {
    let seats = seats_with(desk, bit);
    (!seats.is_empty()).then(|| random.pick(&seats))
}

/// The seat that a cell's mark names, if it is below sixteen.
fn seat_of_record(desk: &Desk, cell: usize) -> Option<usize> {
    let seat = usize::try_from(*desk.marks.get(cell)?).ok()?;
    (seat < SEATS).then_some(seat)
}

/// Puts a seat's key into a cell: first the address, then requester and number.
fn put_key(cell: usize, seat: &Seat) -> [Change; 2] {
    let mut text = vec![seat.requester as u8];
    text.extend(format!("{:05}", seat.number % 100_000).bytes());
    [
        Change::Cell(cell * CELL + at::ADDRESS, vec![seat.address as u8]),
        Change::Cell(cell * CELL + at::REQUESTER, text),
    ]
}

/// A seat gets another key, and so do all its records.
fn another_key(desk: &Desk, random: &mut Random) -> Vec<Change> {
    let Some(place) = some_seat(desk, 1, random) else {
        return Vec::new();
    };
    let Seat { held, ended, .. } = desk.seats[place];
    let seat = seat_of(another_key_than(&desk.seats[place], random), held, ended);
    let own = (0..taken(desk)).filter(|&cell| seat_of_record(desk, cell) == Some(place));
    let mut changes: Vec<Change> = own.flat_map(|cell| put_key(cell, &seat)).collect();
    changes.push(Change::Seat(place, seat));
    changes
}

/// A random key. Half the time only its address is random.
fn another_key_than(seat: &Seat, random: &mut Random) -> Key {
    match key_of(seat) {
        Some(key) if random.once_in(2) => under_any_address(random, key),
        _ => random_key(random),
    }
}

/// The next cell gets a record of a seat in use. If no cell is free or no seat is in use, only the
/// count changes.
fn a_record_more(desk: &Desk, random: &mut Random) -> Vec<Change> {
    let cell = taken(desk);
    let mut changes = vec![Change::Count(desk.count.wrapping_add(1))];
    let Some(place) = some_seat(desk, 1, random).filter(|_| cell < desk.capacity()) else {
        return changes;
    };
    let mut seat = desk.seats[place];
    let status = match (seat.ended, seat.held) {
        (0, 0) => random.pick(&[R, E, Z]),
        _ => random.pick(&[R, R, R, E, E, Z]),
    };
    let number = seat.number % 100_000;
    let key = (seat.address as u8, seat.requester as u8, number);
    changes.push(Change::Cell(cell * CELL, random_reply(random, status, key)));
    changes.push(Change::Mark(cell, place as u32));
    seat.held = seat.held.wrapping_add(1);
    seat.ended = (status != R).into();
    changes.push(Change::Seat(place, seat));
    changes
}

/// The last record's cell becomes free again.
fn a_record_less(desk: &Desk) -> Vec<Change> {
    let Some(cell) = taken(desk).checked_sub(1) else {
        return Vec::new();
    };
    let mut changes = vec![Change::Count(cell as u32)];
    if let Some(place) = seat_of_record(desk, cell) {
        let mut seat = desk.seats[place];
        seat.held = seat.held.wrapping_sub(1);
        seat.ended = 0;
        changes.push(Change::Seat(place, seat));
    }
    changes
}

fn a_seat_more(desk: &Desk, random: &mut Random) -> Vec<Change> {
    let Some(place) = some_seat(desk, 0, random) else {
        return vec![Change::Bits(desk.bits | 1 << SEATS)];
    };
    let key = match some_seat(desk, 1, random) {
        Some(used) => another_key_than(&desk.seats[used], random),
        None => random_key(random),
    };
    let bits = desk.bits | 1 << place;
    vec![Change::Seat(place, seat_of(key, 0, 0)), Change::Bits(bits)]
}

/// A seat is no longer in use. If it holds records, their marks still name it.
fn a_seat_less(desk: &Desk, random: &mut Random) -> Vec<Change> {
    let used = seats_with(desk, 1);
    let empty: Vec<usize> = used
        .iter()
        .copied()
        .filter(|&seat| desk.seats[seat].held == 0)
        .collect();
    let among = if empty.is_empty() { used } else { empty };
    if among.is_empty() {
        return Vec::new();
    }
    let place = random.pick(&among);
    vec![
        Change::Seat(place, Seat::default()),
        Change::Bits(desk.bits & !(1 << place)),
    ]
}

/// A seat's last record gets another status, and `ended` agrees with it.
fn another_end(desk: &Desk, random: &mut Random) -> Vec<Change> {
    let Some(place) = some_record(desk, random).and_then(|cell| seat_of_record(desk, cell)) else {
        return Vec::new();
    };
    let last = (0..taken(desk)).rfind(|&cell| seat_of_record(desk, cell) == Some(place));
    let mut seat = desk.seats[place];
    let status = match seat.held {
        1 => random.pick(&[R, E, Z]),
        _ => random.pick(&[R, R, E, E, Z]),
    };
    seat.ended = (status != R).into();
    let mut changes = vec![Change::Seat(place, seat)];
    changes.extend(last.map(|cell| Change::Cell(cell * CELL + at::STATUS, vec![status])));
    changes
}

/// The bytes of a cell. All of them are lent.
fn bytes_of(desk: &Desk, cell: usize) -> Vec<u8> {
    desk.cells[cell * CELL..][..CELL].to_vec()
}

/// Two records change places, together with their marks.
fn two_records_changed_about(desk: &Desk, random: &mut Random) -> Vec<Change> {
    let (Some(one), Some(other)) = (some_record(desk, random), some_record(desk, random)) else {
        return Vec::new();
    };
    vec![
        Change::Cell(one * CELL, bytes_of(desk, other)),
        Change::Cell(other * CELL, bytes_of(desk, one)),
        Change::Mark(one, desk.marks[other]),
        Change::Mark(other, desk.marks[one]),
    ]
}

/// A record moves to another seat: its key, its mark and the records held of both seats change.
fn a_record_of_another_seat(desk: &Desk, random: &mut Random) -> Vec<Change> {
    let (Some(cell), Some(to)) = (some_record(desk, random), some_seat(desk, 1, random)) else {
        return Vec::new();
    };
    let mut changes = vec![Change::Mark(cell, to as u32)];
    changes.extend(put_key(cell, &desk.seats[to]));
    if let Some(from) = seat_of_record(desk, cell).filter(|&from| from != to) {
        for (place, more) in [(from, u32::MAX), (to, 1)] {
            let mut seat = desk.seats[place];
            seat.held = seat.held.wrapping_add(more);
            changes.push(Change::Seat(place, seat));
        }
    }
    changes
}
