//! Arbitrary states. They hardly ever make a desk, but seats in use, held cells and the tally can
//! still be asked for.

use super::{add_call, add_look, lend, open_keys, random_key};
use crate::cases::desk::frames::random_reply;
use crate::cases::desk::script::{seat_of, Script};
use crate::cases::frames::any_number;
use crate::cases::Cases;
use crate::desk::tally::{COLUMNS, ROWS};
use crate::desk::{Seat, CELL, SEATS};
use crate::random::Random;
use crate::script::Change;

pub fn add(cases: &mut Cases, random: &mut Random) {
    let cells = random.place(9);
    let mut script = lend(cases, cells, random);
    for _ in 0..1 + random.place(4) {
        for _ in 0..1 + random.place(12) {
            let change = change(&script, random);
            script.change(&change);
        }
        for _ in 0..1 + random.place(4) {
            add_look(&mut script, random);
        }
        let keys = open_keys(&script);
        add_call(&mut script, &keys, random);
    }
    script.reset();
    add_call(&mut script, &[], random);
}

fn change(script: &Script, random: &mut Random) -> Change {
    let desk = script.desk();
    match random.below(9) {
        0 => Change::Bits(random.draw() >> (1 + random.below(63))),
        1 => Change::Count(any_count(desk.marks.len(), random)),
        2 | 3 if !desk.marks.is_empty() => {
            let place = random.place(desk.marks.len());
            Change::Mark(place, any_mark(random))
        }
        4 | 5 if desk.cells.len() >= CELL => any_cell(desk.cells.len(), random),
        6 => any_tally(random),
        _ => Change::Seat(random.place(SEATS), any_seat(random)),
    }
}

fn any_count(marks: usize, random: &mut Random) -> u32 {
    match random.below(4) {
        0 => any_number(random) as u32,
        _ => random.place(marks + 2) as u32,
    }
}

fn any_mark(random: &mut Random) -> u32 {
    match random.below(4) {
        0 => any_number(random) as u32,
        _ => random.below(6) as u32,
    }
}

fn any_tally(random: &mut Random) -> Change {
    let number = match random.below(3) {
        0 => any_number(random) as u32,
        _ => random.below(4) as u32,
    };
    Change::Tally(random.place(ROWS), random.place(COLUMNS), number)
}

/// A whole reply at a cell, or random bytes anywhere.
fn any_cell(bytes: usize, random: &mut Random) -> Change {
    if random.once_in(2) {
        let key = random_key(random);
        let status = random.pick(b"REZ");
        let cell = random.place(bytes / CELL);
        return Change::Cell(cell * CELL, random_reply(random, status, key));
    }
    let length = random.place(CELL);
    let place = random.place(bytes - length);
    Change::Cell(place, random.bytes(length))
}

/// A seat with a random key. Half the time it has some records held and some value of `ended`, and
/// more than half the time one of its five numbers is arbitrary.
fn any_seat(random: &mut Random) -> Seat {
    let mut seat = seat_of(random_key(random), 0, 0);
    if random.once_in(2) {
        seat.held = random.below(4) as u32;
        seat.ended = random.below(3) as u32;
    }
    match random.below(8) {
        0 => seat.address = any_number(random) as u32,
        1 => seat.requester = any_number(random) as u32,
        2 => seat.number = any_number(random) as u32,
        3 => seat.held = any_number(random) as u32,
        4 => seat.ended = any_number(random) as u32,
        _ => {}
    }
    seat
}

#[cfg(test)]
mod tests {
    use super::*;
    use crate::cases::desk::script::tests::outcomes;

    #[test]
    fn they_hardly_ever_make_a_desk() {
        let mut random = Random::new(1, "test");
        let answers = outcomes(|cases| (0..200).for_each(|_| add(cases, &mut random)));
        let count = |outcome: &str| answers.iter().filter(|&answer| answer == outcome).count();
        assert!(count("9 0 0 0") > 200);
        assert!(count("none") > 100);
        // Looks that find a cell.
        assert!(count("0") + count("1") + count("2") > 100);
    }
}
