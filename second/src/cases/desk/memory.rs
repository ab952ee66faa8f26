//! Scripts about what is lent: nothing, little, much, and a desk that is full.

use super::frames::{patched, reply, reply_with_bib, request, request_for, Key, E, R, ROW_OF_P, Z};
use super::script::{seat_of, Script};
use crate::cases::Cases;
use crate::desk::{Desk, CELL, MOST_CELLS};
use crate::reply::at;
use crate::script::Change;

const KEYS: [Key; 3] = [(b' ', b'1', 7), (b' ', b'A', 7), (b' ', b'z', 0)];

/// Before anything is lent there is already a desk. It has seats, but no cells.
pub fn add_nothing_lent(cases: &mut Cases) {
    let mut script = Script::go_on(cases, Desk::default());
    script.used();
    script.held(0, 0);
    script.held(0, u32::MAX as usize);
    script.look(b'P', R);
    script.look(b'L', R);
    script.reset();
    script.open(&[]);
    script.reply(&reply(R, KEYS[0]));
    script.open(&request(KEYS[0]));
    script.open(&request(KEYS[0]));
    script.open(&request_for(KEYS[0], b'q'));
    for status in [R, E, Z] {
        script.reply(&reply(status, KEYS[0]));
    }
    script.reply(&patched(&reply(R, KEYS[0]), (5, b"X")));
    script.used();
    script.change(&Change::Count(1));
    script.held(0, 0);
    script.open(&request(KEYS[1]));
    script.reply(&reply(R, KEYS[0]));
    script.change(&Change::Count(0));
    script.open(&request(KEYS[1]));
    script.reset();
    script.used();
}

pub fn add_all(cases: &mut Cases) {
    add_capacities(cases);
    add_small_desks(cases);
    add_filled_desk(cases);
}

/// Lengths on both sides of every limit. Each of the three (256, whole cells and marks) is the
/// least for some of them.
const LENGTHS: [usize; 9] = [0, 50, 51, 101, 102, 13_055, 13_056, 13_107, 15_300];
const MARKS: [usize; 7] = [0, 1, 2, 255, 256, 257, 300];

fn add_capacities(cases: &mut Cases) {
    for bytes in LENGTHS {
        for marks in MARKS {
            Script::lend(cases, bytes, marks);
        }
    }
    Script::lend(cases, 15_400, 310);
    Script::lend(cases, 15_400, 0);
}

/// Desks that are full at once or very soon. They are filled to their capacity and get one reply
/// more.
fn add_small_desks(cases: &mut Cases) {
    for (bytes, marks) in [
        (0, 0),
        (0, 300),
        (50, 1),
        (51, 0),
        (51, 1),
        (51, 300),
        (101, 2),
        (102, 1),
        (102, 2),
        (103, 3),
        (15_300, 0),
        (15_300, 2),
    ] {
        let mut script = Script::lend(cases, bytes, marks);
        script.open_all(&KEYS[..1]);
        for bib in 0..=script.desk().capacity() {
            script.reply(&reply_with_bib(R, KEYS[0], bib));
        }
    }
}

/// The status and the key of the reply that goes to this cell. Seat 2 ends early, seat 1 late.
fn record_of(cell: usize) -> (u8, Key) {
    match cell {
        20 => (Z, KEYS[2]),
        253 => (E, KEYS[1]),
        _ if cell > 253 || cell.is_multiple_of(3) => (R, KEYS[0]),
        _ => (R, KEYS[1]),
    }
}

/// More is lent than a desk has cells. The desk is filled to its last cell. One more record past
/// that, good in itself, makes it no desk. Then all its records have the same letter and status.
fn add_filled_desk(cases: &mut Cases) {
    let mut script = Script::lend(cases, 15_300, 300);
    script.open_all(&KEYS);
    for cell in 0..MOST_CELLS {
        let (status, key) = record_of(cell);
        script.reply(&reply_with_bib(status, key, 59_999 - cell));
    }
    let last = reply(R, KEYS[0]);
    add_refusals_of_full_desk(&mut script);
    for (seat, place) in [
        (0, 0),
        (0, 1),
        (0, 253),
        (0, 255),
        (0, 256),
        (1, 252),
        (1, 254),
        (2, 0),
        (2, 21),
    ] {
        script.held(seat, place);
    }
    let full = script.desk().clone();
    let held = full.seats[0].held + 1;
    script.change_all(&[
        Change::Cell(MOST_CELLS * CELL, last.clone()),
        Change::Mark(MOST_CELLS, 0),
        Change::Seat(0, seat_of(KEYS[0], held, 0)),
        Change::Count(257),
    ]);
    script.mend_tally();
    script.open(&request((b' ', b'b', 1)));
    script.reply(&last);
    script.held(0, 256);
    script.put_back(&full);
    script.open(&request((b' ', b'b', 1)));
    script.reply(&last);
    // One wrong cell is enough to make it no desk, the first or the last.
    for cell in [0, MOST_CELLS - 1] {
        script.change(&Change::Cell(cell * CELL + 50, vec![0]));
        script.reply(&last);
        script.change(&Change::Cell(cell * CELL + 50, vec![0x0d]));
    }
    script.reply(&last);
    add_256_alike(&mut script);
    script.reset();
    script.held(0, 0);
    script.open_all(&KEYS[..1]);
    script.reply(&last);
}

/// The E and the Z of the full desk become R too. The tally has 256 in one place then, which is
/// more than a byte can hold.
fn add_256_alike(script: &mut Script) {
    for (seat, cell) in [(1, 253), (2, 20)] {
        let held = script.desk().seats[seat].held;
        script.change(&Change::Cell(cell * CELL + at::STATUS, vec![R]));
        script.change(&Change::Seat(seat, seat_of(KEYS[seat], held, 0)));
    }
    script.mend_tally();
    for number in [256, 0, 255, 257, 65_792, 256] {
        script.change(&Change::Tally(ROW_OF_P, 0, number));
        script.look(b'P', R);
        script.open(&request(KEYS[0]));
        script.reply(&reply(R, KEYS[1]));
    }
}

fn add_refusals_of_full_desk(script: &mut Script) {
    for (status, key) in [
        (R, (b' ', b'1', 8)),
        (R, KEYS[1]),
        (Z, KEYS[2]),
        (Z, KEYS[0]),
        (R, KEYS[0]),
        (E, KEYS[0]),
    ] {
        script.reply(&reply(status, key));
    }
    script.open(&request(KEYS[1]));
}

#[cfg(test)]
mod tests {
    use super::*;
    use crate::cases::desk::script::tests::outcomes;

    #[test]
    fn a_desk_without_cells() {
        let expected = [
            "0", "none", "none", "0 0 0 0", "17 0 0 0", "0 0 0 0", "1 0 0 0", "13 0 0 0",
            "0 0 0 0", "11 0 0 0", "10 0 0 0", "16 0 0 0", "16 0 0 0", "16 0 0 0", "5 5 5 0", "1",
            "set", "none", "9 0 0 0", "9 0 0 0", "set", "0 0 0 1", "0 0 0 0", "0",
        ];
        assert_eq!(outcomes(add_nothing_lent), expected);
    }

    #[test]
    fn each_of_the_three_is_the_least() {
        let answers = outcomes(add_capacities);
        let by_length: Vec<&[String]> = answers.chunks(MARKS.len()).collect();
        assert_eq!(by_length[1], ["0"; 7]);
        assert_eq!(by_length[3], ["0", "1", "1", "1", "1", "1", "1"]);
        assert_eq!(by_length[5], ["0", "1", "2", "255", "255", "255", "255"]);
        assert_eq!(by_length[8], ["0", "1", "2", "255", "256", "256", "256"]);
        assert_eq!(by_length[9], ["256", "0"]);
    }

    #[test]
    fn small_desks_are_full_at_their_capacity() {
        let answers = outcomes(add_small_desks);
        let fulls = answers.iter().filter(|answer| *answer == "16 0 0 0");
        assert_eq!(fulls.count(), 12);
        // Capacities 0, 1 and 2 occur five, four and three times.
        let taken = answers.iter().filter(|answer| *answer == "0 0 0 0");
        assert_eq!(taken.count(), 12 + 4 + 2 * 3);
    }

    #[test]
    fn a_filled_desk() {
        let answers = outcomes(add_filled_desk);
        let (filling, rest) = answers[4..].split_at(MOST_CELLS);
        assert!(filling.iter().all(|answer| answer.starts_with("0 0 0 ")));
        assert_eq!(
            rest[..7],
            ["13 0 0 0", "14 0 0 0", "14 0 0 0", "15 0 0 0", "16 0 0 0", "16 0 0 0", "11 0 0 0"]
        );
        assert_eq!(
            rest[7..16],
            ["0", "3", "254", "255", "none", "253", "none", "20", "none"]
        );
        assert_eq!(rest[21..24], ["9 0 0 0", "9 0 0 0", "none"]);
        assert_eq!(
            rest[27..36],
            [
                "0 0 0 3", "16 0 0 0", "set", "9 0 0 0", "set", "set", "9 0 0 0", "set",
                "16 0 0 0",
            ]
        );
        assert_eq!(rest[67..], ["0 0 0 0", "none", "0 0 0 0", "0 0 0 0"]);
    }

    #[test]
    fn a_number_of_256_in_the_tally() {
        let answers = outcomes(add_filled_desk);
        let alike = &answers[4 + MOST_CELLS + 36..][..7 + 6 * 4];
        assert_eq!(alike[..7], ["set"; 7]);
        let numbers = [256, 0, 255, 257, 65_792, 256];
        for (number, lines) in numbers.into_iter().zip(alike[7..].chunks(4)) {
            let calls = match number {
                256 => ["11 0 0 0", "16 0 0 0"],
                _ => ["9 0 0 0", "9 0 0 0"],
            };
            assert_eq!(lines[..2], ["set".to_string(), format!("0 0 0 {number}")]);
            assert_eq!(lines[2..], calls);
        }
    }
}
