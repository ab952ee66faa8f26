//! Random scripts on small desks. All refusals occur often, and answers stay short.

pub mod tally;

use super::frames::{reply_with_bib, request, request_for, Key, E, R, Z};
use super::script::{seat_of, Script};
use crate::cases::frames::befall_at_random;
use crate::cases::{replaced, reply, request as requests, Cases};
use crate::desk::{Desk, Seat, CELL};
use crate::random::Random;
use crate::reply::at;
use crate::script::Change;

const SCRIPTS: usize = 200;

/// Few keys, so that the same key comes often. All but the last differ from the first in only one
/// part: two in the address, two in the requester and one in the number.
const KEYS: [Key; 7] = [
    (b' ', b'1', 7),
    (b'0', b'1', 7),
    (b'3', b'1', 7),
    (b' ', b'A', 7),
    (b' ', b'a', 7),
    (b' ', b'1', 8),
    (b'9', b'z', 0),
];

pub fn add_all(cases: &mut Cases, random: &mut Random) {
    for _ in 0..SCRIPTS {
        add_script(cases, random);
    }
}

pub fn add_script(cases: &mut Cases, random: &mut Random) {
    let cells = random.pick(&[0, 1, 2, 3, 3, 4, 4, 5, 6]);
    let bytes = cells * CELL + random.pick(&[0, 0, 0, 1, 50]);
    let marks = random.pick(&[cells, cells, cells + 1, 3]);
    let mut script = Script::lend(cases, bytes, marks);
    if random.once_in(8) {
        use_most_seats(&mut script);
    }
    for _ in 0..2 {
        script.open(&request(random.pick(&KEYS)));
    }
    let most_lines = script.lines() + 17 + random.place(14);
    while script.lines() < most_lines {
        add_step(&mut script, random);
    }
}

/// Puts all seats in use except three, the lowest and two others.
fn use_most_seats(script: &mut Script) {
    const FREE: [usize; 3] = [0, 6, 15];
    let mut bits = 0;
    for seat in (0..16).filter(|seat| !FREE.contains(seat)) {
        let key = (b' ', b'B', seat as u32);
        script.change(&Change::Seat(seat, seat_of(key, 0, 0)));
        bits |= 1 << seat;
    }
    script.change(&Change::Bits(bits));
}

fn add_step(script: &mut Script, random: &mut Random) {
    match random.below(20) {
        0..=13 => add_call(script, random),
        14 => script.used(),
        15 | 16 => add_look(script, random),
        17 if random.once_in(2) => script.reset(),
        _ => add_spoils(script, random),
    }
}

fn add_call(script: &mut Script, random: &mut Random) {
    match random.below(14) {
        0..=3 => script.open(&request(random.pick(&KEYS))),
        4 => script.open(&random_request(random)),
        5 => script.reply(&random_reply(random)),
        _ => script.reply(&good_reply(random)),
    }
}

fn good_reply(random: &mut Random) -> Vec<u8> {
    let status = random.pick(&[R, R, R, R, E, Z, Z]);
    let frame = reply_with_bib(status, random.pick(&KEYS), random.place(60_000));
    // Letters whose time and date are raw.
    replaced(&frame, at::INFORMATION, &[random.pick(b"PPPAXp")])
}

/// A request that no answer is due to, or one with a random change.
fn random_request(random: &mut Random) -> Vec<u8> {
    let key = random.pick(&KEYS);
    if random.once_in(3) {
        return request_for(key, b'q');
    }
    let mut frame = request(key);
    befall_at_random(&mut frame, &requests::NUMBERS, random);
    frame
}

/// A stray, a reply with a random change, or a frame of another kind.
fn random_reply(random: &mut Random) -> Vec<u8> {
    match random.below(12) {
        0..=3 => return reply_with_bib(R, stray_key(random), 1),
        4 => return request(random.pick(&KEYS)),
        _ => {}
    }
    let mut frame = good_reply(random);
    befall_at_random(&mut frame, &reply::NUMBERS, random);
    frame
}

/// One of the keys with another address or another number. Sometimes another request has that key.
fn stray_key(random: &mut Random) -> Key {
    let (address, requester, number) = random.pick(&KEYS);
    match random.below(3) {
        0 => (random.pick(b"0159"), requester, number),
        _ => {
            let number = number + random.pick(&[1, 2, 1_000, 65_536]);
            (address, requester, number)
        }
    }
}

fn add_look(script: &mut Script, random: &mut Random) {
    if random.once_in(3) {
        let (letter, status) = tally::look(script.desk(), random);
        script.look(letter, status);
        return;
    }
    let seat = random.pick(&[0, 0, 1, 1, 2, 3, 16, 0xeeee_eeee]);
    script.held(seat, random.place(6));
}

/// Changes something in the desk and makes some calls. Then the desk is put back as it was, or
/// reset.
fn add_spoils(script: &mut Script, random: &mut Random) {
    let kept = script.desk().clone();
    if random.once_in(6) {
        script.change(&tally::change(&kept, random));
    } else {
        for _ in 0..1 + random.below(2) {
            let change = random_change(script.desk(), random);
            script.change(&change);
        }
        // Most of the time the tally agrees with what the cells hold now.
        if !random.once_in(8) {
            script.mend_tally();
        }
    }
    for _ in 0..1 + random.below(2) {
        add_call(script, random);
    }
    if random.once_in(4) {
        script.reset();
    } else {
        script.put_back(&kept);
    }
}

/// A change that usually leaves no desk. The tally stays.
pub fn random_change(desk: &Desk, random: &mut Random) -> Change {
    match random.below(10) {
        0 | 1 if !desk.marks.is_empty() => {
            let place = random.place(desk.marks.len());
            Change::Mark(place, random.pick(&[0, 1, 2, 3, 16, 256]))
        }
        2..=5 if desk.cells.len() >= CELL => random_cell(desk, random),
        6 => Change::Bits(desk.bits ^ 1 << random.pick(&[0, 1, 2, 3, 15, 16, 62])),
        7 => Change::Count(random.pick(&[0, 1, 2, 3, 4, 256, u32::MAX])),
        _ => random_seat(desk, random),
    }
}

/// Changes one byte of a cell: the status, the address, the requester, the last digit of the
/// number, or any byte. Usually the cell is not free.
fn random_cell(desk: &Desk, random: &mut Random) -> Change {
    let cells = desk.cells.len() / CELL;
    let taken = usize::try_from(desk.count).map_or(cells, |count| count.clamp(1, cells));
    let among = if random.once_in(4) { cells } else { taken };
    let first = random.place(among) * CELL;
    let (offset, code) = match random.below(7) {
        0..=2 => (at::STATUS, random.pick(&[R, E, Z])),
        3 => (at::ADDRESS, random.pick(b" 039-/")),
        4 => (at::REQUESTER, random.pick(b"1AaBz[")),
        5 => (at::NUMBER + 4, random.pick(b"078")),
        _ => (random.place(CELL), random.byte()),
    };
    Change::Cell(first + offset, vec![code])
}

/// A seat with one part changed.
fn random_seat(desk: &Desk, random: &mut Random) -> Change {
    let place = random.pick(&[0, 0, 1, 1, 2, 3, 15]);
    let mut seat: Seat = desk.seats[place];
    match random.below(5) {
        0 => seat.address = random.pick(&[0, 31, 32, 45, 48, 51, 57, 304]),
        1 => seat.requester = random.pick(&[0, 49, 65, 66, 91, 97, 304]),
        2 => seat.number = random.pick(&[0, 7, 8, 999, 1_000, 65_543]),
        3 => seat.held = random.pick(&[0, 1, 2, 3, 257]),
        _ => seat.ended = random.pick(&[0, 1, 2]),
    }
    Change::Seat(place, seat)
}

#[cfg(test)]
mod tests {
    use super::*;
    use crate::answers;
    use std::collections::BTreeSet;

    fn text(seed: u64) -> String {
        let mut cases = Cases::default();
        add_all(&mut cases, &mut Random::new(seed, "test"));
        cases.text
    }

    #[test]
    fn every_line_is_a_case() {
        for seed in 0..10 {
            let answers = answers::file(text(seed).as_bytes());
            assert!(answers.is_ok(), "{answers:?}");
        }
    }

    #[test]
    fn scripts_are_many_and_short() {
        let text = text(1);
        let scripts: Vec<usize> = text
            .split("lend ")
            .skip(1)
            .map(|script| script.lines().count())
            .collect();
        assert!(scripts.len() >= 200);
        assert!(scripts.iter().all(|lines| (20..=60).contains(lines)));
        let short = scripts.iter().filter(|&&lines| lines <= 40);
        assert!(short.count() > 150);
    }

    /// The numbers that the answers to these calls begin with.
    fn numbers(text: &str, call: &str) -> BTreeSet<u32> {
        let answers = answers::by_case(text.as_bytes()).expect("cases");
        let calls = text.lines().zip(&answers);
        calls
            .filter(|(line, _)| line.starts_with(call))
            .filter_map(|(_, answer)| answer.first()?.split(' ').next()?.parse().ok())
            .collect()
    }

    #[test]
    fn every_refusal_comes() {
        let text = text(1);
        let openings = BTreeSet::from([0, 1, 2, 3, 4, 5, 9, 10, 11, 12]);
        assert_eq!(numbers(&text, "open "), openings);
        let replies = BTreeSet::from([0, 1, 2, 3, 4, 5, 9, 13, 14, 15, 16]);
        assert_eq!(numbers(&text, "reply "), replies);
        assert_eq!(numbers(&text, "reset"), BTreeSet::from([0]));
        assert_eq!(numbers(&text, "look "), BTreeSet::from([0, 17]));
    }
}
