//! Scripts about opening requests.

use super::frames::{
    of_wrong_length, patched, reply, request, request_for, Key, E, R, REQUEST_DAMAGES, Z,
};
use super::script::{seat_of, Script};
use crate::cases::Cases;
use crate::desk::SEATS;
use crate::request::INFORMATION;
use crate::script::Change;

pub fn add_all(cases: &mut Cases) {
    add_keys(cases);
    add_letters(cases);
    add_other_fields(cases);
    add_reader_refusals(cases);
    add_seventeen(cases);
    add_gaps(cases);
}

/// Keys, most of which differ from another one in only one part. Then each of them again. Then
/// three of them after a reply: an R, an E and a Z.
fn add_keys(cases: &mut Cases) {
    const KEYS: [Key; 9] = [
        (b' ', b'0', 0),
        (b' ', b'A', 7),
        (b' ', b'a', 7),
        (b' ', b'1', 7),
        (b' ', b'A', 8),
        (b' ', b'A', 70),
        (b' ', b'A', 700),
        (b' ', b'Z', 999),
        (b' ', b'z', 999),
    ];
    let mut script = Script::lend_cells(cases, 3);
    script.open_all(&KEYS);
    script.used();
    script.open_all(&KEYS);
    for (status, key) in [(R, KEYS[1]), (E, KEYS[2]), (Z, KEYS[0])] {
        script.reply(&reply(status, key));
        script.open(&request(key));
    }
    script.open(&request((b' ', b'A', 0)));
    script.used();
}

/// Every letter of a request on an empty desk. The letter that is refused also comes with a key in
/// use.
fn add_letters(cases: &mut Cases) {
    let mut script = Script::lend(cases, 0, 0);
    for &letter in INFORMATION {
        script.open(&request_for((b' ', b'1', 7), letter));
        script.reset();
    }
    script.open(&request((b' ', b'1', 7)));
    script.open(&request_for((b' ', b'1', 7), b'q'));
    script.open(&request_for((b' ', b'1', 8), b'q'));
}

/// Requests with fields at their limits. A key in use stays in use if the other fields differ.
fn add_other_fields(cases: &mut Cases) {
    let mut script = Script::lend(cases, 0, 0);
    script.open(b"\x11R z99959999L255250199T\r");
    script.open(b"\x11R z99900000P000000000S\r");
    script.open(b"\x11R z99800001*248001001A\r");
    script.open(b"\x11R 0000000000000000000B\r");
}

/// Every refusal of the reader: for a free key, for a key in use, and with all seats in use.
fn add_reader_refusals(cases: &mut Cases) {
    let mut script = Script::lend(cases, 51, 1);
    script.open(&request((b' ', b'A', 7)));
    add_damaged(&mut script, (b' ', b'A', 8));
    add_damaged(&mut script, (b' ', b'A', 7));
    script.open(&reply(R, (b' ', b'A', 8)));
    script.open(b"\x13R 1A000150010020004125500301234567898200100S\r");
    script.open(&request((b' ', b'A', 8)));
    let mut script = Script::lend(cases, 0, 0);
    use_seats(&mut script, 0xffff);
    add_damaged(&mut script, (b' ', b'z', 0));
    script.open(&request((b' ', b'z', 0)));
}

fn add_damaged(script: &mut Script, key: Key) {
    let frame = request(key);
    for damage in REQUEST_DAMAGES {
        script.open(&patched(&frame, damage));
    }
    for frame in of_wrong_length(&frame) {
        script.open(&frame);
    }
}

/// Sixteen seats, the seventeenth request, and the refusals that come before NO SEAT.
fn add_seventeen(cases: &mut Cases) {
    let mut script = Script::lend_cells(cases, 2);
    for seat in 0..SEATS {
        script.open(&request(key_at(seat)));
        script.used();
    }
    script.open(&request((b' ', b'z', 7)));
    for key in [key_at(0), key_at(7), key_at(15)] {
        script.open(&request(key));
        script.open(&request_for(key, b'q'));
    }
    script.open(&request_for((b' ', b'z', 7), b'q'));
    // An ended seat is not free.
    script.reply(&reply(E, key_at(15)));
    script.reply(&reply(Z, key_at(0)));
    script.open(&request(key_at(15)));
    script.open(&request((b' ', b'z', 7)));
    script.reset();
    script.used();
    script.open(&request((b' ', b'z', 7)));
    script.open(&request(key_at(15)));
}

fn key_at(seat: usize) -> Key {
    (b' ', b'A' + seat as u8, seat as u32)
}

/// Puts these seats in use from outside.
fn use_seats(script: &mut Script, bits: u64) {
    for seat in (0..SEATS).filter(|&seat| (bits >> seat) & 1 == 1) {
        script.change(&Change::Seat(seat, seat_of(key_at(seat), 0, 0)));
    }
    script.change(&Change::Bits(bits));
}

/// Seats in use with gaps between them. The gaps are filled from the lowest up.
fn add_gaps(cases: &mut Cases) {
    for bits in [
        0x000d, 0xfffe, 0x7fff, 0xff7f, 0x5555, 0xaaaa, 0x8000, 0x00ff,
    ] {
        let mut script = Script::lend_cells(cases, 1);
        use_seats(&mut script, bits);
        let gaps = SEATS - bits.count_ones() as usize;
        // Fills all gaps and asks for one seat more. If there are more than eight gaps, only nine
        // requests come.
        for number in 0..=gaps.min(8) {
            script.open(&request((b' ', b'z', number as u32)));
        }
        script.reply(&reply(R, (b' ', b'z', 0)));
        script.used();
    }
}

#[cfg(test)]
mod tests {
    use super::*;
    use crate::cases::desk::script::tests::outcomes;

    #[test]
    fn keys_are_free_once() {
        let answers = outcomes(add_keys);
        let seats: Vec<String> = (0..9).map(|seat| format!("0 0 0 {seat}")).collect();
        assert_eq!(answers[1..10], seats);
        assert!(answers[11..20].iter().all(|answer| answer == "11 0 0 0"));
        let rest = [
            "0 0 0 1", "11 0 0 0", "0 0 0 2", "11 0 0 0", "0 0 0 0", "11 0 0 0",
        ];
        assert_eq!(answers[20..26], rest);
        assert_eq!(answers[26], "0 0 0 9");
    }

    #[test]
    fn one_letter_is_refused() {
        let answers = outcomes(add_letters);
        let (letters, rest) = answers[1..].split_at(2 * INFORMATION.len());
        for (&letter, answers) in INFORMATION.iter().zip(letters.chunks(2)) {
            let expected = if letter == b'q' {
                "10 0 0 0"
            } else {
                "0 0 0 0"
            };
            assert_eq!(answers, [expected, "0 0 0 0"]);
        }
        assert_eq!(rest, ["0 0 0 0", "10 0 0 0", "10 0 0 0"]);
    }

    #[test]
    fn other_fields_do_not_tell_requests_apart() {
        let answers = outcomes(add_other_fields);
        assert_eq!(answers[1..], ["0 0 0 0", "11 0 0 0", "0 0 0 1", "0 0 0 2"]);
    }

    #[test]
    fn the_reader_refuses_first() {
        let answers = outcomes(add_reader_refusals);
        let refused = REQUEST_DAMAGES.len() + 4;
        let (first, rest) = answers[2..].split_at(refused);
        let (second, rest) = rest.split_at(refused);
        assert_eq!(first, second);
        assert_eq!(rest[..3], ["1 0 0 0", "1 0 0 0", "0 0 0 1"]);
        let (third, last) = rest[3 + 1 + SEATS + 1..].split_at(refused);
        assert_eq!(first, third);
        assert_eq!(last, ["12 0 0 0"]);
        for expected in [
            "1 0 0 0",
            "2 0 0 0",
            "3 0 0 0",
            "4 0 0 0",
            "5 3 3 0",
            "5 13 13 0",
            "5 22 22 0",
        ] {
            assert!(first.iter().any(|answer| answer == expected), "{expected}");
        }
    }

    #[test]
    fn the_seventeenth_is_refused_last() {
        let answers = outcomes(add_seventeen);
        let expected = [
            "12 0 0 0", "11 0 0 0", "10 0 0 0", "11 0 0 0", "10 0 0 0", "11 0 0 0", "10 0 0 0",
            "10 0 0 0", "0 0 0 15", "0 0 0 0", "11 0 0 0", "12 0 0 0", "0 0 0 0", "0", "0 0 0 0",
            "0 0 0 1",
        ];
        assert_eq!(answers[1 + 2 * SEATS..], expected);
    }

    #[test]
    fn gaps_are_filled_from_below() {
        let answers = outcomes(add_gaps);
        // Seats 0, 2 and 3 are in use.
        assert_eq!(answers[5..9], ["0 0 0 1", "0 0 0 4", "0 0 0 5", "0 0 0 6"]);
        // Six of the desks have at most eight gaps. On each of them the last request finds no seat.
        let of_many: Vec<&String> = answers
            .iter()
            .filter(|answer| *answer == "12 0 0 0")
            .collect();
        assert_eq!(of_many.len(), 6);
        assert!(answers.contains(&"0 0 0 15".to_string()));
    }
}
