//! Scripts about replies.

use super::frames::{
    of_wrong_length, patched, reply, reply_with_bib, request, Key, E, R, REPLY_DAMAGES, Z,
};
use super::script::Script;
use crate::cases::Cases;
use crate::desk::SEATS;
use crate::reply::at;

const ONE: Key = (b' ', b'1', 7);
const OTHER: Key = (b' ', b'A', 7);
const THIRD: Key = (b' ', b'z', 0);

pub fn add_all(cases: &mut Cases) {
    add_example(cases);
    add_words(cases);
    add_same_reply(cases);
    add_strays(cases);
    add_full_desk(cases);
    add_reader_refusals(cases);
    add_all_kinds(cases);
    add_all_seats(cases);
    add_signs(cases);
}

/// The input of the listing example.
fn add_example(cases: &mut Cases) {
    let first = b"\x12R SOR10000700015000002000000P000000000000000000  \r";
    let second = b"\x12R SOEA000120004100000101525510001125400+0000000  \r";
    let mut script = Script::lend_cells(cases, 4);
    script.open(b"\x11R 100700000P000002000S\r");
    script.open(b"\x11R A012000411255001000S\r");
    script.reply(first);
    script.reply(second);
    script.reply(b"\x12R SOE10000700022000002000000P000000000000000000  \r");
    script.reply(second);
}

/// Each word is the replies to one request. In each word some replies are refused.
fn add_words(cases: &mut Cases) {
    for word in ["EREZ", "ZREZ", "RZRZREZR", "RREE", "RZE", "ZZ", "EE"] {
        let mut script = Script::lend_cells(cases, 5);
        script.open_all(&[ONE, OTHER]);
        for (number, status) in word.bytes().enumerate() {
            // The bibs decrease. Records must not be sorted by them.
            script.reply(&reply_with_bib(status, ONE, 40 - number));
        }
        script.reply(&reply(R, OTHER));
        script.held(0, 0);
        script.held(1, 0);
    }
}

fn add_same_reply(cases: &mut Cases) {
    let mut script = Script::lend_cells(cases, 4);
    script.open_all(&[ONE]);
    for status in [R, R, R, E, E] {
        script.reply(&reply(status, ONE));
    }
}

/// Replies whose key no seat has. Some would match a seat if their number were cut to three digits
/// or to sixteen bits, or if small letters were taken for capitals.
fn add_strays(cases: &mut Cases) {
    let mut script = Script::lend_cells(cases, 4);
    script.reply(&reply(R, ONE));
    script.open_all(&[ONE, OTHER, THIRD, (b' ', b'a', 999)]);
    for number in [
        0, 6, 8, 70, 77, 700, 999, 1_000, 1_007, 7_007, 10_007, 65_543, 99_999,
    ] {
        script.reply(&reply(R, (b' ', b'1', number)));
    }
    for stray in [
        (b' ', b'a', 7),
        (b' ', b'B', 7),
        (b' ', b'0', 7),
        (b' ', b'Z', 0),
        (b' ', b'z', 1_000),
        (b' ', b'z', 65_536),
        (b' ', b'a', 1_999),
        (b' ', b'A', 999),
    ] {
        script.reply(&reply(Z, stray));
    }
    for key in [ONE, OTHER, THIRD, (b' ', b'a', 999)] {
        script.reply(&reply(R, key));
    }
}

/// Which refusal comes first if no cell is free.
fn add_full_desk(cases: &mut Cases) {
    for cells in [2, 3] {
        let mut script = Script::lend_cells(cases, cells);
        script.open_all(&[ONE, OTHER, THIRD]);
        script.reply(&reply(E, OTHER));
        for bib in 1..cells {
            script.reply(&reply_with_bib(R, ONE, bib));
        }
        let frames = [
            reply(R, (b' ', b'z', 1)),
            reply(Z, (b' ', b'1', 1_007)),
            reply(R, OTHER),
            reply(E, OTHER),
            reply(Z, OTHER),
            reply(Z, ONE),
            reply(R, ONE),
            reply(E, ONE),
            reply(R, THIRD),
            reply(Z, THIRD),
            patched(&reply(R, ONE), (5, b"Q")),
            patched(&reply(Z, (b' ', b'z', 1)), (50, b"\n")),
        ];
        for frame in &frames {
            script.reply(frame);
        }
        // Opening needs no cell, and a reset frees all cells.
        script.open(&request((b' ', b'z', 1)));
        script.reset();
        script.open_all(&[THIRD]);
        script.reply(&reply(Z, THIRD));
    }
}

/// Every refusal of the reader for an open key. Then the damaged replies again, for an ended key
/// and a stray in turn.
fn add_reader_refusals(cases: &mut Cases) {
    let mut script = Script::lend_cells(cases, 2);
    script.open_all(&[ONE, OTHER]);
    script.reply(&reply(E, OTHER));
    for damage in REPLY_DAMAGES {
        script.reply(&patched(&reply(R, ONE), damage));
    }
    for frame in of_wrong_length(&reply(R, ONE)) {
        script.reply(&frame);
    }
    for (number, damage) in REPLY_DAMAGES.into_iter().enumerate() {
        let key = if number % 2 == 0 { OTHER } else { THIRD };
        script.reply(&patched(&reply(R, key), damage));
    }
    script.reply(&request(ONE));
    script.reply(b"\x13R 1A000150010020004125500301234567898200100S\r");
    script.reply(&reply(R, ONE));
}

/// Replies of each kind, some with a wrong time or date. Those that are taken are kept byte for
/// byte, whatever the request asked for.
fn add_all_kinds(cases: &mut Cases) {
    let mut script = Script::lend_cells(cases, 6);
    script.open_all(&[ONE, OTHER]);
    for frame in [
        b"\x12R ~ R10000759999199250999240K235959999929022024xy\r",
        b"\x12R  ~R10000700000000001000245s000000000001012000~~\r",
        b"\x12R GmR100007000410000010152551000112540000000001  \r",
        b"\x12R GmR1000070004100000101525510001125400-0000000  \r",
        b"\x12R GmR1000070004100000101525512400000000+0000000  \r",
        b"\x12R GmR1000070004100000101525510001125400-0000001  \r",
        b"\x12R xxE10000700001000007000250X --:--.---no date!#~\r",
        b"\x12R ~ ZA0000730000100000999249s--:--.----no date!#~\r",
    ] {
        script.reply(frame);
    }
    script.held(0, 0);
    script.held(1, 0);
}

/// A record for every seat from the last to the first, then the last record of each. For the last
/// three there is no free cell.
fn add_all_seats(cases: &mut Cases) {
    let keys: Vec<Key> = (0..SEATS)
        .map(|seat| (b' ', b'0' + seat as u8 % 4, seat as u32 / 4))
        .collect();
    let mut script = Script::lend_cells(cases, 2 * SEATS - 3);
    script.open_all(&keys);
    for (bib, &key) in keys.iter().enumerate().rev() {
        script.reply(&reply_with_bib(R, key, bib));
    }
    for (bib, &key) in keys.iter().enumerate() {
        script.reply(&reply_with_bib(E, key, bib));
    }
    for seat in 0..SEATS {
        script.held(seat as u32, 0);
        script.held(seat as u32, SEATS);
    }
    script.reset();
}

/// Net replies with a minus, with days and without. Those with neither days nor time are refused
/// between the others, unless they are not available.
fn add_signs(cases: &mut Cases) {
    let signed = |status, key, timing: &'static [u8]| {
        patched(&reply(status, key), (at::INFORMATION, timing))
    };
    let mut script = Script::lend_cells(cases, 8);
    script.open_all(&[ONE, OTHER, THIRD]);
    for (status, timing) in [
        (R, b"10000010000-0000000"),
        (R, b"10000000000-0000000"),
        (R, b"20000000001-0000000"),
        (R, b"20000000000-0000000"),
        (R, b"22359599999-0000000"),
        (R, b"30000000000-0000001"),
        (R, b"32359590000-0000001"),
        (E, b"30000000000-0000000"),
        (E, b"32359599999-9999999"),
        // The reader refuses before the desk is asked: this seat has its E.
        (E, b"30000000000-0000000"),
    ] {
        script.reply(&signed(status, ONE, timing));
    }
    for status in [R, Z, Z] {
        script.reply(&signed(status, OTHER, b"10000000000-0000000"));
    }
    script.reply(&signed(R, THIRD, b"S0000000001-0000000"));
    script.reply(&signed(R, THIRD, b"P0000000000-0000000"));
    for seat in 0..3 {
        script.held(seat, 0);
        script.held(seat, 1);
    }
}

#[cfg(test)]
mod tests {
    use super::*;
    use crate::cases::desk::script::tests::outcomes;

    #[test]
    fn the_example_takes_three_replies() {
        let answers = outcomes(add_example);
        let expected = [
            "4", "0 0 0 0", "0 0 0 1", "0 0 0 0", "0 0 0 1", "0 0 0 0", "14 0 0 0",
        ];
        assert_eq!(answers, expected);
    }

    #[test]
    fn words_end_where_they_should() {
        let answers = outcomes(add_words);
        let mut scripts = answers.split(|answer| answer == "5").skip(1);
        let mut check = |expected: &[&str]| {
            let script = scripts.next().expect("a script");
            assert_eq!(script[2..script.len() - 3], *expected);
        };
        check(&["0 0 0 0", "14 0 0 0", "14 0 0 0", "14 0 0 0"]);
        check(&["0 0 0 0", "14 0 0 0", "14 0 0 0", "14 0 0 0"]);
        check(&[
            "0 0 0 0", "15 0 0 0", "0 0 0 0", "15 0 0 0", "0 0 0 0", "0 0 0 0", "14 0 0 0",
            "14 0 0 0",
        ]);
        check(&["0 0 0 0", "0 0 0 0", "0 0 0 0", "14 0 0 0"]);
        check(&["0 0 0 0", "15 0 0 0", "0 0 0 0"]);
    }

    #[test]
    fn the_same_reply_is_taken_again() {
        let answers = outcomes(add_same_reply);
        assert_eq!(
            answers[2..],
            ["0 0 0 0", "0 0 0 0", "0 0 0 0", "0 0 0 0", "14 0 0 0"]
        );
    }

    #[test]
    fn strays_are_all_strays() {
        let answers = outcomes(add_strays);
        assert_eq!(answers[1], "13 0 0 0");
        let (strays, taken) = answers[6..].split_at(13 + 8);
        assert!(strays.iter().all(|answer| answer == "13 0 0 0"));
        assert_eq!(taken, ["0 0 0 0", "0 0 0 1", "0 0 0 2", "0 0 0 3"]);
    }

    #[test]
    fn a_full_desk_refuses_in_order() {
        let answers = outcomes(add_full_desk);
        let expected = [
            "13 0 0 0", "13 0 0 0", "14 0 0 0", "14 0 0 0", "14 0 0 0", "15 0 0 0", "16 0 0 0",
            "16 0 0 0", "16 0 0 0", "16 0 0 0", "5 5 5 0", "3 0 0 0", "0 0 0 3", "0 0 0 0",
            "0 0 0 0", "0 0 0 0",
        ];
        assert_eq!(answers[6..22], expected);
        assert_eq!(answers[22 + 7..], expected);
    }

    #[test]
    fn the_reader_refuses_first() {
        let answers = outcomes(add_reader_refusals);
        let (refused, last) = answers[4..].split_at(2 * REPLY_DAMAGES.len() + 4 + 2);
        assert_eq!(last, ["0 0 0 0"]);
        for answer in refused {
            assert!(
                ["1 ", "2 ", "3 ", "4 ", "5 "].contains(&&answer[..2]),
                "{answer}"
            );
        }
        for offset in [3, 4, 5, 6, 7, 12, 17, 20, 23, 26, 29, 30, 40, 48] {
            let begin = format!("5 {offset} ");
            let mut refused = refused.iter();
            assert!(refused.any(|answer| answer.starts_with(&begin)), "{offset}");
        }
    }

    #[test]
    fn kinds_are_taken_or_refused() {
        let answers = outcomes(add_all_kinds);
        let expected = [
            "0 0 0 0",
            "0 0 0 0",
            "5 40 40 0",
            "0 0 0 0",
            "5 30 30 0",
            "0 0 0 0",
            "0 0 0 0",
            "0 0 0 1",
            "0",
            "5",
        ];
        assert_eq!(answers[3..], expected);
    }

    #[test]
    fn minus_wants_days_or_a_time() {
        let (taken, wrong) = ("0 0 0 0", "5 40 40 0");
        let answers = outcomes(add_signs);
        let (first, rest) = answers[4..].split_at(10);
        let expected = [
            taken, wrong, taken, wrong, taken, taken, taken, wrong, taken, wrong,
        ];
        assert_eq!(first, expected);
        assert_eq!(rest[..3], [wrong, "0 0 0 1", "14 0 0 0"]);
        assert_eq!(rest[3..5], [wrong, "0 0 0 2"]);
        assert_eq!(rest[5..], ["0", "1", "6", "6", "7", "7"]);
    }

    /// What a refused reply leaves is what was there: the answer names no change.
    #[test]
    fn minus_zero_changes_nothing() {
        let mut cases = Cases::default();
        add_signs(&mut cases);
        let answers = crate::answers::file(cases.text.as_bytes()).expect("cases");
        let refused: Vec<&str> = answers
            .lines()
            .filter(|answer| answer.starts_with("5 40 40 "))
            .collect();
        assert_eq!(refused[..2], ["5 40 40 0 7 1", "5 40 40 0 7 2"]);
        assert!(refused.iter().all(|answer| answer.split(' ').count() == 6));
        assert_eq!(refused.len(), 6);
    }

    #[test]
    fn three_ends_find_no_cell() {
        let answers = outcomes(add_all_seats);
        assert_eq!(
            answers
                .iter()
                .filter(|answer| *answer == "16 0 0 0")
                .count(),
            3
        );
        assert_eq!(answers.iter().filter(|answer| *answer == "none").count(), 3);
    }
}
