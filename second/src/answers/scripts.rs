//! The answers of scripts. Their lines work on one desk that lasts from line to line.

use super::mixes::{self, Pair, BY_ADDRESS, BY_REQUESTER};
use super::{one_line, refusal_text, runs, DONE};
use crate::desk::tally::Tally;
use crate::desk::{Desk, SEATS};
use crate::refusal::Refusal;
use crate::script::{self, seat_text, tally_text, Change, MOST_LENT_BYTES, MOST_LENT_MARKS};
use crate::spelling::{bytes_text, parse_bytes, parse_number, parse_place, NotACase};
use std::ops::Range;

/// The answer to a line that sets a part of the desk, and the answer to a look that finds no cell.
const SET: &str = "set";
const NONE: &str = "none";

/// The lines that answer a line of a script, or nothing if the words are no such line.
pub fn answer(desk: &mut Desk, words: &[&str]) -> Option<Result<Vec<String>, NotACase>> {
    match words {
        ["looks"] => Some(Ok(looks(desk))),
        words => answer_in_one_line(desk, words).map(|answer| answer.map(one_line)),
    }
}

fn answer_in_one_line(desk: &mut Desk, words: &[&str]) -> Option<Result<String, NotACase>> {
    Some(match words {
        ["lend", bytes, marks] => lend(desk, bytes, marks),
        ["open", frame] => parse_bytes(frame).map(|frame| call(desk, |desk| desk.open(&frame))),
        ["reply", frame] => parse_bytes(frame).map(|frame| call(desk, |desk| desk.reply(&frame))),
        ["reset"] => Ok(call(desk, |desk| {
            desk.reset();
            Ok(0)
        })),
        ["used"] => Ok(desk.seats_in_use().to_string()),
        ["held", seat, place] => held(desk, seat, place),
        ["look", letter, status] => look(desk, letter, status),
        ["mixes", first, second] => play_mixes(desk, &BY_REQUESTER, first, second),
        ["mixes-by-address", first, second] => play_mixes(desk, &BY_ADDRESS, first, second),
        _ => Change::parse(words)?.and_then(|change| set(desk, &change)),
    })
}

fn lend(desk: &mut Desk, bytes: &str, marks: &str) -> Result<String, NotACase> {
    let bytes = parse_place(bytes)?;
    let marks = parse_place(marks)?;
    if bytes > MOST_LENT_BYTES || marks > MOST_LENT_MARKS {
        return Err(NotACase("more is lent than 15400 bytes and 310 marks"));
    }
    *desk = script::lend(bytes, marks);
    Ok(desk.capacity().to_string())
}

fn set(desk: &mut Desk, change: &Change) -> Result<String, NotACase> {
    change.make(desk)?;
    Ok(SET.to_string())
}

fn held(desk: &Desk, seat: &str, place: &str) -> Result<String, NotACase> {
    let cell = desk.next_held(parse_number(seat)?, parse_place(place)?);
    Ok(cell.map_or_else(|| NONE.to_string(), |cell| cell.to_string()))
}

fn look(desk: &Desk, letter: &str, status: &str) -> Result<String, NotACase> {
    let (letter, status) = (parse_code(letter)?, parse_code(status)?);
    Ok(match desk.look(letter, status) {
        Ok(number) => format!("{DONE} {number}"),
        Err(refusal) => format!("{} 0", refusal_text(refusal)),
    })
}

fn parse_code(word: &str) -> Result<u8, NotACase> {
    u8::try_from(parse_number(word)?).map_err(|_| NotACase("LETTER and STATUS are below 256"))
}

/// A line for each letter, with a look for each status.
fn looks(desk: &Desk) -> Vec<String> {
    (0..=u8::MAX)
        .map(|letter| looks_line(desk, letter))
        .collect()
}

fn looks_line(desk: &Desk, letter: u8) -> String {
    let found = |status| match desk.look(letter, status) {
        Ok(number) => (0, number),
        Err(refusal) => (refusal.number(), 0),
    };
    let runs: String = runs((0..=u8::MAX).map(found))
        .into_iter()
        .map(|(count, (refusal, number))| format!(" {count}*{refusal}.{number}"))
        .collect();
    format!("{letter}{runs}")
}

fn play_mixes(desk: &mut Desk, pair: &Pair, first: &str, second: &str) -> Result<String, NotACase> {
    let (first, second) = (mixes::parse_word(first)?, mixes::parse_word(second)?);
    let (played, digest) = pair.play(&first, &second);
    *desk = mixes::lend();
    Ok(format!("{played} {digest}"))
}

/// The outcome of a call, and everything that differs from before the call.
fn call(desk: &mut Desk, work: impl FnOnce(&mut Desk) -> Result<usize, Refusal>) -> String {
    let before = desk.clone();
    let (outcome, seat) = match work(desk) {
        Ok(seat) => (DONE.to_string(), seat),
        Err(refusal) => (refusal_text(refusal), 0),
    };
    let mut parts = vec![format!("{outcome} {seat} {} {}", desk.bits, desk.count)];
    parts.extend(changed_parts(&before, desk));
    parts.join(" ")
}

/// The seats, cells, marks and numbers of the tally that differ, in this order.
fn changed_parts(before: &Desk, after: &Desk) -> Vec<String> {
    let mut parts: Vec<String> = (0..SEATS)
        .filter(|&place| before.seats[place] != after.seats[place])
        .map(|place| seat_text(place, &after.seats[place]))
        .collect();
    if let Some(range) = differing(&before.cells, &after.cells) {
        let bytes = bytes_text(&after.cells[range.clone()]);
        parts.push(format!("cells {} {bytes}", range.start));
    }
    if let Some(range) = differing(&before.marks, &after.marks) {
        parts.push(format!("marks {}", range.start));
        parts.extend(after.marks[range].iter().map(u32::to_string));
    }
    for (row, column) in Tally::places() {
        let number = after.tally.number((row, column));
        if before.tally.number((row, column)) != number {
            parts.push(tally_text(row, column, number));
        }
    }
    parts
}

/// The range from the first place that differs to the last.
fn differing<T: PartialEq>(before: &[T], after: &[T]) -> Option<Range<usize>> {
    let differs = |&place: &usize| before[place] != after[place];
    let first = (0..before.len()).find(differs)?;
    let last = (0..before.len()).rfind(differs)?;
    Some(first..last + 1)
}

#[cfg(test)]
mod tests {
    use super::*;

    fn check(script: &[(&str, &str)]) {
        let mut desk = Desk::default();
        for (line, expected) in script {
            let words: Vec<&str> = line.split(' ').collect();
            let answer = answer(&mut desk, &words).expect("a line of a script");
            assert_eq!(answer, Ok(vec![expected.to_string()]), "{line}");
        }
    }

    /// The example's first request and its first reply.
    const OPEN: &str = "open 11522031303037303030303050303030303032303030530d";
    const REPLY: &str = "reply 125220534f52313030303037303030313530303030303230303030303050\
                         3030303030303030303030303030303030302020\
                         0d";

    #[test]
    fn nothing_is_lent_at_first() {
        check(&[
            ("used", "0"),
            ("held 0 0", "none"),
            ("reset", "0 0 0 0 0 0"),
            ("open -", "1 0 0 0 0 0"),
            (OPEN, "0 0 0 0 1 0 seat 0 32 49 7 0 0"),
            (OPEN, "11 0 0 0 1 0"),
            (REPLY, "16 0 0 0 1 0"),
            ("used", "1"),
            ("reset", "0 0 0 0 0 0 seat 0 0 0 0 0 0"),
            (REPLY, "13 0 0 0 0 0"),
        ]);
    }

    #[test]
    fn a_taken_reply_shows_what_differs() {
        let frame = REPLY.strip_prefix("reply ").expect("a reply");
        let taken =
            format!("0 0 0 0 1 1 seat 0 32 49 7 1 0 cells 0 {frame} marks 0 0 tally 12 0 1");
        let again =
            format!("0 0 0 0 1 2 seat 0 32 49 7 2 0 cells 51 {frame} marks 1 0 tally 12 0 2");
        check(&[
            ("lend 103 2", "2"),
            (OPEN, "0 0 0 0 1 0 seat 0 32 49 7 0 0"),
            (REPLY, &taken),
            (REPLY, &again),
            (REPLY, "16 0 0 0 1 2"),
            ("held 0 0", "0"),
            ("held 0 1", "1"),
            ("held 0 2", "none"),
            ("held 1 0", "none"),
            ("reset", "0 0 0 0 0 0 seat 0 0 0 0 0 0 tally 12 0 0"),
            (OPEN, "0 0 0 0 1 0 seat 0 32 49 7 0 0"),
            // The cell and its mark hold these bytes already.
            (REPLY, "0 0 0 0 1 1 seat 0 32 49 7 1 0 tally 12 0 1"),
            ("cell 102 ff", "set"),
            ("cell 54 0102", "set"),
            ("mark 1 9", "set"),
            (
                REPLY,
                "0 0 0 0 1 2 seat 0 32 49 7 2 0 cells 54 534f marks 1 0 tally 12 0 2",
            ),
        ]);
    }

    #[test]
    fn parts_set_from_outside() {
        check(&[
            ("lend 15400 310", "256"),
            ("lend 50 1", "0"),
            ("bits 9223372036854775807", "set"),
            ("used", "63"),
            (OPEN, "9 0 0 0 9223372036854775807 0"),
            ("bits 2", "set"),
            ("seat 1 53 48 5 0 0", "set"),
            (OPEN, "0 0 0 0 3 0 seat 0 32 49 7 0 0"),
            ("count 1", "set"),
            ("open 13", "9 0 0 0 3 1"),
            ("reset", "0 0 0 0 0 0 seat 0 0 0 0 0 0 seat 1 0 0 0 0 0"),
        ]);
    }

    #[test]
    fn a_tally_set_from_outside() {
        check(&[
            ("lend 51 1", "1"),
            ("tally 0 2 4294967295", "set"),
            ("tally 12 0 7", "set"),
            ("tally 32 1 1", "set"),
            ("look 48 90", "0 0 0 4294967295"),
            ("look 80 82", "0 0 0 7"),
            ("look 80 69", "0 0 0 0"),
            ("look 76 82", "17 0 0 0"),
            ("look 80 114", "17 0 0 0"),
            ("look 0 255", "17 0 0 0"),
            (OPEN, "9 0 0 0 0 0"),
            (REPLY, "9 0 0 0 0 0"),
            ("reset", "0 0 0 0 0 0 tally 0 2 0 tally 12 0 0 tally 32 1 0"),
            ("look 48 90", "0 0 0 0"),
            ("tally 5 1 3", "set"),
            ("lend 51 1", "1"),
            ("look 53 69", "0 0 0 0"),
        ]);
    }

    #[test]
    fn looks_have_a_line_for_each_letter() {
        let mut desk = Desk::default();
        desk.tally.0[12] = [7, 0, 300];
        let lines = looks(&desk);
        assert_eq!(lines.len(), 256);
        assert_eq!(lines[0], "0 256*17.0");
        assert_eq!(lines[76], "76 256*17.0");
        assert_eq!(
            lines[80],
            "80 69*17.0 1*0.0 12*17.0 1*0.7 7*17.0 1*0.300 165*17.0"
        );
        assert_eq!(
            lines[48],
            "48 69*17.0 1*0.0 12*17.0 1*0.0 7*17.0 1*0.0 165*17.0"
        );
        let found = lines.iter().filter(|line| line.contains("1*0."));
        assert_eq!(found.count(), 33);
        assert_eq!(answer(&mut desk, &["looks"]), Some(Ok(lines)));
    }

    #[test]
    fn mixes_leave_an_empty_desk() {
        for (word, pair) in [("mixes", BY_REQUESTER), ("mixes-by-address", BY_ADDRESS)] {
            let (played, digest) = pair.play(b"R", b"ZE");
            check(&[
                (OPEN, "0 0 0 0 1 0 seat 0 32 49 7 0 0"),
                (&format!("{word} R ZE"), &format!("{played} {digest}")),
                ("used", "0"),
                ("look 80 82", "0 0 0 0"),
                ("mark 7 1", "set"),
                ("cell 407 00", "set"),
            ]);
            assert_eq!(played, 3);
        }
        assert_ne!(BY_REQUESTER.play(b"R", b"ZE"), BY_ADDRESS.play(b"R", b"ZE"));
    }

    #[test]
    fn the_range_that_differs() {
        assert_eq!(differing(b"abc", b"abc"), None);
        assert_eq!(differing(b"abcde", b"aBcDe"), Some(1..4));
        assert_eq!(differing(b"abc", b"Abc"), Some(0..1));
        assert_eq!(differing(b"", b""), None);
    }

    #[test]
    fn lines_that_are_no_cases() {
        for line in [
            "lend 15401 0",
            "lend 0 311",
            "bits 9223372036854775808",
            "seat 16 0 0 0 0 0",
            "seat 0 0 0 0 0",
            "mark 0 0",
            "cell 0 00",
            "open 1",
            "reply 0D",
            "held 0 -1",
            "tally 33 0 0",
            "look 256 82",
            "look 80 256",
            "look 80 R",
            "mixes R RRRRR",
            "mixes r R",
            "mixes-by-address R RRRRR",
            "mixes-by-address r R",
        ] {
            let words: Vec<&str> = line.split(' ').collect();
            let answer = answer(&mut Desk::default(), &words);
            assert!(answer.expect("a line of a script").is_err(), "{line}");
        }
        for line in [
            "lend 0",
            "open",
            "reset 0",
            "used 1",
            "held 0",
            "tally 0 0",
            "look 80",
            "looks 80",
            "mixes R",
            "mixes-by-address R",
            "mixes-by-requester R R",
            "find -",
        ] {
            let words: Vec<&str> = line.split(' ').collect();
            assert_eq!(answer(&mut Desk::default(), &words), None, "{line}");
        }
    }
}
