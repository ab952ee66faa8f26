//! Cases of the sign of a net reply, which covers days and time together. The same time and date
//! come as a net reply and as replies of the other kinds, and their values are written back.

use super::reads::{add_damage, add_read, add_value, with_letter};
use super::writes::{add_both, record_of};
use super::{LENGTH, NET};
use crate::cases::Cases;
use crate::reply::{Reply, Timing, CLOCK_LETTERS, LAST_RECORD, NET_LETTERS, NOT_AVAILABLE, RECORD};

/// Time and date of net replies, and their values. Only minus zero with no time has none.
const SIGNED: [(&[u8; 18], Option<i128>); 12] = [
    (b"0000000000-0000000", None),
    (b"0000000001-0000000", Some(-1)),
    (b"0000010000-0000000", Some(-10_000)),
    (b"2359599999-0000000", Some(-863_999_999)),
    (b"0000000000+0000000", Some(0)),
    (b"0000000001+0000000", Some(1)),
    (b"0000000000-0000001", Some(-864_000_000)),
    (b"0000000001-0000001", Some(-864_000_001)),
    (b"2359590000-0000001", Some(-1_727_990_000)),
    (b"0000000000-9999999", Some(-8_639_999_136_000_000)),
    (b"2359599999-9999999", Some(-8_639_999_999_999_999)),
    (b"2359599999+9999999", Some(8_639_999_999_999_999)),
];

/// One past each end.
const BEYOND: [i128; 2] = [-8_640_000_000_000_000, 8_640_000_000_000_000];

/// Replies to be damaged. The first becomes minus zero if its tick is lost, and the second if its
/// day is lost.
const TO_DAMAGE: [&[u8; 18]; 2] = [b"0000000001-0000000", b"0000000000-0000001"];

/// Letters of replies that are neither clock nor net.
const RAW_LETTERS: &[u8; 4] = b"4AXQ";

pub fn add_all(cases: &mut Cases) {
    for (turn, (timing, value)) in SIGNED.into_iter().enumerate() {
        add_reads(cases, timing);
        add_where_not_net(cases, turn, timing);
        if let Some(value) = value {
            add_writes(cases, value);
        }
    }
    for value in BEYOND {
        add_writes(cases, value);
    }
    for timing in TO_DAMAGE {
        add_damage(cases, &with_letter(RECORD, b'2', timing));
    }
}

/// Each net letter with both statuses of a net reply, read as lent bytes and as a value.
fn add_reads(cases: &mut Cases, timing: &[u8; 18]) {
    for &letter in NET_LETTERS {
        for status in [RECORD, LAST_RECORD] {
            let frame = with_letter(status, letter, timing);
            add_read(cases, &frame);
            add_value(cases, &frame);
        }
    }
}

/// Under a clock letter the text is wrong. Under a raw letter it is good, and so it is under a net
/// letter in a reply that is not available. What is good is written back.
fn add_where_not_net(cases: &mut Cases, turn: usize, timing: &[u8; 18]) {
    let status = [RECORD, LAST_RECORD][turn % 2];
    let clock = CLOCK_LETTERS[turn % CLOCK_LETTERS.len()];
    let raw = RAW_LETTERS[turn % RAW_LETTERS.len()];
    let net = NET_LETTERS[turn % NET_LETTERS.len()];
    add_read(cases, &with_letter(status, clock, timing));
    for (status, letter) in [(status, raw), (NOT_AVAILABLE, net)] {
        let frame = with_letter(status, letter, timing);
        add_read(cases, &frame);
        add_value(cases, &frame);
        let frame: [u8; LENGTH] = frame.try_into().expect("a reply's length");
        add_both(cases, &record_of(&frame));
    }
}

/// The value under each net letter, written to lent bytes and to a value.
fn add_writes(cases: &mut Cases, value: i128) {
    let statuses = [RECORD, LAST_RECORD, RECORD];
    for (&information, status) in NET_LETTERS.iter().zip(statuses) {
        let record = Reply {
            status,
            information,
            timing: Timing::Net(value),
            ..record_of(NET)
        };
        add_both(cases, &record);
    }
}

#[cfg(test)]
mod tests {
    use super::*;
    use crate::frame::Kind;
    use crate::refusal::Refusal;

    #[test]
    fn the_values_are_those_of_the_table() {
        for (timing, value) in SIGNED {
            for &letter in NET_LETTERS {
                let read = Reply::read(&with_letter(RECORD, letter, timing));
                let expected = value.map(Timing::Net).ok_or(Refusal::Field(40, 40));
                assert_eq!(read.map(|record| record.timing), expected);
            }
        }
    }

    #[test]
    fn one_past_each_end_is_not_written() {
        for value in BEYOND {
            let timing = Timing::Net(value);
            let record = Reply {
                timing,
                ..record_of(NET)
            };
            assert_eq!(record.write_value().0, Err(Refusal::Record(40)));
        }
    }

    #[test]
    fn the_replies_to_damage_are_good() {
        for timing in TO_DAMAGE {
            assert!(Reply::read(&with_letter(RECORD, b'2', timing)).is_ok());
        }
    }

    /// How many cases of this word are answered by something that begins like this.
    fn count(text: &str, word: &str, begin: &str) -> usize {
        let asked = text.lines().filter(|line| line.starts_with(word));
        asked
            .filter(|line| {
                let answer = crate::answers::file(format!("{line}\n").as_bytes());
                answer.expect("a case").starts_with(begin)
            })
            .count()
    }

    /// Minus zero with no time is refused in six net replies. All texts are refused under a clock
    /// letter, which is only read as lent bytes.
    #[test]
    fn good_and_wrong_ones() {
        let mut cases = Cases::default();
        add_all(&mut cases);
        let texts = SIGNED.len();
        for (word, under_clock) in [("read-reply ", texts), ("read-reply-value ", 0)] {
            assert_eq!(count(&cases.text, word, "5 40 40"), 6 + under_clock);
            assert_eq!(count(&cases.text, word, "0 0 0 "), 8 * texts - 6);
        }
        for word in ["write-reply ", "write-reply-value "] {
            assert_eq!(count(&cases.text, word, "6 40 0"), 3 * BEYOND.len());
            assert_eq!(count(&cases.text, word, "0 0 0 "), 5 * texts - 3);
        }
    }
}
