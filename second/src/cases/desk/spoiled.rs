//! Scripts about wrong fields. The desk hands both of their numbers on.

use super::frames::{random_reply, random_request, reply, request, Key, E, R, Z};
use super::script::Script;
use crate::cases::spoiled::{self, change_field, Spoiled};
use crate::cases::{replaced, Cases};
use crate::desk::CELL;
use crate::random::Random;
use crate::reply::at;
use crate::request;
use crate::script::Change;

/// Two keys that differ in the address alone, and one that is never opened.
const ONE: Key = (b' ', b'1', 7);
const OTHER: Key = (b'4', b'1', 7);
const STRAY: Key = (b'9', b'z', 999);

/// Wrong fields of an opening.
const OPENINGS: [Spoiled; 17] = [
    (request::at::REQUESTER, b"[", 3),
    (request::at::NUMBER, b"0 :", 5),
    (request::at::NUMBER, b"00:", 6),
    (request::at::BIB, b"60000", 7),
    (request::at::BIB, b"0:000", 8),
    (request::at::BIB, b"5999:", 11),
    (request::at::INFORMATION, b"B", 12),
    (request::at::CHANNEL, b"250", 13),
    (request::at::CHANNEL, b"2A0", 14),
    (request::at::CHANNEL, b"25 ", 15),
    (request::at::RUN, b"251", 16),
    (request::at::RUN, b"2:0", 17),
    (request::at::RUN, b"26/", 18),
    (request::at::GROUP, b"200", 19),
    (request::at::GROUP, b"1::", 20),
    (request::at::GROUP, b"19:", 21),
    (request::at::OUTPUT, b"C", 22),
];

/// What letter, time and date of a reply are before one of its fields is made wrong.
const CLOCK: &[u8] = b"K123456789815062024";
const NET: &[u8] = b"10001125400-0000012";
const NET_AT_ZERO: &[u8] = b"10000000000-0000012";
const RAW: &[u8] = b"P --:--.---no date!";

/// Wrong fields of a reply of status R.
const REPLIES: [(&[u8], Spoiled); 30] = [
    (RAW, (at::PROGRAM, b"\x1f", 3)),
    (RAW, (at::STATUS, b"r", 5)),
    (RAW, (at::REQUESTER, b"`", 6)),
    (RAW, (at::NUMBER, b"000:7", 10)),
    (RAW, (at::BIB, b"60000", 12)),
    (RAW, (at::BIB, b"5999/", 16)),
    (RAW, (at::GROUP, b"200", 17)),
    (RAW, (at::GROUP, b"1/0", 18)),
    (RAW, (at::RUN, b"000", 20)),
    (RAW, (at::RUN, b"00:", 22)),
    (RAW, (at::RUN, b"251", 20)),
    (RAW, (at::PHYSICAL, b"0-1", 24)),
    (RAW, (at::CHANNEL, b"251", 26)),
    (RAW, (at::CHANNEL, b"24a", 28)),
    (RAW, (at::INFORMATION, b"L", 29)),
    (RAW, (at::TIME, b"24610000\x1f\x7f", 38)),
    (RAW, (at::DATE, b"0000000\x7f", 47)),
    (RAW, (at::SPARE, b" \x80", 49)),
    (CLOCK, (at::TIME, b"2400000000", 30)),
    (CLOCK, (at::TIME, b"2461000000", 32)),
    (CLOCK, (at::TIME, b"123456789 ", 39)),
    (CLOCK, (at::DATE, b"31042024", 40)),
    (CLOCK, (at::DATE, b"01132024", 40)),
    (CLOCK, (at::DATE, b"00000000", 44)),
    (CLOCK, (at::DATE, b"01012100", 45)),
    (CLOCK, (at::SPARE, b"\x1f ", 48)),
    (NET, (at::TIME, b"0000600000", 34)),
    (NET_AT_ZERO, (at::DATE, b"-0000000", 40)),
    (NET, (at::DATE, b",0000012", 40)),
    (NET, (at::DATE, b"-000000:", 47)),
];

const RANDOM_CALLS: usize = 100;

pub fn add_all(cases: &mut Cases, random: &mut Random) {
    add_openings(cases);
    add_replies(cases);
    add_before_other_refusals(cases);
    add_no_desk(cases);
    add_random(cases, random);
}

fn wrong_openings(key: Key) -> impl Iterator<Item = Vec<u8>> {
    let put = move |(offset, wrong, _): Spoiled| replaced(&request(key), offset, wrong);
    OPENINGS.into_iter().map(put)
}

fn wrong_replies(key: Key) -> impl Iterator<Item = Vec<u8>> {
    REPLIES.into_iter().map(move |(timed, (offset, wrong, _))| {
        let frame = replaced(&reply(R, key), at::INFORMATION, timed);
        replaced(&frame, offset, wrong)
    })
}

/// Openings with a free key and with a key in use, under a space and under a digit.
fn add_openings(cases: &mut Cases) {
    let mut script = Script::lend_cells(cases, 1);
    for key in [ONE, OTHER] {
        for _ in 0..2 {
            wrong_openings(key).for_each(|frame| script.open(&frame));
            script.open(&request(key));
        }
    }
    script.used();
}

/// Replies to two open requests. In between good ones are taken.
fn add_replies(cases: &mut Cases) {
    let mut script = Script::lend_cells(cases, 3);
    script.open_all(&[ONE, OTHER]);
    for key in [ONE, OTHER] {
        wrong_replies(key).for_each(|frame| script.reply(&frame));
        script.reply(&reply(R, key));
    }
    // The same tails are raw if the reply is not available.
    for (timed, wrong) in [(CLOCK, b"31042024"), (NET_AT_ZERO, b"-0000000")] {
        let frame = replaced(&reply(Z, OTHER), at::INFORMATION, timed);
        script.reply(&replaced(&frame, at::DATE, wrong));
    }
}

/// A wrong field comes before STRAY, ENDED, OUT OF PLACE and FULL.
fn add_before_other_refusals(cases: &mut Cases) {
    let mut script = Script::lend_cells(cases, 2);
    script.open_all(&[ONE, OTHER]);
    script.reply(&reply(E, ONE));
    script.reply(&reply(R, OTHER));
    for frame in [
        reply(R, STRAY),
        reply(R, ONE),
        reply(Z, OTHER),
        reply(R, OTHER),
    ] {
        for (offset, wrong) in [(at::GROUP, b"1:0"), (at::RUN, b"251"), (at::RUN, b"2 0")] {
            script.reply(&replaced(&frame, offset, wrong));
        }
        script.reply(&frame);
    }
}

/// DESK comes before a wrong field and has no numbers. That holds too if a wrong field of a cell is
/// the reason.
fn add_no_desk(cases: &mut Cases) {
    let mut script = Script::lend_cells(cases, 2);
    script.open_all(&[ONE, OTHER]);
    script.reply(&reply(R, ONE));
    let good = script.desk().clone();
    for change in [
        Change::Count(3),
        Change::Bits(0x1_0003),
        Change::Mark(0, 2),
        Change::Cell(at::BIB, b"6".to_vec()),
        Change::Cell(CELL - 2, b"\x7f".to_vec()),
    ] {
        script.change(&change);
        for frame in wrong_openings(STRAY).step_by(4) {
            script.open(&frame);
        }
        for frame in wrong_replies(OTHER).step_by(7) {
            script.reply(&frame);
        }
        script.put_back(&good);
        script.open(&replaced(&request(STRAY), request::at::RUN, b"2:0"));
        script.reply(&replaced(&reply(R, OTHER), at::BIB, b"5999/"));
    }
    script.reply(&reply(R, OTHER));
}

/// Openings and replies in which up to three bytes of one field are changed.
fn add_random(cases: &mut Cases, random: &mut Random) {
    let mut script = Script::lend_cells(cases, 12);
    script.open_all(&[ONE, OTHER]);
    for _ in 0..RANDOM_CALLS {
        let key = random.pick(&[ONE, ONE, OTHER, OTHER, STRAY]);
        if random.once_in(3) {
            let mut frame = random_request(random, key);
            change_field(&mut frame, &spoiled::request::FIELDS, random);
            script.open(&frame);
        } else {
            let status = random.pick(&[R, R, R, R, Z]);
            let mut frame = random_reply(random, status, key);
            change_field(&mut frame, &spoiled::reply::FIELDS, random);
            script.reply(&frame);
        }
    }
}

#[cfg(test)]
mod tests {
    use super::*;
    use crate::cases::desk::script::tests::outcomes;

    fn opening_refusals() -> Vec<String> {
        let text = |(offset, _, spoiled): Spoiled| format!("5 {offset} {spoiled} 0");
        OPENINGS.map(text).to_vec()
    }

    fn reply_refusals() -> Vec<String> {
        let text = |(_, (offset, _, spoiled)): (_, Spoiled)| format!("5 {offset} {spoiled} 0");
        REPLIES.map(text).to_vec()
    }

    #[test]
    fn openings_hand_both_numbers_on() {
        let answers = outcomes(add_openings);
        let (calls, used) = answers[1..].split_at(4 * (OPENINGS.len() + 1));
        let mut last = ["0 0 0 0", "11 0 0 0", "0 0 0 1", "11 0 0 0"].into_iter();
        for calls in calls.chunks(OPENINGS.len() + 1) {
            let (good, wrong) = calls.split_last().expect("calls");
            assert_eq!(wrong, opening_refusals());
            assert_eq!(Some(good.as_str()), last.next());
        }
        assert_eq!(used, ["2"]);
    }

    #[test]
    fn replies_hand_both_numbers_on() {
        let answers = outcomes(add_replies);
        let (calls, rest) = answers[3..].split_at(2 * (REPLIES.len() + 1));
        for (seat, calls) in calls.chunks(REPLIES.len() + 1).enumerate() {
            let (good, wrong) = calls.split_last().expect("calls");
            assert_eq!(wrong, reply_refusals());
            assert_eq!(good, &format!("0 0 0 {seat}"));
        }
        assert_eq!(rest, ["15 0 0 0"; 2]);
    }

    #[test]
    fn a_wrong_field_is_refused_before_the_desk_is_asked() {
        let answers = outcomes(add_before_other_refusals);
        let wrong = ["5 17 18 0", "5 20 20 0", "5 20 21 0"];
        for (calls, last) in answers[5..].chunks(4).zip(["13", "14", "15", "16"]) {
            assert_eq!(calls[..3], wrong);
            assert_eq!(calls[3], format!("{last} 0 0 0"));
        }
    }

    #[test]
    fn no_desk_is_refused_first() {
        let answers = outcomes(add_no_desk);
        let calls: Vec<&str> = answers[4..]
            .iter()
            .map(String::as_str)
            .filter(|&answer| answer != "set")
            .collect();
        for calls in calls[..calls.len() - 1].chunks(5 + 5 + 2) {
            assert_eq!(calls[..10], ["9 0 0 0"; 10]);
            assert_eq!(calls[10..], ["5 16 17 0", "5 12 16 0"]);
        }
        assert_eq!(calls.last(), Some(&"0 0 0 1"));
    }

    #[test]
    fn random_calls_are_refused_at_many_places() {
        let answers = outcomes(|cases| add_random(cases, &mut Random::new(1, "test")));
        let fields: Vec<&String> = answers
            .iter()
            .filter(|answer| answer.starts_with("5 "))
            .collect();
        let mut different = fields.clone();
        different.sort();
        different.dedup();
        assert!(fields.len() > RANDOM_CALLS / 3, "{}", fields.len());
        assert!(different.len() > 12, "{different:?}");
    }
}
