//! Frames with fields on both sides of their bounds.

use super::Maker;
use crate::cases::frames::{put, REQUESTER_EDGES, TIMES};
use crate::cases::reply::put_minus_zero;
use crate::random::Random;
use crate::reply::{CLOCK_LETTERS, NET_LETTERS};
use crate::{dynamic, reply};

/// Parts of a time at their bounds. The values of `BEYOND` are too large for the hours, and some
/// also for the minutes and seconds.
const HOURS: [u64; 8] = [0, 1, 9, 10, 19, 20, 22, 23];
const SIXTIETHS: [u64; 8] = [0, 1, 9, 10, 49, 50, 58, 59];
const FRACTIONS: [u64; 6] = [0, 1, 999, 1_000, 9_998, 9_999];
const BEYOND: [u64; 6] = [24, 25, 29, 60, 61, 99];

const DAYS: [u64; 12] = [0, 1, 15, 28, 28, 29, 29, 30, 30, 31, 31, 32];
const MONTHS: [u64; 18] = [0, 1, 2, 2, 2, 2, 3, 4, 5, 6, 7, 8, 9, 10, 11, 12, 12, 13];
const YEARS: [u64; 12] = [
    0, 1999, 2000, 2001, 2023, 2024, 2025, 2048, 2096, 2099, 2100, 9999,
];
const NET_DAYS: [u64; 7] = [0, 0, 1, 2, 999_999, 1_000_000, 9_999_999];

/// A good frame in which some fields are put at their bounds.
pub fn frame(maker: &Maker, random: &mut Random) -> Vec<u8> {
    let mut frame = (maker.good)(random);
    for _ in 0..random.pick(&[1, 1, 1, 2, 3, 6]) {
        match random.below(8) {
            0 => put_letter(&mut frame, maker, random),
            1 | 2 => (maker.put_times)(&mut frame, random),
            _ => put_number(&mut frame, maker, random),
        }
    }
    frame
}

fn put_number(frame: &mut [u8], maker: &Maker, random: &mut Random) {
    let (offset, width, edges) = random.pick(maker.numbers);
    let value = random.pick(edges);
    put(frame, offset, format!("{value:0width$}").as_bytes());
}

/// A letter becomes one of its neighbours, the byte that differs from it in bit 20h, or a byte at
/// an edge of the requester ranges.
fn put_letter(frame: &mut [u8], maker: &Maker, random: &mut Random) {
    let letter = &mut frame[random.pick(maker.letters)];
    *letter = match random.below(4) {
        0 => letter.wrapping_add(1),
        1 => letter.wrapping_sub(1),
        2 => *letter ^ 0x20,
        _ => random.pick(&REQUESTER_EDGES),
    };
}

/// HHMMSSdddd at its bounds. Once in three times one part is taken from `BEYOND`, or the text is
/// one of `TIMES`.
fn time(random: &mut Random) -> Vec<u8> {
    let mut parts = [
        random.pick(&HOURS),
        random.pick(&SIXTIETHS),
        random.pick(&SIXTIETHS),
    ];
    let fraction = random.pick(&FRACTIONS);
    match random.below(6) {
        0 => parts[random.place(3)] = random.pick(&BEYOND),
        1 => return random.pick(&TIMES).to_vec(),
        _ => {}
    }
    let [hours, minutes, seconds] = parts;
    format!("{hours:02}{minutes:02}{seconds:02}{fraction:04}").into_bytes()
}

/// DDMMYYYY, a real day about half the time.
fn date(random: &mut Random) -> Vec<u8> {
    let year = match random.below(3) {
        0 => random.pick(&YEARS),
        _ => 2000 + random.below(100),
    };
    let (day, month) = (random.pick(&DAYS), random.pick(&MONTHS));
    format!("{day:02}{month:02}{year:04}").into_bytes()
}

fn net_date(random: &mut Random) -> Vec<u8> {
    let sign = random.pick(&['+', '-']);
    format!("{sign}{:07}", random.pick(&NET_DAYS)).into_bytes()
}

/// A request has no times. Instead its channel becomes a number from 236 to 259, where most of its
/// limits are.
pub fn put_times_of_request(frame: &mut [u8], random: &mut Random) {
    let channel = format!("{:03}", 236 + random.below(24));
    put(frame, crate::request::at::CHANNEL, channel.as_bytes());
}

/// A time and a date, with a letter of the same kind; once in five times the letter is not changed.
/// Once in six times a status with run 000 or 001 instead, and once in six times minus and no days.
pub fn put_times_of_reply(frame: &mut [u8], random: &mut Random) {
    use reply::at;
    match random.below(6) {
        0 => {
            put(frame, at::STATUS, &[random.pick(b"REZ")]);
            put(frame, at::RUN, random.pick(&[b"000", b"001"]));
            return;
        }
        1 => return put_minus_zero(frame, random),
        _ => {}
    }
    let (letter, date) = match random.below(2) {
        0 => (random.pick(CLOCK_LETTERS), date(random)),
        _ => (random.pick(NET_LETTERS), net_date(random)),
    };
    if !random.once_in(5) {
        put(frame, at::INFORMATION, &[letter]);
    }
    put(frame, at::TIME, &time(random));
    put(frame, at::DATE, &date);
}

/// A time, or any order with a period of 00000 or 00001.
pub fn put_times_of_dynamic(frame: &mut [u8], random: &mut Random) {
    use dynamic::at;
    if random.once_in(3) {
        put(frame, at::ORDER, &[random.pick(dynamic::ORDERS)]);
        put(frame, at::PERIOD, random.pick(&[b"00000", b"00001"]));
        return;
    }
    put(frame, at::TIME, &time(random));
}

#[cfg(test)]
mod tests {
    use super::super::{DYNAMIC, MAKERS, REPLY, REQUEST};
    use super::*;
    use crate::dynamic::Dynamic;
    use crate::frame::{Kind, ADDRESS};
    use crate::refusal::Refusal;
    use crate::reply::Reply;
    use crate::request::Request;
    use std::collections::BTreeMap;

    #[test]
    fn frames_keep_their_length() {
        let mut random = Random::new(1, "test");
        for (maker, length) in MAKERS.into_iter().zip([24, 51, 46]) {
            assert!((0..500).all(|_| frame(maker, &mut random).len() == length));
        }
    }

    /// How often each field is the first wrong one, under 2 the address. Under 0: how often a frame
    /// is good.
    fn offsets<Record: Kind>(maker: &Maker) -> BTreeMap<usize, usize> {
        let mut random = Random::new(1, "test");
        let mut offsets = BTreeMap::new();
        for _ in 0..4000 {
            let offset = match Record::read(&frame(maker, &mut random)) {
                Ok(_) => 0,
                Err(Refusal::Address) => ADDRESS,
                Err(Refusal::Field(offset, _)) => offset,
                Err(refusal) => panic!("{refusal:?}"),
            };
            *offsets.entry(offset).or_default() += 1;
        }
        offsets
    }

    fn check(offsets: &BTreeMap<usize, usize>, expected: &[usize]) {
        for offset in expected {
            assert!(
                offsets.get(offset).is_some_and(|&count| count > 10),
                "{offset} {offsets:?}"
            );
        }
    }

    /// Fields that are always or nearly always good are not checked, such as the number of a
    /// request or a reply.
    #[test]
    fn every_bound_is_met_from_both_sides() {
        check(
            &offsets::<Request>(&REQUEST),
            &[0, 2, 3, 7, 12, 13, 16, 19, 22],
        );
        check(
            &offsets::<Reply>(&REPLY),
            &[0, 2, 5, 6, 12, 17, 20, 26, 29, 30, 40],
        );
        let dynamic = [0, 2, 3, 4, 5, 10, 13, 16, 21, 24, 27, 28, 39, 44];
        check(&offsets::<Dynamic>(&DYNAMIC), &dynamic);
    }

    /// More than a tenth of the net replies have minus and no days with a time, and more than a
    /// twentieth without.
    #[test]
    fn minus_zero_comes_often() {
        let mut random = Random::new(1, "test");
        let (mut net, mut good, mut wrong) = (0, 0, 0);
        for _ in 0..4000 {
            let mut frame = (REPLY.good)(&mut random);
            put_times_of_reply(&mut frame, &mut random);
            let is_net = NET_LETTERS.contains(&frame[reply::at::INFORMATION])
                && frame[reply::at::STATUS] != reply::NOT_AVAILABLE;
            let minus_zero = is_net && frame[reply::at::DATE..].starts_with(b"-0000000");
            let at_zero = frame[reply::at::TIME..].starts_with(b"0000000000");
            net += usize::from(is_net);
            good += usize::from(minus_zero && !at_zero);
            wrong += usize::from(minus_zero && at_zero);
        }
        assert!(
            good > net / 10 && wrong > net / 20,
            "{good} {wrong} of {net}"
        );
    }

    #[test]
    fn real_days_and_others() {
        let mut random = Random::new(1, "test");
        let mut good = 0;
        for _ in 0..1000 {
            let mut frame = b"\x12R GmRz9876559999199250547240K235959999929022024xy\r".to_vec();
            put(&mut frame, reply::at::DATE, &date(&mut random));
            good += usize::from(Reply::read(&frame).is_ok());
        }
        assert!((300..800).contains(&good), "{good}");
    }
}
