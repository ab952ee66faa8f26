//! Spoiled bytes in dynamic requests.

use super::{
    add_frames, change_field, with_each, with_edges, with_worse_after, Field, Spoiled, WRONG_TIMES,
};
use crate::cases::dynamic::{frame_of, random_record, MINUS_ZERO};
use crate::cases::{replaced, Cases};
use crate::dynamic::{at, Dynamic, ORDERS};
use crate::frame::Kind;
use crate::random::Random;

/// An order that requires a period.
const GOOD: &[u8; Dynamic::LENGTH] = b"\x13R4BA123452000501234520010011234567898500700A\r";

pub const FIELDS: [Field; 8] = [
    (at::BIB, 5),
    (at::CHANNEL, 3),
    (at::RUN, 3),
    (at::STOP_BIB, 5),
    (at::STOP_CHANNEL, 3),
    (at::STOP_RUN, 3),
    (at::TIME, 10),
    (at::PERIOD, 5),
];

const SPOILED: [Spoiled; 55] = [
    // Some good bib begins with a 6.
    (at::BIB, b"60001", 5),
    (at::BIB, b"69999", 5),
    (at::BIB, b"70000", 5),
    (at::BIB, b"99999", 5),
    (at::BIB, b"7000:", 5),
    (at::BIB, b"6:000", 6),
    (at::BIB, b"0:/00", 6),
    (at::BIB, b"59:99", 7),
    (at::BIB, b"6000:", 9),
    (at::CHANNEL, b"241", 10),
    (at::CHANNEL, b"248", 10),
    (at::CHANNEL, b"256", 10),
    (at::CHANNEL, b"299", 10),
    (at::CHANNEL, b"300", 10),
    (at::CHANNEL, b"3:0", 10),
    (at::CHANNEL, b"2A5", 11),
    (at::CHANNEL, b"0:/", 11),
    (at::CHANNEL, b"24:", 12),
    (at::CHANNEL, b"19:", 12),
    (at::RUN, b"251", 13),
    (at::RUN, b"299", 13),
    (at::RUN, b"999", 13),
    (at::RUN, b"30:", 13),
    (at::RUN, b"2:0", 14),
    (at::RUN, b"0 :", 14),
    (at::RUN, b"26/", 15),
    (at::RUN, b"19:", 15),
    (at::STOP_BIB, b"00000", 16),
    (at::STOP_BIB, b"60001", 16),
    (at::STOP_BIB, b"69999", 16),
    (at::STOP_BIB, b"70000", 16),
    (at::STOP_BIB, b"7:000", 16),
    (at::STOP_BIB, b"6:001", 17),
    (at::STOP_BIB, b"0 000", 17),
    (at::STOP_BIB, b"00::0", 18),
    (at::STOP_BIB, b"0000/", 20),
    (at::STOP_BIB, b"6000:", 20),
    (at::STOP_CHANNEL, b"251", 21),
    (at::STOP_CHANNEL, b"299", 21),
    (at::STOP_CHANNEL, b"3:0", 21),
    (at::STOP_CHANNEL, b"2/5", 22),
    (at::STOP_CHANNEL, b"0::", 22),
    (at::STOP_CHANNEL, b"25 ", 23),
    (at::STOP_RUN, b"260", 24),
    (at::STOP_RUN, b"300", 24),
    (at::STOP_RUN, b":/0", 24),
    (at::STOP_RUN, b"1::", 25),
    (at::STOP_RUN, b"29:", 26),
    (at::PERIOD, b"00000", 39),
    (at::PERIOD, b":0000", 39),
    (at::PERIOD, b"/000:", 39),
    (at::PERIOD, b"9 999", 40),
    (at::PERIOD, b"00:0:", 41),
    (at::PERIOD, b"0000:", 43),
    (at::PERIOD, b"0000/", 43),
];

/// A text for each field, spoiled as late as it can be or wrong only together.
const LATE: [Spoiled; 13] = [
    (at::REQUESTER, b"`", 3),
    (at::ORDER, b"C", 4),
    (at::BIB, b"6000:", 9),
    (at::CHANNEL, b"241", 10),
    (at::RUN, b"26/", 15),
    (at::STOP_BIB, b"00000", 16),
    (at::STOP_CHANNEL, b"25 ", 23),
    (at::STOP_RUN, b"251", 24),
    (at::SIGN, b"2", 27),
    (at::TIME, b"2461000000", 30),
    (at::DAYS, b":", 38),
    (at::PERIOD, b"00000", 39),
    (at::OUTPUT, b"s", 44),
];

/// Wrong frames to be damaged, so that every other byte is damaged too.
const TO_DAMAGE: [Spoiled; 6] = [
    (at::BIB, b"60001", 5),
    (at::CHANNEL, b"25 ", 12),
    (at::STOP_BIB, b"00000", 16),
    (at::STOP_RUN, b"251", 24),
    (at::TIME, b"2461000000", 30),
    (at::PERIOD, b"00000", 39),
];

const RANDOM_READS: usize = 20;

pub fn add_all(cases: &mut Cases, random: &mut Random) {
    add_frames(cases, "read-dynamic", &with_each(GOOD, &SPOILED));
    add_frames(cases, "read-dynamic", &with_worse_after(GOOD, &LATE));
    for (time, _) in WRONG_TIMES {
        add_frames(cases, "read-dynamic", &[replaced(GOOD, at::TIME, time)]);
    }
    add_frames(cases, "read-dynamic", &periods());
    // The damage cases ask about the edges of the other fields too.
    add_frames(
        cases,
        "read-dynamic",
        &with_edges::<Dynamic>(GOOD, at::PERIOD),
    );
    add_frames(cases, "damage-dynamic", &good_to_damage());
    add_frames(cases, "damage-dynamic", &with_each(GOOD, &TO_DAMAGE));
    for _ in 0..RANDOM_READS {
        let mut frame = frame_of(&random_record(random));
        change_field(&mut frame, &FIELDS, random);
        add_frames(cases, "read-dynamic", &[frame]);
    }
}

/// Two that require a period and one that does not.
fn good_to_damage() -> [Vec<u8>; 3] {
    let of_b = replaced(GOOD, at::ORDER, b"B");
    [GOOD.to_vec(), of_b, MINUS_ZERO.to_vec()]
}

/// Periods that are wrong with some orders or with all.
fn periods() -> Vec<Vec<u8>> {
    let mut frames = Vec::new();
    for &order in ORDERS {
        for period in [b"00000", b"0000/", b"0:000"] {
            let frame = replaced(GOOD, at::ORDER, &[order]);
            frames.push(replaced(&frame, at::PERIOD, period));
        }
    }
    frames
}

#[cfg(test)]
mod tests {
    use super::super::tests::{check, check_edges, check_worse_after};
    use super::*;
    use crate::refusal::Refusal;

    #[test]
    fn the_spoiled_bytes_are_those_of_the_tables() {
        check::<Dynamic>(GOOD, &SPOILED);
        check::<Dynamic>(GOOD, &LATE);
        check::<Dynamic>(GOOD, &TO_DAMAGE);
        check_worse_after::<Dynamic>(GOOD, &LATE);
        for frame in good_to_damage() {
            check_edges::<Dynamic>(&frame, &FIELDS);
        }
        for (time, place) in WRONG_TIMES {
            check::<Dynamic>(GOOD, &[(at::TIME, time, at::TIME + place)]);
        }
    }

    #[test]
    fn no_period_is_wrong_with_two_orders() {
        for frames in periods().chunks(3) {
            let required = matches!(frames[0][at::ORDER], b'A' | b'B');
            let expected = [
                required.then_some(Refusal::Field(39, 39)),
                Some(Refusal::Field(39, 43)),
                Some(Refusal::Field(39, 40)),
            ];
            let refusals: Vec<_> = frames
                .iter()
                .map(|frame| Dynamic::read(frame).err())
                .collect();
            assert_eq!(refusals, expected);
        }
    }
}
