//! Spoiled bytes in static requests.

use super::{add_frames, change_field, with_each, with_edges, with_worse_after, Field, Spoiled};
use crate::cases::request::{frame_of, random_record};
use crate::cases::{replaced, Cases};
use crate::frame::Kind;
use crate::random::Random;
use crate::request::{at, Request};

const GOOD: &[u8; Request::LENGTH] = b"\x11R5A012000411200001000S\r";

pub const FIELDS: [Field; 5] = [
    (at::NUMBER, 3),
    (at::BIB, 5),
    (at::CHANNEL, 3),
    (at::RUN, 3),
    (at::GROUP, 3),
];

const SPOILED: [Spoiled; 56] = [
    (at::NUMBER, b"/:0", 4),
    (at::NUMBER, b" 99", 4),
    (at::NUMBER, b"0:/", 5),
    (at::NUMBER, b"9 9", 5),
    (at::NUMBER, b"99:", 6),
    (at::BIB, b"60000", 7),
    (at::BIB, b"60001", 7),
    (at::BIB, b"99999", 7),
    (at::BIB, b"6000:", 7),
    (at::BIB, b"6:000", 7),
    (at::BIB, b"/:000", 7),
    (at::BIB, b"0:00/", 8),
    (at::BIB, b"5:999", 8),
    (at::BIB, b"59 99", 9),
    (at::BIB, b"000//", 10),
    (at::BIB, b"5999:", 11),
    // Wrong only together, but for 300 and 999.
    (at::CHANNEL, b"241", 13),
    (at::CHANNEL, b"247", 13),
    (at::CHANNEL, b"250", 13),
    (at::CHANNEL, b"252", 13),
    (at::CHANNEL, b"254", 13),
    (at::CHANNEL, b"256", 13),
    (at::CHANNEL, b"299", 13),
    (at::CHANNEL, b"300", 13),
    (at::CHANNEL, b"999", 13),
    (at::CHANNEL, b"3:0", 13),
    (at::CHANNEL, b"24:", 15),
    (at::CHANNEL, b"25 ", 15),
    (at::CHANNEL, b"29/", 15),
    (at::CHANNEL, b"2:9", 14),
    (at::CHANNEL, b"2A1", 14),
    (at::CHANNEL, b"0:/", 14),
    (at::CHANNEL, b"1/9", 14),
    (at::CHANNEL, b"19:", 15),
    // The same of runs.
    (at::RUN, b"251", 16),
    (at::RUN, b"260", 16),
    (at::RUN, b"299", 16),
    (at::RUN, b"300", 16),
    (at::RUN, b"999", 16),
    (at::RUN, b"30:", 16),
    (at::RUN, b"25:", 18),
    (at::RUN, b"26/", 18),
    (at::RUN, b"2:9", 17),
    (at::RUN, b"1::", 17),
    (at::RUN, b"0 5", 17),
    (at::RUN, b"19 ", 18),
    // No group is wrong only together.
    (at::GROUP, b"200", 19),
    (at::GROUP, b"299", 19),
    (at::GROUP, b"999", 19),
    (at::GROUP, b"2:0", 19),
    (at::GROUP, b"20:", 19),
    (at::GROUP, b"::0", 19),
    (at::GROUP, b"1//", 20),
    (at::GROUP, b"1 9", 20),
    (at::GROUP, b"0x9", 20),
    (at::GROUP, b"19:", 21),
];

/// A text for each field, spoiled as late as it can be or wrong only together.
const LATE: [Spoiled; 8] = [
    (at::REQUESTER, b"[", 3),
    (at::NUMBER, b"99:", 6),
    (at::BIB, b"5999:", 11),
    (at::INFORMATION, b"B", 12),
    (at::CHANNEL, b"241", 13),
    (at::RUN, b"25:", 18),
    (at::GROUP, b"19:", 21),
    (at::OUTPUT, b"C", 22),
];

/// Wrong frames to be damaged, so that every other byte is damaged too: in the same field, before it
/// and after it.
const TO_DAMAGE: [Spoiled; 5] = [
    (at::NUMBER, b"9 9", 5),
    (at::BIB, b"1/000", 8),
    (at::CHANNEL, b"241", 13),
    (at::RUN, b"260", 16),
    (at::GROUP, b"19:", 21),
];

const RANDOM_READS: usize = 30;

pub fn add_all(cases: &mut Cases, random: &mut Random) {
    add_frames(cases, "read-request", &with_each(GOOD, &SPOILED));
    add_frames(cases, "read-request", &with_worse_after(GOOD, &LATE));
    for (offset, _) in FIELDS {
        add_frames(cases, "read-request", &with_edges::<Request>(GOOD, offset));
    }
    add_frames(cases, "damage-request", &good_to_damage());
    add_frames(cases, "damage-request", &with_each(GOOD, &TO_DAMAGE));
    for _ in 0..RANDOM_READS {
        let mut frame = frame_of(&random_record(random));
        change_field(&mut frame, &FIELDS, random);
        add_frames(cases, "read-request", &[frame]);
    }
}

fn good_to_damage() -> [Vec<u8>; 2] {
    [GOOD.to_vec(), replaced(GOOD, at::CHANNEL, b"251240")]
}

#[cfg(test)]
mod tests {
    use super::super::tests::{check, check_edges, check_worse_after};
    use super::*;

    #[test]
    fn the_spoiled_bytes_are_those_of_the_tables() {
        check::<Request>(GOOD, &SPOILED);
        check::<Request>(GOOD, &LATE);
        check::<Request>(GOOD, &TO_DAMAGE);
        check_worse_after::<Request>(GOOD, &LATE);
        for frame in good_to_damage() {
            check_edges::<Request>(&frame, &FIELDS);
        }
    }
}
