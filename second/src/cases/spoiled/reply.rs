//! Spoiled bytes in static replies.

use super::{
    add_frames, change_field, with_each, with_edges, with_worse_after, Field, Spoiled, WRONG_TIMES,
};
use crate::cases::reply::{frame_of, random_record};
use crate::cases::{replaced, Cases};
use crate::random::Random;
use crate::reply::{at, Reply, Value, INFORMATION};

/// A good reply of each kind. The last has a clock letter, but it is not available. There are two
/// net replies, one of them with a time of zero.
const CLOCK: &Value = b"\x12R3GmRz0123445678012123456200K123456789815062024xy\r";
const NET: &Value = b"\x12R SOEA000120004100000101524510001125400-0000012  \r";
const NET_AT_ZERO: &Value = b"\x12R SOEA000120004100000101524510000000000-0000012  \r";
const RAW: &Value = b"\x12R7SOR10000700015000002000000P --:--.---no date!  \r";
const ABSENT: &Value = b"\x12R0~ Za5432130000100000999249K--:--.----no date!#~\r";

pub const FIELDS: [Field; 9] = [
    (at::NUMBER, 5),
    (at::BIB, 5),
    (at::GROUP, 3),
    (at::RUN, 3),
    (at::PHYSICAL, 3),
    (at::CHANNEL, 3),
    (at::TIME, 10),
    (at::DATE, 8),
    (at::SPARE, 2),
];

/// Wrong numbers of `CLOCK`.
const NUMBERS: [Spoiled; 46] = [
    (at::NUMBER, b":0:00", 7),
    (at::NUMBER, b" 9999", 7),
    (at::NUMBER, b"0:/00", 8),
    (at::NUMBER, b"99 99", 9),
    (at::NUMBER, b"9999:", 11),
    (at::BIB, b"60000", 12),
    (at::BIB, b"69999", 12),
    (at::BIB, b"6000:", 12),
    (at::BIB, b"5:99:", 13),
    (at::BIB, b"59 99", 14),
    (at::BIB, b"5999/", 16),
    (at::GROUP, b"200", 17),
    (at::GROUP, b"999", 17),
    (at::GROUP, b"20:", 17),
    (at::GROUP, b"1/ ", 18),
    (at::GROUP, b"19:", 19),
    (at::RUN, b"000", 20),
    (at::RUN, b"251", 20),
    (at::RUN, b"260", 20),
    (at::RUN, b"299", 20),
    (at::RUN, b"300", 20),
    (at::RUN, b"999", 20),
    (at::RUN, b"30:", 20),
    (at::RUN, b"2 0", 21),
    (at::RUN, b"0:0", 21),
    (at::RUN, b"1//", 21),
    (at::RUN, b"00/", 22),
    (at::RUN, b"25:", 22),
    (at::PHYSICAL, b"::9", 23),
    (at::PHYSICAL, b"9 /", 24),
    (at::PHYSICAL, b"0-1", 24),
    (at::PHYSICAL, b"99:", 25),
    (at::CHANNEL, b"241", 26),
    (at::CHANNEL, b"247", 26),
    (at::CHANNEL, b"251", 26),
    (at::CHANNEL, b"252", 26),
    (at::CHANNEL, b"254", 26),
    (at::CHANNEL, b"256", 26),
    (at::CHANNEL, b"299", 26),
    (at::CHANNEL, b"300", 26),
    (at::CHANNEL, b"3:0", 26),
    (at::CHANNEL, b"0::", 27),
    (at::CHANNEL, b"2A5", 27),
    (at::CHANNEL, b"24a", 28),
    (at::CHANNEL, b"25:", 28),
    (at::CHANNEL, b"19:", 28),
];

/// Dates of `CLOCK` whose bytes are wrong only together.
const TOGETHER: [Spoiled; 16] = [
    (at::DATE, b"29022023", 40),
    (at::DATE, b"30022024", 40),
    (at::DATE, b"31022024", 40),
    (at::DATE, b"31042024", 40),
    (at::DATE, b"31062024", 40),
    (at::DATE, b"31092024", 40),
    (at::DATE, b"31112024", 40),
    (at::DATE, b"00012024", 40),
    (at::DATE, b"01002024", 40),
    (at::DATE, b"00002000", 40),
    (at::DATE, b"01132024", 40),
    (at::DATE, b"01192099", 40),
    (at::DATE, b"32012024", 40),
    (at::DATE, b"38122024", 40),
    (at::DATE, b"39132024", 40),
    (at::DATE, b"39192099", 40),
];

/// Dates of `CLOCK` with bytes that no real day has there.
const DATES: [Spoiled; 29] = [
    (at::DATE, b"40012024", 40),
    (at::DATE, b"4x012024", 40),
    (at::DATE, b"/:062024", 40),
    (at::DATE, b"+0000012", 40),
    (at::DATE, b"2:022024", 41),
    (at::DATE, b"1 062024", 41),
    (at::DATE, b"01202024", 42),
    (at::DATE, b"012x2024", 42),
    (at::DATE, b"29:22024", 42),
    (at::DATE, b"39 32024", 42),
    (at::DATE, b"151:2024", 43),
    (at::DATE, b"311/2x24", 43),
    (at::DATE, b"00000000", 44),
    (at::DATE, b"31121999", 44),
    (at::DATE, b"31129999", 44),
    (at::DATE, b"01013024", 44),
    (at::DATE, b"01011:24", 44),
    (at::DATE, b"3913x024", 44),
    (at::DATE, b"31041x24", 44),
    (at::DATE, b"01012100", 45),
    (at::DATE, b"29022100", 45),
    (at::DATE, b"00002199", 45),
    (at::DATE, b"39132x24", 45),
    (at::DATE, b"15062 24", 45),
    (at::DATE, b"150620/:", 46),
    (at::DATE, b"310420:4", 46),
    (at::DATE, b"3913202x", 47),
    (at::DATE, b"1506202/", 47),
    (at::DATE, b"2902202:", 47),
];

/// Wrong dates of `NET_AT_ZERO`. All but the first are also wrong dates of `NET`.
const NET_DATES: [Spoiled; 20] = [
    // The only one that is wrong only together. With a time above zero it is good.
    (at::DATE, b"-0000000", 40),
    (at::DATE, b"*0000012", 40),
    (at::DATE, b",0000012", 40),
    (at::DATE, b".0000012", 40),
    (at::DATE, b" 0000000", 40),
    (at::DATE, b"00000012", 40),
    (at::DATE, b"*:000012", 40),
    (at::DATE, b"0000000-", 40),
    (at::DATE, b"15062024", 40),
    (at::DATE, b"--000001", 41),
    (at::DATE, b"+-000001", 41),
    (at::DATE, b"-:00000:", 41),
    (at::DATE, b"+ 000000", 41),
    (at::DATE, b"-0 00000", 42),
    (at::DATE, b"+00 0001", 43),
    (at::DATE, b"-000/:00", 44),
    (at::DATE, b"-9999x99", 45),
    (at::DATE, b"+11111:1", 46),
    (at::DATE, b"-000000/", 47),
    (at::DATE, b"+999999:", 47),
];

/// Wrong raw bytes of `RAW` and `ABSENT`.
const RAW_BYTES: [Spoiled; 12] = [
    (at::TIME, b"\x1f12345678\x7f", 30),
    (at::TIME, b"0\x7f234\x1f6789", 31),
    (at::TIME, b"24610\x80\xff000", 35),
    (at::TIME, b"012345678\x7f", 39),
    (at::DATE, b"\x7f\x1f\x1f\x1f\x1f\x1f\x1f\x1f", 40),
    (at::DATE, b"-\x1f000000", 41),
    (at::DATE, b"310\x1f2\x7f24", 43),
    (at::DATE, b"0000000\x80", 47),
    (at::SPARE, b"\x1f\x1f", 48),
    (at::SPARE, b"\x7f~", 48),
    (at::SPARE, b" \x7f", 49),
    (at::SPARE, b"~\x1f", 49),
];

/// A text for each field of `CLOCK`, spoiled as late as it can be or wrong only together.
const LATE: [Spoiled; 14] = [
    (at::PROGRAM, b"\x1f", 3),
    (at::MODE, b"\x7f", 4),
    (at::STATUS, b"r", 5),
    (at::REQUESTER, b"[", 6),
    (at::NUMBER, b"9999:", 11),
    (at::BIB, b"5999/", 16),
    (at::GROUP, b"19:", 19),
    (at::RUN, b"000", 20),
    (at::PHYSICAL, b"99:", 25),
    (at::CHANNEL, b"241", 26),
    (at::INFORMATION, b"L", 29),
    (at::TIME, b"2461000000", 32),
    (at::DATE, b"31042024", 40),
    (at::SPARE, b" \x7f", 49),
];

/// The same for the last fields of `NET` and of `RAW`.
const LATE_OF_NET: [Spoiled; 3] = [
    (at::TIME, b"2400000000", 30),
    (at::DATE, b"-000000:", 47),
    (at::SPARE, b" \x7f", 49),
];
const LATE_OF_RAW: [Spoiled; 3] = [
    (at::TIME, b"012345678\x7f", 39),
    (at::DATE, b"0000000\x80", 47),
    (at::SPARE, b"~\x1f", 49),
];

/// Wrong frames to be damaged, so that every other byte is damaged too.
const TO_DAMAGE: [(&Value, Spoiled); 9] = [
    (CLOCK, (at::NUMBER, b"9 999", 8)),
    (CLOCK, (at::RUN, b"000", 20)),
    (CLOCK, (at::CHANNEL, b"241", 26)),
    (CLOCK, (at::TIME, b"2461000000", 32)),
    (CLOCK, (at::DATE, b"31042024", 40)),
    (CLOCK, (at::DATE, b"00000000", 44)),
    (NET_AT_ZERO, (at::DATE, b"-0000000", 40)),
    (RAW, (at::TIME, b" --:--\x1f---", 36)),
    (ABSENT, (at::SPARE, b"#\x7f", 49)),
];

/// Time and date of `NET`, with offset and spoiled byte of the first wrong field.
const AFTER_TIMES: [(&[u8], Option<(usize, usize)>); 10] = [
    (b"0000000000-0000000", Some((40, 40))),
    (b"0000000001-0000000", None),
    (b"1000000000-0000000", None),
    (b"0001125400-0000000", None),
    (b"000000000/-0000000", Some((30, 39))),
    (b"2400000000-0000000", Some((30, 30))),
    (b"0000000000-000000:", Some((40, 47))),
    (b"0000000001-000000:", Some((40, 47))),
    (b"0000000000,0000000", Some((40, 40))),
    (b"0000000001,0000000", Some((40, 40))),
];

/// Time and date that are good under some letters and statuses and wrong under others.
const TAILS: [&[u8]; 7] = [
    b"246100000031042024",
    b"240000000000000000",
    b"0000000000-0000000",
    b"000000000000000000",
    b"12:34:5678 no date",
    b"2359599999-000000 ",
    b"12345678983113202\x7f",
];

/// The fields of `CLOCK` whose edges are read too. The damage cases ask about those of all fields.
const EDGES: [usize; 2] = [at::RUN, at::DATE];

const RANDOM_READS: usize = 20;

pub fn add_all(cases: &mut Cases, random: &mut Random) {
    add_tables(cases);
    add_frames(cases, "read-reply", &under_letters());
    for offset in EDGES {
        add_frames(cases, "read-reply", &with_edges::<Reply>(CLOCK, offset));
    }
    add_frames(cases, "read-reply", &with_edges::<Reply>(NET, at::DATE));
    let good = [CLOCK, NET, RAW, ABSENT].map(|frame| frame.to_vec());
    add_frames(cases, "damage-reply", &good);
    for (frame, spoiled) in TO_DAMAGE {
        add_frames(cases, "damage-reply", &with_each(frame, &[spoiled]));
    }
    for _ in 0..RANDOM_READS {
        let mut frame = frame_of(&random_record(random));
        change_field(&mut frame, &FIELDS, random);
        add_frames(cases, "read-reply", &[frame]);
    }
}

fn add_tables(cases: &mut Cases) {
    for (frame, spoiled) in tables() {
        add_frames(cases, "read-reply", &with_each(frame, &spoiled));
    }
    for (frame, late) in late_tables() {
        add_frames(cases, "read-reply", &with_worse_after(frame, late));
    }
    // With status Z a run of 000 is good, but none above 250.
    let runs = [b"000", b"251", b"00:"].map(|run| replaced(ABSENT, at::RUN, run));
    add_frames(cases, "read-reply", &runs);
    for late in [&LATE[4..], &TOGETHER[..1], &DATES[12..14]] {
        add_frames(cases, "read-reply-value", &with_each(CLOCK, late));
    }
    let net_dates = with_each(NET_AT_ZERO, &NET_DATES[..2]);
    add_frames(cases, "read-reply-value", &net_dates);
    add_frames(cases, "read-reply", &after_times());
}

/// Good replies and what is put in them.
fn tables() -> Vec<(&'static Value, Vec<Spoiled>)> {
    let times: Vec<Spoiled> = WRONG_TIMES
        .into_iter()
        .map(|(time, place)| (at::TIME, time, at::TIME + place))
        .collect();
    vec![
        (CLOCK, NUMBERS.to_vec()),
        (CLOCK, times.clone()),
        (CLOCK, TOGETHER.to_vec()),
        (CLOCK, DATES.to_vec()),
        (NET, times[..11].to_vec()),
        (NET, NET_DATES[1..].to_vec()),
        (RAW, RAW_BYTES.to_vec()),
        (ABSENT, RAW_BYTES.to_vec()),
        (NET_AT_ZERO, NET_DATES.to_vec()),
    ]
}

fn late_tables() -> [(&'static Value, &'static [Spoiled]); 4] {
    [
        (CLOCK, &LATE),
        (NET, &LATE_OF_NET),
        (RAW, &LATE_OF_RAW),
        (ABSENT, &LATE_OF_RAW),
    ]
}

/// Minus and no days after times on both sides of zero, and with a spoiled byte in the time or in
/// the date.
fn after_times() -> Vec<Vec<u8>> {
    AFTER_TIMES
        .iter()
        .map(|&(timing, _)| replaced(NET, at::TIME, timing))
        .collect()
}

/// Each tail under a clock letter, a net letter and a raw one, with status R and with status Z.
fn under_letters() -> Vec<Vec<u8>> {
    let mut frames = Vec::new();
    for (turn, tail) in TAILS.into_iter().enumerate() {
        let letters = [b"0KSsa"[turn % 5], b"123"[turn % 3], INFORMATION[turn + 4]];
        for letter in letters {
            for status in *b"RZ" {
                let frame = replaced(CLOCK, at::STATUS, &[status]);
                let frame = replaced(&frame, at::INFORMATION, &[letter]);
                frames.push(replaced(&frame, at::TIME, tail));
            }
        }
    }
    frames
}

#[cfg(test)]
mod tests {
    use super::super::tests::{check, check_edges, check_worse_after};
    use super::*;
    use crate::frame::Kind;
    use crate::refusal::Refusal;

    #[test]
    fn the_spoiled_bytes_are_those_of_the_tables() {
        for (frame, spoiled) in tables() {
            check::<Reply>(frame, &spoiled);
        }
        for (frame, late) in late_tables() {
            check::<Reply>(frame, late);
            check_worse_after::<Reply>(frame, late);
        }
        for (frame, spoiled) in TO_DAMAGE {
            check::<Reply>(frame, &[spoiled]);
        }
        for frame in [CLOCK, NET, NET_AT_ZERO, RAW, ABSENT] {
            check_edges::<Reply>(frame, &FIELDS);
        }
    }

    #[test]
    fn minus_zero_depends_on_the_time() {
        assert!(Reply::read(&replaced(NET, at::DATE, b"-0000000")).is_ok());
        for (frame, (_, wrong)) in after_times().iter().zip(AFTER_TIMES) {
            let expected = wrong.map(|(offset, spoiled)| Refusal::Field(offset, spoiled));
            assert_eq!(Reply::read(frame).err(), expected);
        }
    }

    #[test]
    fn runs_of_a_reply_that_is_not_available() {
        check::<Reply>(ABSENT, &[(at::RUN, b"251", 20), (at::RUN, b"00:", 22)]);
        assert!(Reply::read(&replaced(ABSENT, at::RUN, b"000")).is_ok());
    }

    /// What is refused under R is mostly taken under Z.
    #[test]
    fn tails_under_two_statuses() {
        let refusals: Vec<_> = under_letters()
            .iter()
            .map(|frame| Reply::read(frame).err())
            .collect();
        let field = |offset, spoiled| Some(Refusal::Field(offset, spoiled));
        let expected = [
            [field(30, 32), field(30, 32), None],
            [field(30, 30), field(30, 30), None],
            [field(40, 40), field(40, 40), None],
            [field(40, 44), field(40, 40), None],
            [field(30, 32), field(30, 32), None],
            [field(40, 40), field(40, 47), None],
            [field(40, 47), field(40, 40), field(40, 47)],
        ];
        for (tail, (refusals, expected)) in refusals.chunks(6).zip(expected).enumerate() {
            let not_available = if tail == 6 { field(40, 47) } else { None };
            for (pair, expected) in refusals.chunks(2).zip(expected) {
                assert_eq!(pair, [expected, not_available], "{tail}");
            }
        }
    }
}
