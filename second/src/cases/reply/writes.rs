//! Cases of writing: `write-reply` and `write-reply-value`.

use super::{
    random_clock, random_net, random_raw_bytes, random_record, ABSENT, CLOCK, LENGTH, NET, RAW,
    STATUSES,
};
use crate::cases::frames::{
    any_number, neighbours_and_tails, number_of_faults, ADDRESS_EDGES, LARGEST, REQUESTER_EDGES,
};
use crate::cases::Cases;
use crate::frame::Kind;
use crate::random::Random;
use crate::records::Spelled;
use crate::reply::{at, Reply, Timing, CLOCK_LETTERS, INFORMATION, NET_LETTERS, NOT_AVAILABLE};
use crate::times::{MOST_NET_DAYS, TICKS_OF_DAY};

/// No room, one byte too little, just enough, and more.
const ROOMS: [usize; 4] = [0, LENGTH - 1, LENGTH, 60];

/// The largest absolute value of a VALUE.
const LARGEST_VALUE: i128 = (1 << 63) - 1;

/// Each number's offset, its highest good value, and more values on both sides of its limits. Some
/// of these are good again if cut to 8 or 16 bits.
const NUMBERS: [(usize, u64, &[u64]); 6] = [
    (at::NUMBER, 99_999, &[0, 999, 1_000]),
    (at::BIB, 59_999, &[0, 65_535]),
    (at::GROUP, 199, &[0, 256]),
    (at::RUN, 250, &[0, 1, 257, 65_537]),
    (at::PHYSICAL, 999, &[0]),
    (
        at::CHANNEL,
        255,
        &[0, 240, 241, 244, 245, 246, 247, 248, 249, 250, 251, 254],
    ),
];

const FAR_BEYOND: [u64; 2] = [65_536, LARGEST];

pub fn add_all(cases: &mut Cases, seed: u64) {
    add_rooms(cases);
    add_addresses(cases);
    add_letters(cases);
    add_numbers(cases);
    add_timing_kinds(cases);
    add_clocks(cases);
    add_nets(cases);
    add_raw_parts(cases);
    add_left_overs(cases);
    add_several_wrong(cases);
    add_random_writes(cases, &mut Random::new(seed, "write-reply"));
}

pub fn record_of(frame: &[u8; LENGTH]) -> Reply {
    Reply::read(frame).expect("a good frame")
}

/// A clock record of short numbers, which keeps the file short.
fn clock_record(ticks: i128, day: u64, month: u64, year: u64) -> Reply {
    let mut record = record_of(NET);
    record.information = b'a';
    record.timing = Timing::Clock {
        ticks,
        day,
        month,
        year,
    };
    record
}

/// A good record with each kind of timing.
fn timed_records() -> [Reply; 3] {
    [clock_record(1, 29, 2, 2024), record_of(NET), record_of(RAW)]
}

fn write_case(room: usize, record: &Reply) -> String {
    format!("write-reply {room} {}", record.text())
}

fn value_case(record: &Reply) -> String {
    format!("write-reply-value {}", record.text())
}

fn add_write(cases: &mut Cases, room: usize, record: &Reply) {
    cases.add(write_case(room, record));
}

fn add_value(cases: &mut Cases, record: &Reply) {
    cases.add(value_case(record));
}

/// Writes to just enough room and to a value.
pub fn add_both(cases: &mut Cases, record: &Reply) {
    add_write(cases, LENGTH, record);
    add_value(cases, record);
}

fn add_rooms(cases: &mut Cases) {
    for frame in [CLOCK, NET, RAW, ABSENT] {
        let record = record_of(frame);
        for room in ROOMS {
            add_write(cases, room, &record);
        }
        add_value(cases, &record);
    }
}

/// Every byte as the address, with enough room. The bytes at the edges come again in other records,
/// with a wrong part behind them, with one byte too little and to a value.
fn add_addresses(cases: &mut Cases) {
    let base = record_of(NET);
    for address in 0..=u8::MAX {
        let record = Reply {
            address,
            ..base.clone()
        };
        add_write(cases, LENGTH, &record);
    }
    for address in ADDRESS_EDGES {
        let mut record = Reply {
            address,
            ..record_of(RAW)
        };
        add_value(cases, &record);
        add_write(cases, LENGTH - 1, &record);
        record.program = 0x7f;
        add_both(cases, &record);
    }
}

fn add_letters(cases: &mut Cases) {
    let edges: [(usize, &[u8]); 5] = [
        (at::PROGRAM, b"\x00\x1f\x20\x7e\x7f\x80\xff"),
        (at::MODE, b"\x00\x1f\x20\x7e\x7f\x80\xff"),
        (at::STATUS, b"REZDFQSY[rez\x00\xff"),
        (at::REQUESTER, &REQUESTER_EDGES),
        (at::INFORMATION, b"Lt*lbcdqBZz@ \x00\xff"),
    ];
    for (offset, codes) in edges {
        for &code in codes {
            let mut record = record_of(RAW);
            set_letter(&mut record, offset, code);
            add_write(cases, LENGTH, &record);
        }
    }
    for information in *b"LqB" {
        let mut record = record_of(RAW);
        record.status = NOT_AVAILABLE;
        record.information = information;
        add_write(cases, LENGTH, &record);
    }
    let [clock, net, raw] = timed_records();
    for &information in INFORMATION {
        let mut record = match information {
            code if CLOCK_LETTERS.contains(&code) => clock.clone(),
            code if NET_LETTERS.contains(&code) => net.clone(),
            _ => raw.clone(),
        };
        record.information = information;
        add_value(cases, &record);
    }
}

fn set_letter(record: &mut Reply, offset: usize, code: u8) {
    match offset {
        at::PROGRAM => record.program = code,
        at::MODE => record.mode = code,
        at::STATUS => record.status = code,
        at::REQUESTER => record.requester = code,
        _ => record.information = code,
    }
}

fn set_number(record: &mut Reply, offset: usize, value: u64) {
    match offset {
        at::NUMBER => record.number = value,
        at::BIB => record.bib = value,
        at::GROUP => record.group = value,
        at::RUN => record.run = value,
        at::PHYSICAL => record.physical = value,
        _ => record.channel = value,
    }
}

fn add_numbers(cases: &mut Cases) {
    for (offset, highest, others) in NUMBERS {
        let with = |value| {
            let mut record = record_of(NET);
            set_number(&mut record, offset, value);
            record
        };
        for &value in others.iter().chain(&FAR_BEYOND) {
            add_write(cases, LENGTH, &with(value));
        }
        for value in [highest, highest + 1] {
            add_both(cases, &with(value));
        }
    }
    for &status in STATUSES {
        for run in [0, 1, 250, 251] {
            let mut record = record_of(RAW);
            record.status = status;
            record.run = run;
            add_write(cases, LENGTH, &record);
        }
    }
}

/// Each kind of timing with each status and with a letter of each kind. The raw parts belong to the
/// timing.
fn add_timing_kinds(cases: &mut Cases) {
    for &status in STATUSES {
        for information in *b"s3A" {
            for mut record in timed_records() {
                record.status = status;
                record.information = information;
                add_both(cases, &record);
            }
        }
    }
}

fn add_clocks(cases: &mut Cases) {
    for ticks in [
        0,
        1,
        TICKS_OF_DAY - 1,
        TICKS_OF_DAY,
        1 << 31,
        LARGEST.into(),
    ] {
        add_both(cases, &clock_record(ticks, 29, 2, 2024));
    }
    for (day, month, year) in [
        (29, 2, 2023),
        (31, 12, 1999),
        (1, 1, 2000),
        (31, 12, 2099),
        (1, 1, 2100),
        (LARGEST, LARGEST, LARGEST),
    ] {
        add_both(cases, &clock_record(1, day, month, year));
    }
    for (day, month, year) in [
        (0, 1, 2024),
        (1, 1, 2024),
        (31, 1, 2024),
        (32, 1, 2024),
        (30, 4, 2024),
        (31, 4, 2024),
        (30, 2, 2024),
        (28, 2, 2023),
        (29, 2, 2000),
        (29, 2, 2096),
        (29, 2, 2099),
        (1, 0, 2024),
        (31, 12, 2024),
        (1, 13, 2024),
        (1, 1, 0),
        (257, 1, 2024),
        (65_537, 1, 2024),
        (LARGEST, 1, 2024),
        (1, 257, 2024),
        (1, 65_537, 2024),
        (1, LARGEST, 2024),
        (1, 1, 67_560),
        (1, 1, LARGEST),
    ] {
        add_write(cases, LENGTH, &clock_record(1, day, month, year));
    }
    add_write(cases, LENGTH, &clock_record(TICKS_OF_DAY, 29, 2, 2023));
}

fn add_nets(cases: &mut Cases) {
    let whole_days = MOST_NET_DAYS * TICKS_OF_DAY;
    let highest = whole_days + TICKS_OF_DAY - 1;
    for value in [
        -whole_days - 1,
        -whole_days,
        highest,
        highest + 1,
        -TICKS_OF_DAY - 1,
        -TICKS_OF_DAY,
        -10_000,
        -1,
        0,
        1,
        725_400,
        TICKS_OF_DAY - 1,
        TICKS_OF_DAY,
        LARGEST_VALUE,
        -LARGEST_VALUE,
        -highest,
        -highest - 1,
        -whole_days + 1,
        1 - TICKS_OF_DAY,
        TICKS_OF_DAY + 1,
        10_000,
        -1_727_990_000,
        1_727_990_000,
    ] {
        let timing = Timing::Net(value);
        let record = record_of(NET);
        add_both(cases, &Reply { timing, ..record });
    }
}

/// Bytes on both sides of the limits of raw bytes. With status Z and a clock letter they are the
/// first and the last byte of each raw part, with a raw letter the second byte.
fn add_raw_parts(cases: &mut Cases) {
    let raw = record_of(RAW);
    let absent = Reply {
        status: NOT_AVAILABLE,
        information: b'0',
        ..raw
    };
    for part in [at::TIME, at::DATE, at::SPARE] {
        for code in *b"\x00\x1f\x20\x7e\x7f\xff" {
            for place in [0, usize::MAX] {
                let mut record = absent.clone();
                set_raw(&mut record, part, place, code);
                add_write(cases, LENGTH, &record);
            }
        }
        for code in *b"\x1f\x80" {
            let mut record = raw.clone();
            set_raw(&mut record, part, 1, code);
            add_both(cases, &record);
        }
    }
}

/// Sets one byte of a raw part. A place beyond its end means its last byte.
fn set_raw(record: &mut Reply, part: usize, place: usize, code: u8) {
    let bytes: &mut [u8] = match part {
        at::TIME => &mut record.raw_time,
        at::DATE => &mut record.raw_date,
        _ => &mut record.spare,
    };
    bytes[place.min(bytes.len() - 1)] = code;
}

/// Clock and net records whose raw parts are not all zero: one byte of them, or all bytes of both.
/// Then the same with a wrong spare byte, which is an earlier field.
fn add_left_overs(cases: &mut Cases) {
    let [clock, net, _] = timed_records();
    for good in [clock, net] {
        let mut all = good.clone();
        all.raw_time = *b"0000000000";
        all.raw_date = *b"00000000";
        let mut records = vec![all];
        for part in [at::TIME, at::DATE] {
            for (place, code) in [(0, 1), (usize::MAX, b'0')] {
                let mut record = good.clone();
                set_raw(&mut record, part, place, code);
                records.push(record);
            }
        }
        for mut record in records {
            add_both(cases, &record);
            record.spare = *b"~\x7f";
            add_write(cases, LENGTH, &record);
        }
    }
}

/// A field's offset, and a function that makes that field's part of a clock record wrong.
type Spoil = (usize, fn(&mut Reply));

/// By rising offset.
const SPOILS: [Spoil; 16] = [
    (at::ADDRESS, |record| record.address = b'!'),
    (at::PROGRAM, |record| record.program = 0x7f),
    (at::MODE, |record| record.mode = 0),
    (at::STATUS, |record| record.status = b'X'),
    (at::REQUESTER, |record| record.requester = b'@'),
    (at::NUMBER, |record| record.number = 100_000),
    (at::BIB, |record| record.bib = 60_000),
    (at::GROUP, |record| record.group = 200),
    (at::RUN, |record| record.run = 251),
    (at::PHYSICAL, |record| record.physical = 1_000),
    (at::CHANNEL, |record| record.channel = 251),
    (at::INFORMATION, |record| record.information = b'l'),
    (at::TIME, |record| {
        if let Timing::Clock { ticks, .. } = &mut record.timing {
            *ticks = TICKS_OF_DAY;
        }
    }),
    (at::DATE, |record| {
        if let Timing::Clock { day, .. } = &mut record.timing {
            *day = 30;
        }
    }),
    (at::SPARE, |record| record.spare = *b"\x1f "),
    (at::CR, |record| record.raw_date[7] = 1),
];

fn add_several_wrong(cases: &mut Cases) {
    for spoils in neighbours_and_tails(&SPOILS) {
        let mut record = clock_record(1, 29, 2, 2024);
        for (_, spoil) in spoils {
            spoil(&mut record);
        }
        // Two wrong parts go to enough room, all other lists to no room and to a value.
        if spoils.len() == 2 {
            add_write(cases, LENGTH, &record);
        } else {
            add_write(cases, 0, &record);
            add_value(cases, &record);
        }
    }
}

fn add_random_writes(cases: &mut Cases, random: &mut Random) {
    for _ in 0..200 {
        cases.add(random_write(random));
    }
}

/// A record with no, one or several wrong parts, written to a room that may be too small or to a
/// value.
pub fn random_write(random: &mut Random) -> String {
    let mut record = random_record(random);
    for _ in 0..number_of_faults(random) {
        spoil_at_random(&mut record, random);
    }
    let room = match random.below(3) {
        0 => random.pick(&ROOMS),
        1 => LENGTH + random.place(8),
        _ => random.place(101),
    };
    match random.below(2) {
        0 => write_case(room, &record),
        _ => value_case(&record),
    }
}

fn spoil_at_random(record: &mut Reply, random: &mut Random) {
    let letters = [
        at::PROGRAM,
        at::MODE,
        at::STATUS,
        at::REQUESTER,
        at::INFORMATION,
    ];
    match random.below(9) {
        0 => set_letter(record, random.pick(&letters), random.byte()),
        1 | 2 => {
            let (offset, _, _) = random.pick(&NUMBERS);
            set_number(record, offset, any_number(random));
        }
        3 => record.status = random.pick(STATUSES),
        4 => record.information = random.pick(INFORMATION),
        5 => {
            let part = random.pick(&[at::TIME, at::DATE, at::SPARE]);
            set_raw(record, part, random.place(10), random.byte());
        }
        6 => record.address = random.pick(&ADDRESS_EDGES),
        7 => record.timing = random_timing(random),
        _ => record.raw_time = random_raw_bytes(random),
    }
}

fn random_timing(random: &mut Random) -> Timing {
    match random.below(5) {
        0 => random_clock(random),
        1 => random_net(random),
        2 => Timing::Raw,
        3 => Timing::Net(i128::from(random.below(1 << 63)) - (1 << 62)),
        _ => Timing::Clock {
            ticks: random.below(LARGEST).into(),
            day: random.below(40),
            month: random.below(16),
            year: 1990 + random.below(120),
        },
    }
}

#[cfg(test)]
mod tests {
    use super::*;
    use crate::refusal::Refusal;

    #[test]
    fn each_spoil_is_refused_at_its_offset() {
        for (offset, spoil) in SPOILS {
            let mut record = clock_record(1, 29, 2, 2024);
            assert_eq!(record.write_value().0, Ok(()));
            spoil(&mut record);
            assert_eq!(record.write_value().0, Err(Refusal::Record(offset)));
        }
    }
}
