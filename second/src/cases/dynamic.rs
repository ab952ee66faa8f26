//! Cases of the dynamic request: `read-dynamic`, `damage-dynamic` and `write-dynamic`.

use super::frames::{
    any_number, at_lengths, befall_at_random, faults_around, faults_of, neighbours_and_tails,
    number_of_faults, put, random_address, time_text, to_damage_by_address, with_address_edges,
    with_addresses_and_faults, with_blank_numbers, with_faults, with_number_edges,
    with_surround_faults, Number, WrongField, ADDRESS_EDGES, LARGEST, NOT_PRINTABLE, OUTPUTS,
    REQUESTERS, REQUESTER_EDGES, TIMES,
};
use super::{replaced, Cases};
use crate::dynamic::{at, Dynamic, ORDERS};
use crate::frame::Kind;
use crate::random::Random;
use crate::records::Spelled;
use crate::spelling::bytes_text;
use crate::times::TICKS_OF_DAY;

const LENGTH: usize = Dynamic::LENGTH;

/// Two requests that differ in every field. The order of the first requires a period. The sign of
/// the second is minus.
pub const PLUS: &[u8; LENGTH] = b"\x13R 1A000150010020004125500301234567898200100S\r";
pub const MINUS: &[u8; LENGTH] = b"\x13R9zt600002402506000025000012359599999999999T\r";

/// Minus zero: no days, no time, and a minus sign.
pub const MINUS_ZERO: &[u8; LENGTH] = b"\x13R0Ma000000000000000100000010000000000000000B\r";

/// No room, one byte too little, just enough, and more.
const ROOMS: [usize; 4] = [0, LENGTH - 1, LENGTH, 60];

/// Numbers on both sides of every limit, by rising offset.
pub const NUMBERS: [Number; 9] = [
    (at::BIB, 5, BIBS),
    (at::CHANNEL, 3, CHANNELS),
    (at::RUN, 3, RUNS),
    (at::STOP_BIB, 5, BIBS),
    (at::STOP_CHANNEL, 3, CHANNELS),
    (at::STOP_RUN, 3, RUNS),
    (at::SIGN, 1, &[0, 1, 2, 9]),
    (at::DAYS, 1, &[0, 1, 8, 9]),
    (at::PERIOD, 5, &[0, 1, 65_536, 99_998, 99_999]),
];
const BIBS: &[u64] = &[0, 1, 59_999, 60_000, 60_001, 65_535, 65_536, 99_999];
const CHANNELS: &[u64] = &[0, 1, 240, 241, 245, 248, 249, 250, 251, 254, 255, 256, 999];
const RUNS: &[u64] = &[0, 1, 250, 251, 255, 256, 999];

/// One wrong text for each field of `PLUS`, by rising offset.
pub const WRONG_FIELDS: [WrongField; 13] = [
    (at::REQUESTER, b"`"),
    (at::ORDER, b"C"),
    (at::BIB, b"60001"),
    (at::CHANNEL, b"249"),
    (at::RUN, b"251"),
    (at::STOP_BIB, b"00000"),
    (at::STOP_CHANNEL, b"251"),
    (at::STOP_RUN, b"25 "),
    (at::SIGN, b"2"),
    (at::TIME, b"2359600000"),
    (at::DAYS, b":"),
    (at::PERIOD, b"00000"),
    (at::OUTPUT, b"s"),
];

pub fn add_all(cases: &mut Cases, seed: u64) {
    for frame in [PLUS, MINUS] {
        add_damage(cases, frame);
    }
    add_surroundings(cases);
    add_addresses(cases);
    add_fields(cases);
    add_periods(cases);
    add_random_frames(cases, &mut Random::new(seed, "read-dynamic"));
    add_writes(cases);
    add_addresses_to_write(cases);
    add_letters_to_write(cases);
    add_numbers_to_write(cases);
    add_several_wrong_to_write(cases);
    add_random_writes(cases, &mut Random::new(seed, "write-dynamic"));
}

fn add_read(cases: &mut Cases, frame: &[u8]) {
    cases.add(format!("read-dynamic {}", bytes_text(frame)));
}

fn add_damage(cases: &mut Cases, frame: &[u8]) {
    cases.add(format!("damage-dynamic {}", bytes_text(frame)));
}

fn add_reads(cases: &mut Cases, frames: &[Vec<u8>]) {
    for frame in frames {
        add_read(cases, frame);
    }
}

fn add_surroundings(cases: &mut Cases) {
    for frame in [PLUS, MINUS, MINUS_ZERO] {
        add_read(cases, frame);
    }
    let lengths = [0, 1, 2, 24, 40, 44, 45, 46, 47, 48, 51, 60];
    add_reads(cases, &at_lengths(PLUS, &lengths));
    let leads = b"\x11\x12\x14\x00\x0d3R\x93\xff";
    add_reads(cases, &with_surround_faults(MINUS, leads));
    let faults = faults_of::<Dynamic>(b"\x11", &WRONG_FIELDS);
    for faults in neighbours_and_tails(&faults) {
        add_read(cases, &with_faults(PLUS, faults));
    }
}

fn add_addresses(cases: &mut Cases) {
    add_reads(cases, &with_address_edges(PLUS));
    let around = faults_around::<Dynamic>(b"\x12");
    let faulty = with_addresses_and_faults(PLUS, WRONG_FIELDS[0], &around);
    add_reads(cases, &faulty);
    for frame in to_damage_by_address(PLUS, &WRONG_FIELDS) {
        add_damage(cases, &frame);
    }
}

fn add_fields(cases: &mut Cases) {
    add_reads(cases, &with_number_edges(PLUS, &NUMBERS));
    add_reads(cases, &with_blank_numbers(MINUS, &NUMBERS));
    for sign in *b"+-" {
        add_read(cases, &replaced(PLUS, at::SIGN, &[sign]));
    }
    for time in TIMES {
        add_read(cases, &replaced(MINUS, at::TIME, time));
    }
    for code in REQUESTER_EDGES.into_iter().chain(NOT_PRINTABLE) {
        add_read(cases, &replaced(PLUS, at::REQUESTER, &[code]));
    }
    // The damage cases ask about every byte at these two places.
    for code in *b"ABabTt@CSU`csu 0Zz\x00\x80\xc1" {
        add_read(cases, &replaced(PLUS, at::ORDER, &[code]));
    }
    for code in *b"SABT@CRUsabt 0Zz\x00\x80\xd3" {
        add_read(cases, &replaced(PLUS, at::OUTPUT, &[code]));
    }
}

fn add_periods(cases: &mut Cases) {
    for &order in ORDERS {
        for period in [b"00000", b"00001", b"99999", b"0000 "] {
            let frame = replaced(PLUS, at::ORDER, &[order]);
            add_read(cases, &replaced(&frame, at::PERIOD, period));
        }
    }
}

fn add_random_frames(cases: &mut Cases, random: &mut Random) {
    for _ in 0..200 {
        let frame = random_frame(random);
        add_read(cases, &frame);
    }
}

/// A good frame with no, one or several random changes.
pub fn random_frame(random: &mut Random) -> Vec<u8> {
    let mut frame = frame_of(&random_record(random));
    for _ in 0..number_of_faults(random) {
        match random.below(5) {
            0 => put(&mut frame, at::ORDER, &[random.pick(ORDERS)]),
            1 => put(&mut frame, at::TIME, random.pick(&TIMES)),
            2 => put(&mut frame, at::PERIOD, b"00000"),
            _ => befall_at_random(&mut frame, &NUMBERS, random),
        }
    }
    frame
}

pub fn random_record(random: &mut Random) -> Dynamic {
    let order = random.pick(ORDERS);
    Dynamic {
        address: random_address(random),
        requester: random.pick(REQUESTERS),
        order,
        bib: random.below(60_001),
        channel: random_channel(random),
        run: random.below(251),
        stop_bib: 1 + random.below(60_000),
        stop_channel: random_channel(random),
        stop_run: random.below(251),
        sign: random.below(2),
        time: random.below(TICKS_OF_DAY as u64).into(),
        days: random.below(10),
        period: match order {
            b'A' | b'B' => 1 + random.below(99_999),
            _ => random.below(100_000),
        },
        output: random.pick(OUTPUTS),
    }
}

fn random_channel(random: &mut Random) -> u64 {
    match random.below(3) {
        0 => random.pick(&[250, 255]),
        _ => random.below(241),
    }
}

/// The frame of a good record. It is built here, without the writer that is compared.
pub fn frame_of(record: &Dynamic) -> Vec<u8> {
    let mut frame = b"\x13R".to_vec();
    frame.extend([record.address, record.requester, record.order]);
    let start = format!("{:05}{:03}{:03}", record.bib, record.channel, record.run);
    let stop = format!(
        "{:05}{:03}{:03}",
        record.stop_bib, record.stop_channel, record.stop_run
    );
    let time = time_text(record.time);
    let rest = format!("{}{time}{}{:05}", record.sign, record.days, record.period);
    frame.extend([start, stop, rest].concat().bytes());
    frame.push(record.output);
    frame.push(b'\r');
    frame
}

fn record_of(frame: &[u8; LENGTH]) -> Dynamic {
    Dynamic::read(frame).expect("a good frame")
}

fn write_case(room: usize, record: &Dynamic) -> String {
    format!("write-dynamic {room} {}", record.text())
}

fn add_write(cases: &mut Cases, room: usize, record: &Dynamic) {
    cases.add(write_case(room, record));
}

fn add_writes(cases: &mut Cases) {
    for frame in [PLUS, MINUS, MINUS_ZERO] {
        for room in ROOMS {
            add_write(cases, room, &record_of(frame));
        }
    }
}

/// A record of short numbers, which keeps the file short.
fn short_record() -> Dynamic {
    Dynamic {
        time: 0,
        ..record_of(PLUS)
    }
}

/// Every byte as the address, with enough room. The bytes at the edges come again with a wrong part
/// behind them, and with one byte too little.
fn add_addresses_to_write(cases: &mut Cases) {
    let base = short_record();
    for address in 0..=u8::MAX {
        add_write(cases, LENGTH, &Dynamic { address, ..base });
    }
    for address in ADDRESS_EDGES {
        let requester = b'[';
        let spoiled = Dynamic { requester, ..base };
        add_write(cases, LENGTH, &Dynamic { address, ..spoiled });
        add_write(cases, LENGTH - 1, &Dynamic { address, ..base });
    }
}

fn add_letters_to_write(cases: &mut Cases) {
    let base = short_record();
    for requester in REQUESTER_EDGES.into_iter().chain(NOT_PRINTABLE) {
        add_write(cases, LENGTH, &Dynamic { requester, ..base });
    }
    for order in (0x20..=0x7e).chain(NOT_PRINTABLE) {
        add_write(cases, LENGTH, &Dynamic { order, ..base });
    }
    for output in (0x20..=0x7e).chain(NOT_PRINTABLE) {
        add_write(cases, LENGTH, &Dynamic { output, ..base });
    }
}

fn add_numbers_to_write(cases: &mut Cases) {
    const FAR_BEYOND: [u64; 2] = [65_536, LARGEST];
    for (offset, width, edges) in NUMBERS {
        let one_digit_more = 10_u64.pow(width as u32);
        for &value in edges.iter().chain(&FAR_BEYOND).chain([&one_digit_more]) {
            let mut record = record_of(MINUS);
            set_number(&mut record, offset, value);
            add_write(cases, LENGTH, &record);
        }
    }
    for sign in [43, 45, 48, 49, 256, 257] {
        let record = record_of(PLUS);
        add_write(cases, LENGTH, &Dynamic { sign, ..record });
    }
    for time in [
        0,
        1,
        TICKS_OF_DAY - 1,
        TICKS_OF_DAY,
        1 << 31,
        LARGEST.into(),
    ] {
        let record = record_of(PLUS);
        add_write(cases, LENGTH, &Dynamic { time, ..record });
    }
    for &order in ORDERS {
        for period in [0, 1, 99_999, 100_000] {
            let mut record = record_of(PLUS);
            record.order = order;
            record.period = period;
            add_write(cases, LENGTH, &record);
        }
    }
}

fn set_number(record: &mut Dynamic, offset: usize, value: u64) {
    match offset {
        at::BIB => record.bib = value,
        at::CHANNEL => record.channel = value,
        at::RUN => record.run = value,
        at::STOP_BIB => record.stop_bib = value,
        at::STOP_CHANNEL => record.stop_channel = value,
        at::STOP_RUN => record.stop_run = value,
        at::SIGN => record.sign = value,
        at::DAYS => record.days = value,
        _ => record.period = value,
    }
}

/// A field's offset, and a function that makes that field's part of the record wrong.
type Spoil = (usize, fn(&mut Dynamic));

/// By rising offset.
const SPOILS: [Spoil; 14] = [
    (at::ADDRESS, |record| record.address = b'-'),
    (at::REQUESTER, |record| record.requester = b'['),
    (at::ORDER, |record| record.order = b'c'),
    (at::BIB, |record| record.bib = 60_001),
    (at::CHANNEL, |record| record.channel = 251),
    (at::RUN, |record| record.run = 251),
    (at::STOP_BIB, |record| record.stop_bib = 0),
    (at::STOP_CHANNEL, |record| record.stop_channel = 245),
    (at::STOP_RUN, |record| record.stop_run = 251),
    (at::SIGN, |record| record.sign = 2),
    (at::TIME, |record| record.time = TICKS_OF_DAY),
    (at::DAYS, |record| record.days = 10),
    (at::PERIOD, |record| record.period = 100_000),
    (at::OUTPUT, |record| record.output = b'b'),
];

fn add_several_wrong_to_write(cases: &mut Cases) {
    for spoils in neighbours_and_tails(&SPOILS) {
        let mut record = record_of(MINUS);
        for (_, spoil) in spoils {
            spoil(&mut record);
        }
        // Two wrong fields go to enough room, all other lists to no room.
        let room = if spoils.len() == 2 { LENGTH } else { 0 };
        add_write(cases, room, &record);
    }
}

fn add_random_writes(cases: &mut Cases, random: &mut Random) {
    for _ in 0..200 {
        cases.add(random_write(random));
    }
}

/// A record with no, one or several wrong parts, written to a room that may be too small.
pub fn random_write(random: &mut Random) -> String {
    let mut record = random_record(random);
    for _ in 0..number_of_faults(random) {
        spoil_at_random(&mut record, random);
    }
    let room = match random.below(3) {
        0 => random.pick(&ROOMS),
        1 => LENGTH + random.place(8),
        _ => random.place(101),
    };
    write_case(room, &record)
}

fn spoil_at_random(record: &mut Dynamic, random: &mut Random) {
    match random.below(9) {
        0 => record.address = random.pick(&ADDRESS_EDGES),
        1 => record.requester = random.byte(),
        2 => record.order = random.pick(ORDERS),
        3 => record.output = random.byte(),
        4 => record.time = any_number(random).into(),
        5 => record.period = 0,
        _ => {
            let (offset, _, _) = random.pick(&NUMBERS);
            set_number(record, offset, any_number(random));
        }
    }
}

#[cfg(test)]
mod tests {
    use super::*;
    use crate::refusal::Refusal;

    #[test]
    fn each_fault_is_refused_at_its_offset() {
        for (offset, wrong) in WRONG_FIELDS {
            let frame = replaced(PLUS, offset, wrong);
            let refusal = Dynamic::read(&frame).expect_err("a wrong field");
            assert_eq!((refusal.number(), refusal.offset()), (5, offset));
        }
        for (offset, spoil) in SPOILS {
            let mut record = record_of(MINUS);
            spoil(&mut record);
            assert_eq!(record.write(&mut []), Err(Refusal::Record(offset)));
        }
    }

    #[test]
    fn random_records_are_good() {
        let mut random = Random::new(1, "test");
        for _ in 0..1000 {
            let record = random_record(&mut random);
            assert_eq!(Dynamic::read(&frame_of(&record)), Ok(record));
        }
    }
}
