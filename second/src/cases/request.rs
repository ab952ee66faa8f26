//! Cases of the static request: `read-request`, `damage-request` and `write-request`.

use super::frames::{
    any_number, befall_at_random, faults_around, faults_of, random_address, to_damage_by_address,
    with_address_edges, with_addresses_and_faults, with_faults, Number, WrongField, ADDRESS_EDGES,
    OUTPUTS, REQUESTERS, REQUESTER_EDGES,
};
use super::{replaced, Cases};
use crate::frame::Kind;
use crate::random::Random;
use crate::records::Spelled;
use crate::request::{at, Request, INFORMATION};
use crate::spelling::bytes_text;

const LENGTH: usize = Request::LENGTH;

/// The two requests of the scope paper's example, and one at the upper limits. No field is the same in
/// all three. The first two have no digit as their address.
const FIRST: &[u8; LENGTH] = b"\x11R 100700000P000002000S\r";
const SECOND: &[u8; LENGTH] = b"\x11R A012000411255001000S\r";
const UPPER: &[u8; LENGTH] = b"\x11R9z99959999q240250199T\r";

const LAST: usize = LENGTH - 1;

/// Values on both sides of every limit of the numbers, in the order of their offsets.
const NUMBER_EDGES: &[u64] = &[0, 1, 99, 100, 255, 256, 998, 999];
const BIB_EDGES: &[u64] = &[
    0, 1, 255, 256, 9_999, 10_000, 59_998, 59_999, 60_000, 60_001, 65_535, 65_536, 99_999,
];
const CHANNEL_EDGES: &[u64] = &[
    0, 1, 2, 99, 100, 199, 200, 238, 239, 240, 241, 242, 243, 244, 245, 246, 247, 248, 249, 250,
    251, 252, 253, 254, 255, 256, 257, 299, 300, 511, 512, 998, 999,
];
const RUN_EDGES: &[u64] = &[0, 1, 2, 249, 250, 251, 252, 255, 256, 506, 998, 999];
const GROUP_EDGES: &[u64] = &[0, 1, 2, 198, 199, 200, 201, 255, 256, 455, 998, 999];

/// Numbers that are too large for three digits. All but the first are too large for a bib too. Some
/// are good values again if cut to 8 or 16 bits.
const FAR_BEYOND: [u64; 8] = [
    1_000,
    60_000,
    65_535,
    65_536,
    65_784,
    70_000,
    100_000,
    4_294_967_295,
];

pub const NUMBERS: [Number; 5] = [
    (at::NUMBER, 3, NUMBER_EDGES),
    (at::BIB, 5, BIB_EDGES),
    (at::CHANNEL, 3, CHANNEL_EDGES),
    (at::RUN, 3, RUN_EDGES),
    (at::GROUP, 3, GROUP_EDGES),
];

/// The offset of each part of a record, by rising offset.
const PARTS: [usize; 9] = [
    at::ADDRESS,
    at::REQUESTER,
    at::NUMBER,
    at::BIB,
    at::INFORMATION,
    at::CHANNEL,
    at::RUN,
    at::GROUP,
    at::OUTPUT,
];

/// One wrong text for each field, by rising offset.
const WRONG_FIELDS: [WrongField; 8] = [
    (at::REQUESTER, b"["),
    (at::NUMBER, b"0 0"),
    (at::BIB, b"60000"),
    (at::INFORMATION, b"B"),
    (at::CHANNEL, b"250"),
    (at::RUN, b"251"),
    (at::GROUP, b"200"),
    (at::OUTPUT, b"C"),
];

pub fn add_all(cases: &mut Cases, seed: u64) {
    add_good_frames(cases);
    add_lengths(cases);
    add_surround_faults(cases);
    add_several_faults(cases);
    add_number_edges(cases);
    add_digit_faults(cases);
    add_letters(cases);
    add_random_frames(cases, &mut Random::new(seed, "read-request"));
    for frame in [FIRST, SECOND, UPPER] {
        add_damage(cases, frame);
    }
    add_addresses(cases);
    add_writes(cases);
    add_wrong_letters_to_write(cases);
    add_wrong_numbers_to_write(cases);
    add_several_wrong_to_write(cases);
    add_random_writes(cases, &mut Random::new(seed, "write-request"));
}

fn add_read(cases: &mut Cases, frame: &[u8]) {
    cases.add(format!("read-request {}", bytes_text(frame)));
}

fn add_damage(cases: &mut Cases, frame: &[u8]) {
    cases.add(format!("damage-request {}", bytes_text(frame)));
}

fn add_good_frames(cases: &mut Cases) {
    for frame in [FIRST, SECOND, UPPER] {
        add_read(cases, frame);
    }
    add_read(cases, b"\x11R 000000000000000000S\r");
    add_read(cases, b"\x11R Z00100001*248001001A\r");
    add_read(cases, b"\x11R a50030000L251125100B\r");
}

/// Every length from 0 to 30 in three ways: the frame cut or filled up with zeros; the same with CR
/// as its last byte; the same with another last byte.
fn add_lengths(cases: &mut Cases) {
    for length in 0..=30 {
        let mut frame = SECOND.to_vec();
        frame.resize(length, b'0');
        add_read(cases, &frame);
        for last in [b'\r', b'S'] {
            if length > 0 {
                add_read(cases, &replaced(&frame, length - 1, &[last]));
            }
        }
    }
    // As long as the two other kinds, and longer, with each of the three lead bytes.
    for length in [46, 51, 100] {
        for lead in [0x11, 0x12, 0x13] {
            let mut frame = replaced(SECOND, 0, &[lead]);
            frame.resize(length, b'0');
            add_read(cases, &replaced(&frame, length - 1, b"\r"));
        }
    }
}

fn add_surround_faults(cases: &mut Cases) {
    for lead in *b"\x10\x12\x13\x00\x01\x0d\x14 1HRSAhz\x91\xff" {
        add_read(cases, &replaced(FIRST, 0, &[lead]));
    }
    for lead in *b"\x10\x12\x13H" {
        add_read(cases, &[lead]);
    }
    for first in *b"QSr H0\x00\x11\xd2\xff" {
        add_read(cases, &replaced(FIRST, 1, &[first]));
    }
    for second in *b"\x1f!\x000R_\t\xa0\xff" {
        add_read(cases, &replaced(FIRST, 2, &[second]));
    }
    add_read(cases, &replaced(FIRST, 1, b" R"));
    for last in *b"\x0c\x0e\x0a\x00 S0\x11\x8d\xff" {
        add_read(cases, &replaced(FIRST, LAST, &[last]));
    }
    // A CR one place too early is in the output's place: once before another last byte, once before
    // a CR.
    add_read(cases, &replaced(FIRST, LAST - 1, b"\rS"));
    add_read(cases, &replaced(FIRST, LAST - 1, b"\r\r"));
}

fn add_addresses(cases: &mut Cases) {
    let around = faults_around::<Request>(b"\x13");
    let faulty = with_addresses_and_faults(FIRST, WRONG_FIELDS[0], &around);
    for frame in with_address_edges(FIRST).iter().chain(&faulty) {
        add_read(cases, frame);
    }
    for frame in to_damage_by_address(FIRST, &WRONG_FIELDS) {
        add_damage(cases, &frame);
    }
}

/// Every two faults together, and every end part of the list, to show which refusal comes first.
fn add_several_faults(cases: &mut Cases) {
    let faults = faults_of::<Request>(b"\x13", &WRONG_FIELDS);
    for (low, &first) in faults.iter().enumerate() {
        for &other in &faults[low + 1..] {
            add_read(cases, &with_faults(FIRST, &[first, other]));
        }
        add_read(cases, &with_faults(FIRST, &faults[low..]));
    }
}

fn add_number_edges(cases: &mut Cases) {
    for (offset, width, edges) in NUMBERS {
        for value in edges {
            let text = format!("{value:0width$}");
            add_read(cases, &replaced(SECOND, offset, text.as_bytes()));
        }
    }
}

/// In each number every byte in turn is not a digit: the neighbours of the digits, blanks, signs
/// and bytes above 7Fh. Then whole fields of blanks or nines, and nines that end with a blank.
fn add_digit_faults(cases: &mut Cases) {
    for (offset, width, _) in NUMBERS {
        for place in offset..offset + width {
            for wrong in [0x2f, 0x3a, b' ', b'+', b'-', 0x00, 0xb0, 0xff] {
                add_read(cases, &replaced(SECOND, place, &[wrong]));
            }
        }
        add_read(cases, &replaced(SECOND, offset, &vec![b' '; width]));
        add_read(cases, &replaced(SECOND, offset, &vec![b'9'; width]));
        let mut half_blank = vec![b'9'; width];
        half_blank[width - 1] = b' ';
        add_read(cases, &replaced(SECOND, offset, &half_blank));
    }
}

fn add_letters(cases: &mut Cases) {
    for code in (0x20..=0x7e).chain([0x00, 0x0d, 0x11, 0x1f, 0x7f, 0x80, 0xb0, 0xc1, 0xff]) {
        add_read(cases, &replaced(FIRST, at::INFORMATION, &[code]));
    }
    for code in REQUESTER_EDGES
        .into_iter()
        .chain(*b"5Mm \x00\x0d\x11\x7f\x80\xb0\xc1\xff")
    {
        add_read(cases, &replaced(FIRST, at::REQUESTER, &[code]));
    }
    for code in *b"SABT@CRUDEsabt 01Z\x00\x0d\x7f\xd3\xff" {
        add_read(cases, &replaced(FIRST, at::OUTPUT, &[code]));
    }
}

fn add_random_frames(cases: &mut Cases, random: &mut Random) {
    for _ in 0..300 {
        let frame = random_frame(random);
        add_read(cases, &frame);
    }
}

/// A good frame with up to two random changes.
pub fn random_frame(random: &mut Random) -> Vec<u8> {
    let mut frame = frame_of(&random_record(random));
    for _ in 0..random.below(3) {
        befall_at_random(&mut frame, &NUMBERS, random);
    }
    frame
}

pub fn random_record(random: &mut Random) -> Request {
    Request {
        address: random_address(random),
        requester: random.pick(REQUESTERS),
        number: random.below(1_000),
        bib: random.below(60_000),
        information: random.pick(INFORMATION),
        channel: match random.below(3) {
            0 => random.pick(&[248, 249, 251, 255]),
            _ => random.below(241),
        },
        run: random.below(251),
        group: random.below(200),
        output: random.pick(OUTPUTS),
    }
}

/// The frame of a record whose numbers fit their fields. It is built here, without the writer that
/// is compared.
pub fn frame_of(record: &Request) -> Vec<u8> {
    let mut frame = b"\x11R".to_vec();
    frame.extend([record.address, record.requester]);
    frame.extend(format!("{:03}{:05}", record.number, record.bib).bytes());
    frame.push(record.information);
    let numbers = format!("{:03}{:03}{:03}", record.channel, record.run, record.group);
    frame.extend(numbers.bytes());
    frame.push(record.output);
    frame.push(b'\r');
    frame
}

/// No room, one byte too little, just enough, and more.
const ROOMS: [u64; 4] = [0, 23, 24, 30];

fn write_case(room: u64, record: &Request) -> String {
    format!("write-request {room} {}", record.text())
}

fn add_write(cases: &mut Cases, room: u64, record: &Request) {
    cases.add(write_case(room, record));
}

fn add_write_to_all_rooms(cases: &mut Cases, record: &Request) {
    for room in ROOMS {
        add_write(cases, room, record);
    }
}

/// The record of `SECOND`.
fn middle_record() -> Request {
    Request {
        address: b' ',
        requester: b'A',
        number: 12,
        bib: 41,
        information: b'1',
        channel: 255,
        run: 1,
        group: 0,
        output: b'S',
    }
}

/// The record of `UPPER`.
fn upper_record() -> Request {
    Request {
        address: b'9',
        requester: b'z',
        number: 999,
        bib: 59_999,
        information: b'q',
        channel: 240,
        run: 250,
        group: 199,
        output: b'T',
    }
}

fn set_letter(record: &mut Request, offset: usize, code: u8) {
    match offset {
        at::ADDRESS => record.address = code,
        at::REQUESTER => record.requester = code,
        at::INFORMATION => record.information = code,
        _ => record.output = code,
    }
}

fn set_number(record: &mut Request, offset: usize, value: u64) {
    match offset {
        at::NUMBER => record.number = value,
        at::BIB => record.bib = value,
        at::CHANNEL => record.channel = value,
        at::RUN => record.run = value,
        _ => record.group = value,
    }
}

fn add_writes(cases: &mut Cases) {
    let zeros = Request {
        address: b'0',
        requester: b'0',
        number: 0,
        bib: 0,
        information: b'0',
        channel: 0,
        run: 0,
        group: 0,
        output: b'A',
    };
    for record in [middle_record(), upper_record(), zeros] {
        for room in [0, 1, 22, 23, 24, 25, 30, 99, 100] {
            add_write(cases, room, &record);
        }
    }
}

/// Every code of every letter to just enough room, and the codes at the edges to all rooms.
fn add_wrong_letters_to_write(cases: &mut Cases) {
    let edges: [(usize, &[u8]); 4] = [
        (at::ADDRESS, &ADDRESS_EDGES),
        (at::REQUESTER, &REQUESTER_EDGES),
        (at::INFORMATION, b")*+/09:@ABLlqr \xff"),
        (at::OUTPUT, b"@ABCRSTUs \x00\xff"),
    ];
    for (offset, edge_codes) in edges {
        for code in 0..=u8::MAX {
            let mut record = middle_record();
            set_letter(&mut record, offset, code);
            add_write(cases, 24, &record);
        }
        for &code in edge_codes {
            let mut record = upper_record();
            set_letter(&mut record, offset, code);
            add_write_to_all_rooms(cases, &record);
        }
    }
}

fn add_wrong_numbers_to_write(cases: &mut Cases) {
    for (offset, _, edges) in NUMBERS {
        for &value in edges.iter().chain(&FAR_BEYOND) {
            let mut record = middle_record();
            set_number(&mut record, offset, value);
            add_write_to_all_rooms(cases, &record);
        }
    }
}

/// Every two parts wrong together, and every end part of the list.
fn add_several_wrong_to_write(cases: &mut Cases) {
    for (low, &first) in PARTS.iter().enumerate() {
        for &other in &PARTS[low + 1..] {
            let mut record = upper_record();
            spoil(&mut record, first);
            spoil(&mut record, other);
            add_write(cases, 24, &record);
        }
        let mut record = upper_record();
        for &offset in &PARTS[low..] {
            spoil(&mut record, offset);
        }
        add_write_to_all_rooms(cases, &record);
    }
}

fn spoil(record: &mut Request, offset: usize) {
    match offset {
        at::ADDRESS | at::REQUESTER | at::INFORMATION | at::OUTPUT => {
            set_letter(record, offset, b'[');
        }
        _ => set_number(record, offset, 70_000),
    }
}

fn add_random_writes(cases: &mut Cases, random: &mut Random) {
    for _ in 0..200 {
        cases.add(random_write(random));
    }
}

/// A record with up to two wrong parts, written to a room that may be too small.
pub fn random_write(random: &mut Random) -> String {
    let mut record = random_record(random);
    for _ in 0..random.below(3) {
        spoil_at_random(&mut record, random);
    }
    let room = match random.below(3) {
        0 => random.pick(&ROOMS),
        1 => 24 + random.below(8),
        _ => random.below(101),
    };
    write_case(room, &record)
}

fn spoil_at_random(record: &mut Request, random: &mut Random) {
    let offset = random.pick(&PARTS);
    match offset {
        at::ADDRESS => record.address = random.pick(&ADDRESS_EDGES),
        at::REQUESTER | at::INFORMATION | at::OUTPUT => {
            let code = random.byte();
            set_letter(record, offset, code);
        }
        _ => {
            let value = any_number(random);
            set_number(record, offset, value);
        }
    }
}

#[cfg(test)]
mod tests {
    use super::*;

    #[test]
    fn the_records_to_write_are_those_of_the_frames() {
        assert_eq!(Request::read(SECOND), Ok(middle_record()));
        assert_eq!(Request::read(UPPER), Ok(upper_record()));
    }

    #[test]
    fn random_records_are_good() {
        let mut random = Random::new(1, "test");
        for _ in 0..1000 {
            let record = random_record(&mut random);
            assert_eq!(Request::read(&frame_of(&record)), Ok(record));
        }
    }
}
