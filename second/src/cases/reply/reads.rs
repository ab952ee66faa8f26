//! Cases of reading: `damage-reply`, `read-reply` and `read-reply-value`.

use super::{
    frame_of, put_minus_zero, random_record, ABSENT, CLOCK, LENGTH, NET, NUMBERS, RAW, STATUSES,
};
use crate::cases::frames::{
    at_lengths, befall_at_random, faults_around, faults_of, neighbours_and_tails, number_of_faults,
    put, to_damage_by_address, with_address_edges, with_addresses_and_faults, with_blank_numbers,
    with_faults, with_number_edges, with_surround_faults, WrongField, NOT_PRINTABLE,
    REQUESTER_EDGES, TIMES,
};
use crate::cases::{replaced, Cases};
use crate::random::Random;
use crate::reply::{at, Reply, CLOCK_LETTERS, INFORMATION, NET_LETTERS};
use crate::spelling::bytes_text;

/// A time and a date that suit a clock letter, a net letter, and neither. A raw letter takes them
/// all.
const TIMINGS: [&[u8]; 3] = [
    b"123456789823122001",
    b"0001125400-0000001",
    b"123.456kmh       -",
];

/// One wrong text for each field of `CLOCK`, by rising offset.
const WRONG_FIELDS: [WrongField; 14] = [
    (at::PROGRAM, b"\x1f"),
    (at::MODE, b"\x7f"),
    (at::STATUS, b"r"),
    (at::REQUESTER, b"["),
    (at::NUMBER, b"0000 "),
    (at::BIB, b"60000"),
    (at::GROUP, b"200"),
    (at::RUN, b"000"),
    (at::PHYSICAL, b"0-1"),
    (at::CHANNEL, b"251"),
    (at::INFORMATION, b"L"),
    (at::TIME, b"2400000000"),
    (at::DATE, b"29022023"),
    (at::SPARE, b" \x80"),
];

pub fn add_all(cases: &mut Cases, seed: u64) {
    add_damages(cases);
    add_surroundings(cases);
    add_addresses(cases);
    add_fields(cases);
    add_runs(cases);
    add_letters(cases);
    add_times(cases);
    add_dates(cases);
    add_net_dates(cases);
    add_raw_bytes(cases);
    add_random_frames(cases, &mut Random::new(seed, "read-reply"));
    add_values(cases, &mut Random::new(seed, "read-reply-value"));
}

pub fn add_read(cases: &mut Cases, frame: &[u8]) {
    cases.add(format!("read-reply {}", bytes_text(frame)));
}

pub fn add_damage(cases: &mut Cases, frame: &[u8]) {
    cases.add(format!("damage-reply {}", bytes_text(frame)));
}

pub fn add_value(cases: &mut Cases, frame: &[u8]) {
    cases.add(format!("read-reply-value {}", bytes_text(frame)));
}

fn add_reads(cases: &mut Cases, frames: &[Vec<u8>]) {
    for frame in frames {
        add_read(cases, frame);
    }
}

/// A reply of each kind, then more of them, so that all letters are read with every status and
/// every timing.
fn add_damages(cases: &mut Cases) {
    let others = [
        with_letter(b'E', b'0', TIMINGS[0]),
        with_letter(b'R', b'1', TIMINGS[1]),
        with_letter(b'E', b'X', TIMINGS[2]),
        with_letter(b'Z', b'2', TIMINGS[0]),
        with_letter(b'Z', b'a', TIMINGS[1]),
    ];
    let frames = [CLOCK, NET, RAW, ABSENT].map(|frame| frame.to_vec());
    for frame in frames.iter().chain(&others) {
        add_damage(cases, frame);
    }
}

/// `NET` with this status, letter, and time and date.
pub fn with_letter(status: u8, letter: u8, timing: &[u8]) -> Vec<u8> {
    let frame = replaced(NET, at::STATUS, &[status]);
    let frame = replaced(&frame, at::INFORMATION, &[letter]);
    replaced(&frame, at::TIME, timing)
}

fn add_surroundings(cases: &mut Cases) {
    for frame in [CLOCK, NET, RAW, ABSENT] {
        add_read(cases, frame);
    }
    let lengths = [
        0, 1, 2, 3, 4, 10, 20, 24, 30, 40, 45, 46, 47, 49, 50, 51, 52, 53, 60,
    ];
    add_reads(cases, &at_lengths(RAW, &lengths));
    let leads = b"\x11\x13\x10\x14\x00\x0d2HR\x92\xff";
    add_reads(cases, &with_surround_faults(NET, leads));
    let faults = faults_of::<Reply>(b"\x11", &WRONG_FIELDS);
    for faults in neighbours_and_tails(&faults) {
        add_read(cases, &with_faults(CLOCK, faults));
    }
    let two_faults: [(&[u8], WrongField, WrongField); 7] = [
        (NET, (at::TIME, b"2400000000"), (at::DATE, b"-0000000")),
        (NET, (at::DATE, b"-0000000"), (at::SPARE, b"\x7f")),
        (RAW, (at::TIME, b"\x1f"), (at::DATE, b"\x7f")),
        (RAW, (at::DATE, b"\x7f"), (at::SPARE, b"\x1f")),
        (ABSENT, (at::RUN, b"251"), (at::INFORMATION, b"L")),
        (ABSENT, (at::INFORMATION, b"L"), (at::TIME, b"\x1f")),
        (NET, (at::TIME, b"0000000000-0000000"), (at::SPARE, b"\x7f")),
    ];
    for (frame, (low, first), (high, second)) in two_faults {
        let frame = replaced(frame, low, first);
        add_read(cases, &replaced(&frame, high, second));
    }
}

fn add_addresses(cases: &mut Cases) {
    let addressed = with_address_edges(NET);
    add_reads(cases, &addressed);
    let around = faults_around::<Reply>(b"\x13");
    add_reads(
        cases,
        &with_addresses_and_faults(NET, WRONG_FIELDS[0], &around),
    );
    for frame in &addressed {
        add_value(cases, frame);
    }
    for frame in to_damage_by_address(CLOCK, &WRONG_FIELDS) {
        add_damage(cases, &frame);
    }
}

fn add_fields(cases: &mut Cases) {
    add_reads(cases, &with_number_edges(NET, &NUMBERS));
    add_reads(cases, &with_blank_numbers(CLOCK, &NUMBERS));
    for code in *b"REZDFQSY[rez 0\x00\xd2" {
        add_read(cases, &replaced(RAW, at::STATUS, &[code]));
    }
    for code in REQUESTER_EDGES.into_iter().chain(*b" \x00\x80\xc1\xff") {
        add_read(cases, &replaced(RAW, at::REQUESTER, &[code]));
    }
}

fn add_runs(cases: &mut Cases) {
    for &status in STATUSES {
        for run in [b"000", b"001", b"250", b"251"] {
            let frame = replaced(RAW, at::STATUS, &[status]);
            add_read(cases, &replaced(&frame, at::RUN, run));
        }
    }
}

/// Clock and net letters come with every status and every timing. The other letters of the list
/// come with each status and each timing, but not in every combination. All other bytes come with
/// one combination each. The damage cases ask about every byte in all combinations.
fn add_letters(cases: &mut Cases) {
    for letter in (0x20..=0x7e).chain(NOT_PRINTABLE) {
        for (row, &status) in STATUSES.iter().enumerate() {
            for (column, timing) in TIMINGS.into_iter().enumerate() {
                let turn = usize::from(letter);
                let asked = if CLOCK_LETTERS.contains(&letter) || NET_LETTERS.contains(&letter) {
                    true
                } else if INFORMATION.contains(&letter) {
                    (row + column) % 3 == turn % 3
                } else {
                    3 * row + column == turn % 9
                };
                if asked {
                    add_read(cases, &with_letter(status, letter, timing));
                }
            }
        }
    }
}

fn add_times(cases: &mut Cases) {
    for time in TIMES {
        add_read(cases, &replaced(CLOCK, at::TIME, time));
        add_read(cases, &replaced(NET, at::TIME, time));
    }
}

fn add_date(cases: &mut Cases, day: u64, month: u64, year: u64) {
    let date = format!("{day:02}{month:02}{year:04}");
    add_read(cases, &replaced(CLOCK, at::DATE, date.as_bytes()));
}

fn add_dates(cases: &mut Cases) {
    let lengths_of_months = [31, 28, 31, 30, 31, 30, 31, 31, 30, 31, 30, 31];
    for (month, last) in (1..).zip(lengths_of_months) {
        add_date(cases, last, month, 2023);
        add_date(cases, last + 1, month, 2023);
    }
    for year in [2000, 2023, 2024, 2096, 2099] {
        for day in [28, 29, 30] {
            add_date(cases, day, 2, year);
        }
    }
    for year in [1999, 2000, 2099, 2100] {
        add_date(cases, 1, 1, year);
        add_date(cases, 31, 12, year);
    }
    for year in [0, 24, 1924, 9999] {
        add_date(cases, 15, 6, year);
    }
    for (day, month) in [(0, 1), (1, 0), (0, 0), (1, 13), (32, 12), (99, 1), (1, 99)] {
        add_date(cases, day, month, 2024);
    }
    for text in [
        b"00000000",
        b"20240229",
        b"+0000001",
        b"        ",
        b" 1012024",
        b"01 12024",
        b"0101 024",
        b"0101202 ",
        b"01.01.24",
    ] {
        add_read(cases, &replaced(CLOCK, at::DATE, text));
    }
}

fn add_net_dates(cases: &mut Cases) {
    for days in [
        b"+0000000",
        b"-0000000",
        b"+0000001",
        b"-0000001",
        b"+9999999",
        b"-9999999",
    ] {
        for time in [b"0000000000", b"2359590000", b"2359599999"] {
            let frame = replaced(NET, at::DATE, days);
            add_read(cases, &replaced(&frame, at::TIME, time));
        }
    }
    for sign in *b" 0,*./~\x00\xab\xad" {
        let frame = replaced(NET, at::DATE, b"+0000012");
        add_read(cases, &replaced(&frame, at::DATE, &[sign]));
    }
    for (place, wrong) in (at::DATE + 1..at::SPARE).zip(b"/: +-.\xb0") {
        add_read(cases, &replaced(NET, place, &[*wrong]));
    }
    for text in [
        b"        ",
        b"+       ",
        b"       +",
        b"0000000+",
        b"--000001",
        b"29022024",
    ] {
        add_read(cases, &replaced(NET, at::DATE, text));
    }
}

/// The lowest and the highest good byte at all raw places together. Then the bytes just outside at
/// each raw place, and bytes above 7Fh at the first place of each field. The damage case of `RAW`
/// asks about every byte at each place.
fn add_raw_bytes(cases: &mut Cases) {
    for good in *b"\x20\x7e" {
        let frame = replaced(RAW, at::PROGRAM, &[good; 2]);
        add_read(cases, &replaced(&frame, at::TIME, &[good; 20]));
    }
    for place in [at::PROGRAM, at::MODE].into_iter().chain(at::TIME..at::CR) {
        for wrong in *b"\x1f\x7f" {
            add_read(cases, &replaced(RAW, place, &[wrong]));
        }
    }
    for place in [at::PROGRAM, at::MODE, at::TIME, at::DATE, at::SPARE] {
        for wrong in *b"\x80\xff" {
            add_read(cases, &replaced(RAW, place, &[wrong]));
        }
    }
}

fn add_random_frames(cases: &mut Cases, random: &mut Random) {
    for _ in 0..300 {
        let frame = random_frame(random);
        add_read(cases, &frame);
    }
}

pub fn random_frame(random: &mut Random) -> Vec<u8> {
    let mut frame = frame_of(&random_record(random));
    for _ in 0..number_of_faults(random) {
        match random.below(6) {
            0 => put(&mut frame, at::STATUS, &[random.pick(STATUSES)]),
            1 => put(&mut frame, at::INFORMATION, &[random.pick(INFORMATION)]),
            2 => put(&mut frame, at::TIME, random.pick(&TIMINGS)),
            3 => put_minus_zero(&mut frame, random),
            _ => befall_at_random(&mut frame, &NUMBERS, random),
        }
    }
    frame
}

fn add_values(cases: &mut Cases, random: &mut Random) {
    let mut frames = [CLOCK, NET, RAW, ABSENT]
        .map(|frame| frame.to_vec())
        .to_vec();
    for (place, wrong) in [
        (0, b"\x11"),
        (0, b"\x00"),
        (1, b"S"),
        (2, b"_"),
        (LENGTH - 1, b"\n"),
    ] {
        frames.push(replaced(NET, place, wrong));
    }
    for (offset, wrong) in WRONG_FIELDS {
        frames.push(replaced(CLOCK, offset, wrong));
    }
    frames.push(vec![0; LENGTH]);
    for _ in 0..25 {
        frames.push(random_frame(random));
    }
    for frame in frames.iter().filter(|frame| frame.len() == LENGTH) {
        add_value(cases, frame);
    }
}

#[cfg(test)]
mod tests {
    use super::*;
    use crate::frame::Kind;

    #[test]
    fn each_wrong_field_is_refused_at_its_offset() {
        for (offset, wrong) in WRONG_FIELDS {
            let frame = replaced(CLOCK, offset, wrong);
            let refusal = Reply::read(&frame).expect_err("a wrong field");
            assert_eq!((refusal.number(), refusal.offset()), (5, offset));
        }
    }

    #[test]
    fn the_replies_to_damage_are_good() {
        let mut cases = Cases::default();
        add_damages(&mut cases);
        assert_eq!(cases.text.lines().count(), 9);
        for line in cases.text.lines() {
            let case = line.replace("damage-reply", "read-reply") + "\n";
            let answer = crate::answers::file(case.as_bytes()).expect("a case");
            assert!(answer.starts_with("0 0 0 "), "{line}");
        }
    }
}
