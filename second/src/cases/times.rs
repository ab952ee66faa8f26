//! Cases of clock times, real days, net values and running time.

use super::{replaced, Cases};
use crate::random::Random;
use crate::spelling::bytes_text;
use crate::times::{MOST_NET_DAYS, TICKS_OF_DAY};

/// The largest plain argument and the largest absolute value of a VALUE.
const LARGEST: i128 = (1 << 32) - 1;
const LARGEST_VALUE: i128 = (1 << 63) - 1;

const LAST_TICK: i128 = TICKS_OF_DAY - 1;

pub fn add_all(cases: &mut Cases, seed: u64) {
    add_clock_values(cases);
    add_clock_faults(cases);
    add_random_clocks(cases, &mut Random::new(seed, "clock"));
    add_clock_texts(cases, &mut Random::new(seed, "clock-text"));
    add_days(cases);
    add_random_days(cases, &mut Random::new(seed, "day"));
    add_nets(cases, &mut Random::new(seed, "net"));
    add_net_parts(cases, &mut Random::new(seed, "net-parts"));
    add_running(cases);
    add_random_running(cases, &mut Random::new(seed, "running"));
}

fn add_clock(cases: &mut Cases, place: usize, text: &[u8]) {
    cases.add(format!("clock {place} {}", bytes_text(text)));
}

/// The same time at the beginning of a text and, between other digits, at place 3.
fn add_clock_at_both_places(cases: &mut Cases, time: &[u8]) {
    add_clock(cases, 0, time);
    add_clock(cases, 3, &[b"123", time, b"45"].concat());
}

fn add_clock_values(cases: &mut Cases) {
    for time in [
        "0000000000",
        "0000000001",
        "2359599999",
        "2359590000",
        "0001125400",
        "1234567898",
        "0000009999",
        "0000010000",
        "0000599999",
        "0001000000",
        "0059599999",
        "0100000000",
    ] {
        add_clock_at_both_places(cases, time.as_bytes());
    }
    let good = b"1234560789";
    for hours in [
        "00", "09", "10", "19", "20", "22", "23", "24", "25", "29", "30", "99",
    ] {
        add_clock_at_both_places(cases, &replaced(good, 0, hours.as_bytes()));
    }
    for place in [2, 4] {
        for sixtieths in ["00", "01", "09", "10", "58", "59", "60", "61", "99"] {
            add_clock_at_both_places(cases, &replaced(good, place, sixtieths.as_bytes()));
        }
    }
    for ticks in ["0000", "0001", "9998", "9999"] {
        add_clock_at_both_places(cases, &replaced(good, 6, ticks.as_bytes()));
    }
    for limits in [
        "2400000000",
        "2359600000",
        "2360000000",
        "2460600000",
        "9999999999",
    ] {
        add_clock_at_both_places(cases, limits.as_bytes());
    }
}

fn add_clock_faults(cases: &mut Cases) {
    let good = b"1234560789";
    for place in 0..good.len() {
        for wrong in [0x2f, 0x3a, b' ', b'-', 0xb0] {
            add_clock(cases, 0, &replaced(good, place, &[wrong]));
        }
        add_clock(cases, 2, &replaced(b"001234560789", 2 + place, b"x"));
    }
    for length in 0..good.len() {
        add_clock(cases, 0, &good[..length]);
    }
    for place in [1, 2, 9, 10, 11, 100, LARGEST as usize - 9, LARGEST as usize] {
        add_clock(cases, place, good);
    }
    add_clock(cases, 1, b"01234560789");
    add_clock(cases, 2, b"01234560789");
    add_clock(cases, 90, &[vec![b'9'; 90], good.to_vec()].concat());
}

fn add_random_clocks(cases: &mut Cases, random: &mut Random) {
    for _ in 0..100 {
        let time = format!(
            "{:02}{:02}{:02}{:04}",
            random.below(26),
            random.below(62),
            random.below(62),
            random.below(10_000),
        );
        let place = random.place(8);
        let after = random.place(8);
        let mut text = random.bytes(place);
        text.extend(time.bytes());
        text.extend(random.bytes(after));
        if random.once_in(5) {
            let wrong = random.place(text.len());
            text[wrong] = random.byte();
        }
        add_clock(cases, place, &text);
    }
}

fn add_clock_texts(cases: &mut Cases, random: &mut Random) {
    let carries = [
        1,
        10,
        100,
        1_000,
        10_000,
        100_000,
        600_000,
        6_000_000,
        36_000_000,
        360_000_000,
    ];
    for carry in carries {
        cases.add(format!("clock-text {}", carry - 1));
        cases.add(format!("clock-text {carry}"));
    }
    for ticks in [725_400, 863_990_000, 863_999_998, 863_999_999] {
        cases.add(format!("clock-text {ticks}"));
    }
    for _ in 0..80 {
        cases.add(format!("clock-text {}", random_time(random)));
    }
}

fn random_time(random: &mut Random) -> i128 {
    random.below(TICKS_OF_DAY as u64).into()
}

fn add_day(cases: &mut Cases, day: i128, month: i128, year: i128) {
    cases.add(format!("day {day} {month} {year}"));
}

fn add_days(cases: &mut Cases) {
    for year in [2023, 2024] {
        for month in 0..=13 {
            for day in [0, 1, 28, 29, 30, 31, 32] {
                add_day(cases, day, month, year);
            }
        }
    }
    for year in [
        1900, 1996, 1999, 2000, 2001, 2004, 2096, 2098, 2099, 2100, 2104, 2400,
    ] {
        for (day, month) in [(1, 1), (28, 2), (29, 2), (30, 2), (1, 3), (31, 12)] {
            add_day(cases, day, month, year);
        }
    }
    for year in [0, 1, 24, 99, 400, 65_536 + 2_024, LARGEST] {
        add_day(cases, 1, 1, year);
        add_day(cases, 29, 2, year);
    }
    for far in [99, 256 + 1, 65_536 + 1, LARGEST] {
        add_day(cases, far, 1, 2024);
        add_day(cases, 1, far, 2024);
        add_day(cases, far, far, far);
    }
}

fn add_random_days(cases: &mut Cases, random: &mut Random) {
    for _ in 0..100 {
        let day = random.below(33);
        let month = random.below(14);
        let year = 1_998 + random.below(104);
        add_day(cases, day.into(), month.into(), year.into());
    }
}

fn add_nets(cases: &mut Cases, random: &mut Random) {
    let days = [
        0,
        1,
        2,
        9_999_998,
        MOST_NET_DAYS,
        MOST_NET_DAYS + 1,
        LARGEST,
    ];
    let times = [
        0,
        1,
        725_400,
        863_990_000,
        LAST_TICK - 1,
        LAST_TICK,
        TICKS_OF_DAY,
        LARGEST,
        2,
        10_000,
    ];
    for minus in [0, 1] {
        for days in days {
            for time in times {
                cases.add(format!("net {minus} {days} {time}"));
            }
        }
    }
    for _ in 0..80 {
        let minus = random.below(2);
        let size = random.pick(&[2, 1_000, 10_000_000, 10_000_010]);
        let days = random.below(size);
        let time = random.below(TICKS_OF_DAY as u64 + 1_000_000);
        cases.add(format!("net {minus} {days} {time}"));
    }
    for _ in 0..20 {
        let limit = random.pick(&[10, 10_000, TICKS_OF_DAY as u64]);
        cases.add(format!("net 1 0 {}", random.below(limit)));
    }
}

/// Values around whole days, around both ends and around values that other cases read. The most
/// days with a minus are not the low end: a time can still be added to them.
fn add_net_parts(cases: &mut Cases, random: &mut Random) {
    let whole_days = MOST_NET_DAYS * TICKS_OF_DAY;
    let highest = whole_days + LAST_TICK;
    let around_days =
        [-9_999_998, -1_000, -2, -1, 0, 1, 2, 1_000, MOST_NET_DAYS].map(|days| days * TICKS_OF_DAY);
    let others = [
        -whole_days,
        highest,
        -LAST_TICK,
        725_400,
        -10_000,
        -highest,
        LAST_TICK,
        -725_400,
        10_000,
        -1_727_990_000,
        1_727_990_000,
        9_999_998 * TICKS_OF_DAY,
    ];
    for middle in around_days.into_iter().chain(others) {
        for value in middle - 1..=middle + 1 {
            cases.add(format!("net-parts {value}"));
        }
    }
    for size in [
        (MOST_NET_DAYS + 1) * TICKS_OF_DAY,
        (MOST_NET_DAYS + 2) * TICKS_OF_DAY,
        1 << 32,
        1 << 62,
        LARGEST_VALUE - 1,
        LARGEST_VALUE,
    ] {
        cases.add(format!("net-parts {size}"));
        cases.add(format!("net-parts -{size}"));
    }
    for _ in 0..100 {
        let limit = random.pick(&[
            1_000,
            2 * TICKS_OF_DAY,
            highest + highest / 8,
            LARGEST_VALUE,
        ]);
        let size = i128::from(random.below(limit as u64));
        let value = if random.once_in(2) { -size } else { size };
        cases.add(format!("net-parts {value}"));
    }
}

/// Bib, Tnow, Tev and Taux's sign, days and time, in the order of a case's arguments.
type Running = [i128; 6];
const BIB: usize = 0;
const NOW: usize = 1;
const EVENT: usize = 2;
const SIGN: usize = 3;
const DAYS: usize = 4;
const TIME: usize = 5;

fn add_running_case(cases: &mut Cases, running: Running) {
    let [bib, now, event, sign, days, time] = running;
    cases.add(format!("running {bib} {now} {event} {sign} {days} {time}"));
}

/// `running` with one argument changed.
fn with(running: Running, argument: usize, value: i128) -> Running {
    let mut changed = running;
    changed[argument] = value;
    changed
}

fn add_running(cases: &mut Cases) {
    let times = [
        0,
        1,
        LAST_TICK - 1,
        LAST_TICK,
        TICKS_OF_DAY,
        TICKS_OF_DAY + 1,
        1 << 31,
        LARGEST,
    ];
    let limits: [(usize, &[i128]); 6] = [
        (
            BIB,
            &[
                0, 1, 2, 59_999, 60_000, 60_001, 65_535, 65_536, 99_999, LARGEST,
            ],
        ),
        (NOW, &times),
        (EVENT, &times),
        (SIGN, &[0, 1, 2, 43, 45, 48, 49, 255, 256, 257, LARGEST]),
        (DAYS, &[0, 1, 8, 9, 10, 48, 57, 255, 256, LARGEST]),
        (TIME, &times),
    ];
    let plus = [15, 500_000_000, 100_000_000, 0, 1, 36_000_000];
    let minus = [60_000, 7, 863_000_000, 1, 9, 1];
    let without_bib = [0, 400_000_000, 0, 1, 2, 3];
    for base in [plus, minus, without_bib] {
        for (argument, values) in limits {
            for &value in values {
                add_running_case(cases, with(base, argument, value));
            }
        }
    }
    for running in [
        // The two extreme results, and the same with a bib of 0 as far as Tev allows.
        [1, 0, LAST_TICK, 0, 9, LAST_TICK],
        [1, LAST_TICK, 0, 1, 9, LAST_TICK],
        [0, 0, 0, 0, 9, LAST_TICK],
        [0, LAST_TICK, 0, 1, 9, LAST_TICK],
        // Zero and minus zero.
        [1, 0, 0, 0, 0, 0],
        [1, 0, 0, 1, 0, 0],
        [0, 0, 0, 0, 0, 0],
        [0, 0, 0, 1, 0, 0],
        [41, 5, 5, 1, 0, 0],
        // A bib of 0 with a Tev, and with a Taux.
        [0, 0, 1, 0, 0, 0],
        [0, 1, 1, 0, 0, 0],
        [0, 0, LAST_TICK, 0, 0, 0],
        [0, 0, 0, 0, 1, 0],
        [0, 0, 0, 1, 0, 1],
        // Several values out of range at once.
        [0, TICKS_OF_DAY, 1, 2, 10, TICKS_OF_DAY],
        [LARGEST; 6],
    ] {
        add_running_case(cases, running);
    }
}

fn add_random_running(cases: &mut Cases, random: &mut Random) {
    for _ in 0..100 {
        let mut running = [
            random.pick(&[0, 1, 41, 60_000, 60_001, LARGEST]),
            random_time(random),
            random_time(random),
            random.below(2).into(),
            random.below(10).into(),
            random_time(random),
        ];
        if running[BIB] == 0 && !random.once_in(4) {
            running[EVENT] = 0;
        }
        if random.once_in(4) {
            let argument = random.place(running.len());
            running[argument] = random.below(1 << 32).into();
        }
        add_running_case(cases, running);
    }
}
