//! Cases of the static reply, as lent bytes and as a value of 51 bytes.

mod reads;
mod signs;
mod writes;

pub use reads::random_frame;
pub use writes::random_write;

use super::frames::{put, random_address, time_text, Number, REQUESTERS};
use super::Cases;
use crate::frame::Kind;
use crate::random::Random;
use crate::reply::{at, Reply, Timing, CLOCK_LETTERS, INFORMATION, NET_LETTERS, NOT_AVAILABLE};
use crate::times::{MOST_NET_DAYS, TICKS_OF_DAY};

const LENGTH: usize = Reply::LENGTH;

/// A reply of each kind. `NET` and `RAW` are the scope paper's examples. `CLOCK` and `ABSENT` differ
/// from them and from each other in every field, except that `CLOCK` and `RAW` both have status R.
/// The examples have no digit as their address.
const CLOCK: &[u8; LENGTH] = b"\x12R9GmRz9876559999199250547240K235959999929022024xy\r";
const NET: &[u8; LENGTH] = b"\x12R SOEA000120004100000101525510001125400+0000000  \r";
const RAW: &[u8; LENGTH] = b"\x12R SOR10000700015000002000000P000000000000000000  \r";
const ABSENT: &[u8; LENGTH] = b"\x12R0~ Za5432130000100000999249s--:--.----no date!#~\r";

const STATUSES: &[u8; 3] = b"REZ";

/// Numbers on both sides of every limit, by rising offset. Run 000 is asked separately, with each
/// status.
pub const NUMBERS: [Number; 6] = [
    (
        at::NUMBER,
        5,
        &[0, 1, 999, 1_000, 1_007, 65_535, 65_536, 99_998, 99_999],
    ),
    (
        at::BIB,
        5,
        &[0, 1, 59_998, 59_999, 60_000, 60_001, 65_536, 99_999],
    ),
    (at::GROUP, 3, &[0, 1, 198, 199, 200, 201, 255, 256, 999]),
    (at::RUN, 3, &[1, 2, 249, 250, 251, 252, 255, 256, 257, 999]),
    (at::PHYSICAL, 3, &[0, 1, 255, 256, 900, 998, 999]),
    (
        at::CHANNEL,
        3,
        &[
            0, 1, 239, 240, 241, 244, 245, 246, 247, 248, 249, 250, 251, 252, 254, 255, 256, 999,
        ],
    ),
];

/// Times that minus with no days comes with. With a time of zero it is wrong.
const TIMES_OF_MINUS_ZERO: [&[u8]; 8] = [
    b"0000000000",
    b"0000000000",
    b"0000000000",
    b"0000000000",
    b"0000000001",
    b"0000010000",
    b"1000000000",
    b"2359599999",
];

pub fn add_all(cases: &mut Cases, seed: u64) {
    reads::add_all(cases, seed);
    writes::add_all(cases, seed);
    signs::add_all(cases);
}

/// A good record: one third with clock letters, one third with net letters, one third with any
/// letter.
pub fn random_record(random: &mut Random) -> Reply {
    let status = random.pick(STATUSES);
    let information = match random.below(3) {
        0 => random.pick(CLOCK_LETTERS),
        1 => random.pick(NET_LETTERS),
        _ => random.pick(INFORMATION),
    };
    let first_run = u64::from(status != NOT_AVAILABLE);
    let mut record = Reply {
        address: random_address(random),
        program: random_raw_byte(random),
        mode: random_raw_byte(random),
        status,
        requester: random.pick(REQUESTERS),
        number: random.below(100_000),
        bib: random.below(60_000),
        group: random.below(200),
        run: first_run + random.below(251 - first_run),
        physical: random.below(1_000),
        channel: match random.below(3) {
            0 => random.pick(&[245, 248, 249, 250, 255]),
            _ => random.below(241),
        },
        information,
        timing: Timing::Raw,
        raw_time: [0; 10],
        raw_date: [0; 8],
        spare: random_raw_bytes(random),
    };
    if status != NOT_AVAILABLE && CLOCK_LETTERS.contains(&information) {
        record.timing = random_clock(random);
    } else if status != NOT_AVAILABLE && NET_LETTERS.contains(&information) {
        record.timing = random_net(random);
    } else {
        record.raw_time = random_raw_bytes(random);
        record.raw_date = random_raw_bytes(random);
    }
    record
}

fn random_raw_byte(random: &mut Random) -> u8 {
    0x20 + random.below(95) as u8
}

fn random_raw_bytes<const COUNT: usize>(random: &mut Random) -> [u8; COUNT] {
    [(); COUNT].map(|()| random_raw_byte(random))
}

fn random_time(random: &mut Random) -> i128 {
    random.below(TICKS_OF_DAY as u64).into()
}

fn random_clock(random: &mut Random) -> Timing {
    Timing::Clock {
        ticks: random_time(random),
        day: 1 + random.below(28),
        month: 1 + random.below(12),
        year: 2000 + random.below(100),
    }
}

/// A net value. More than a quarter of them have a minus and no days, and many of these are only a
/// few ticks.
fn random_net(random: &mut Random) -> Timing {
    if random.once_in(5) {
        let limit = random.pick(&[3, 3, 10_000, TICKS_OF_DAY - 1]);
        return Timing::Net(-1 - i128::from(random.below(limit as u64)));
    }
    let size = random.pick(&[2, 100, MOST_NET_DAYS + 1]);
    let days = i128::from(random.below(size as u64));
    let value = days * TICKS_OF_DAY + random_time(random);
    Timing::Net(if random.once_in(2) { value } else { -value })
}

/// Makes a reply a net reply of minus and no days. Half the time its time is zero, and then it is
/// wrong unless it is not available.
pub fn put_minus_zero(frame: &mut [u8], random: &mut Random) {
    put(frame, at::INFORMATION, &[random.pick(NET_LETTERS)]);
    put(frame, at::TIME, random.pick(&TIMES_OF_MINUS_ZERO));
    put(frame, at::DATE, b"-0000000");
}

/// The frame of a good record. It is built here, without the writer that is compared.
pub fn frame_of(record: &Reply) -> Vec<u8> {
    let mut frame = b"\x12R".to_vec();
    frame.extend([record.address, record.program, record.mode]);
    frame.extend([record.status, record.requester]);
    let numbers = format!(
        "{:05}{:05}{:03}{:03}{:03}{:03}",
        record.number, record.bib, record.group, record.run, record.physical, record.channel
    );
    frame.extend(numbers.bytes());
    frame.push(record.information);
    match record.timing {
        Timing::Clock {
            ticks,
            day,
            month,
            year,
        } => {
            let date = format!("{day:02}{month:02}{year:04}");
            frame.extend([time_text(ticks), date].concat().bytes());
        }
        Timing::Net(value) => {
            let sign = if value < 0 { '-' } else { '+' };
            let days = format!("{sign}{:07}", value.abs() / TICKS_OF_DAY);
            let time = time_text(value.abs() % TICKS_OF_DAY);
            frame.extend([time, days].concat().bytes());
        }
        Timing::Raw => {
            frame.extend(record.raw_time);
            frame.extend(record.raw_date);
        }
    }
    frame.extend(record.spare);
    frame.push(b'\r');
    frame
}

#[cfg(test)]
mod tests {
    use super::*;
    use crate::refusal::Refusal;

    #[test]
    fn random_records_are_good() {
        let mut random = Random::new(1, "test");
        for _ in 0..1000 {
            let record = random_record(&mut random);
            let frame = frame_of(&record);
            assert_eq!(Reply::read(&frame).as_ref(), Ok(&record));
            assert_eq!(record.write_value().1, frame[..]);
        }
    }

    /// Every sort of net value comes often, above all those with a minus and no days.
    #[test]
    fn minus_with_no_days_comes_often() {
        let mut random = Random::new(1, "test");
        let values: Vec<i128> = (0..1000)
            .map(|_| match random_net(&mut random) {
                Timing::Net(value) => value,
                other => panic!("{other:?}"),
            })
            .collect();
        let within = |low, high| {
            let values = values.iter();
            values
                .filter(|&&value| low <= value && value <= high)
                .count()
        };
        assert!((200..400).contains(&within(1 - TICKS_OF_DAY, -1)));
        assert!(within(-3, -1) > 50);
        assert!(within(0, TICKS_OF_DAY - 1) > 50);
        assert!(within(i128::MIN, -TICKS_OF_DAY) > 200);
        assert!(within(TICKS_OF_DAY, i128::MAX) > 200);
    }

    #[test]
    fn minus_zero_is_wrong_half_the_time() {
        let mut random = Random::new(1, "test");
        let mut wrong = 0;
        for _ in 0..1000 {
            let mut frame = CLOCK.to_vec();
            put_minus_zero(&mut frame, &mut random);
            match Reply::read(&frame) {
                Ok(record) => assert!(matches!(record.timing, Timing::Net(..0))),
                Err(refusal) => {
                    assert_eq!(refusal, Refusal::Field(40, 40));
                    wrong += 1;
                }
            }
        }
        assert!((400..600).contains(&wrong), "{wrong}");
    }
}
