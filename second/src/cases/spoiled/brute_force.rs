//! The spoiled byte found again, over well formed frames themselves: a byte of a wrong field occurs
//! if some accepted frame has it at its place and has the same bytes before the field.

use super::{change_field, dynamic, reply, request, Field};
use crate::cases;
use crate::dynamic::Dynamic;
use crate::frame::Kind;
use crate::random::Random;
use crate::refusal::Refusal;
use crate::reply::Reply;
use crate::request::Request;

const WRONG_FRAMES: usize = 400;

/// Offset and width of every field, from the layouts of the scope paper.
const REQUEST_FIELDS: &[(usize, usize)] = &[
    (3, 1),
    (4, 3),
    (7, 5),
    (12, 1),
    (13, 3),
    (16, 3),
    (19, 3),
    (22, 1),
];
const REPLY_FIELDS: &[(usize, usize)] = &[
    (3, 1),
    (4, 1),
    (5, 1),
    (6, 1),
    (7, 5),
    (12, 5),
    (17, 3),
    (20, 3),
    (23, 3),
    (26, 3),
    (29, 1),
    (30, 10),
    (40, 8),
    (48, 2),
];
const DYNAMIC_FIELDS: &[(usize, usize)] = &[
    (3, 1),
    (4, 1),
    (5, 5),
    (10, 3),
    (13, 3),
    (16, 5),
    (21, 3),
    (24, 3),
    (27, 1),
    (28, 10),
    (38, 1),
    (39, 5),
    (44, 1),
];

/// Good frames. Whatever is good up to the end of some field, one of these makes it a good frame if
/// the rest is taken from it.
const REQUEST_RESTS: &[&[u8]] = &[b"\x11R 100700000P000002000S\r"];
const REPLY_RESTS: &[&[u8]] = &[
    b"\x12R SOR10000700015000002000000P000000000000000000  \r",
    b"\x12R SOR10000700015000002000000K123456789815062024  \r",
    b"\x12R SOR1000070001500000200000010001125400+0000000  \r",
];
const DYNAMIC_RESTS: &[&[u8]] = &[b"\x13R 1A000150010020004125500301234567898200100S\r"];

/// One kind of frame to try.
struct Trial {
    fields: &'static [(usize, usize)],
    rests: &'static [&'static [u8]],
    accepts: fn(&[u8]) -> bool,
}

impl Trial {
    /// The first field that no rest makes part of a good frame.
    fn first_wrong(&self, frame: &[u8]) -> Option<(usize, usize)> {
        let mut fields = self.fields.iter().copied();
        fields.find(|&(offset, width)| !self.begins_a_good_frame(&frame[..offset + width]))
    }

    fn begins_a_good_frame(&self, begin: &[u8]) -> bool {
        let mut rests = self.rests.iter();
        rests.any(|rest| (self.accepts)(&[begin, &rest[begin.len()..]].concat()))
    }

    /// Whether some good frame has this byte at this place of the field and the same bytes before
    /// the field.
    fn occurs(&self, frame: &[u8], (offset, width): (usize, usize), place: usize) -> bool {
        fillings(width).into_iter().any(|mut field| {
            field[place] = frame[offset + place];
            self.begins_a_good_frame(&[&frame[..offset], &field].concat())
        })
    }

    fn refusal(&self, frame: &[u8]) -> Option<Refusal> {
        let (offset, width) = self.first_wrong(frame)?;
        let mut places = 0..width;
        let spoiled = places.find(|&place| !self.occurs(frame, (offset, width), place));
        Some(Refusal::Field(offset, offset + spoiled.unwrap_or(0)))
    }
}

/// Fields in which one byte is then replaced. If any good field has that byte, so has one of these.
fn fillings(width: usize) -> Vec<Vec<u8>> {
    match width {
        8 => dates(),
        10 => [b"0000000000", b"1111111111", b"2359599999"]
            .map(|time| time.to_vec())
            .to_vec(),
        // Every field of zeros and ones.
        _ => (0..1 << width)
            .map(|bits| (0..width).map(|place| b'0' + (bits >> place & 1)).collect())
            .collect(),
    }
}

fn dates() -> Vec<Vec<u8>> {
    let mut dates = vec![
        b"+0000000".to_vec(),
        b"-0000001".to_vec(),
        b"-1111111".to_vec(),
    ];
    for day in [1, 10, 11, 28, 29, 30, 31] {
        for month in [1, 2, 10, 12] {
            for year in [2000, 2011, 2024, 2099] {
                dates.push(format!("{day:02}{month:02}{year:04}").into_bytes());
            }
        }
    }
    dates
}

/// A good frame in which one or two fields of several bytes are changed, and sometimes a byte of any
/// field. It may still be good.
fn changed(mut frame: Vec<u8>, fields: &[Field], random: &mut Random) -> Vec<u8> {
    for _ in 0..1 + random.below(2) {
        change_field(&mut frame, fields, random);
    }
    if random.once_in(4) {
        let place = 3 + random.place(frame.len() - 4);
        frame[place] = random.byte();
    }
    frame
}

fn check<Record: Kind>(trial: &Trial, fields: &[Field], good: fn(&mut Random) -> Vec<u8>) {
    let mut random = Random::new(1, "brute force");
    let mut wrong_frames = 0;
    while wrong_frames < WRONG_FRAMES {
        let frame = changed(good(&mut random), fields, &mut random);
        let refusal = Record::read(&frame).err();
        assert_eq!(refusal, trial.refusal(&frame), "{}", frame.escape_ascii());
        wrong_frames += usize::from(refusal.is_some());
    }
}

#[test]
fn requests() {
    let trial = Trial {
        fields: REQUEST_FIELDS,
        rests: REQUEST_RESTS,
        accepts: |frame| Request::read(frame).is_ok(),
    };
    check::<Request>(&trial, &request::FIELDS, |random| {
        cases::request::frame_of(&cases::request::random_record(random))
    });
}

const REPLY_TRIAL: Trial = Trial {
    fields: REPLY_FIELDS,
    rests: REPLY_RESTS,
    accepts: |frame| Reply::read(frame).is_ok(),
};

#[test]
fn replies() {
    check::<Reply>(&REPLY_TRIAL, &reply::FIELDS, |random| {
        cases::reply::frame_of(&cases::reply::random_record(random))
    });
}

/// Half of these are wrong before anything is changed, because their time is zero.
#[test]
fn replies_of_minus_zero() {
    check::<Reply>(&REPLY_TRIAL, &[(30, 10), (40, 8)], |random| {
        let mut frame = cases::reply::frame_of(&cases::reply::random_record(random));
        cases::reply::put_minus_zero(&mut frame, random);
        frame
    });
}

/// Each byte of minus zero occurs after a time of zero, but not all of them together.
#[test]
fn minus_zero() {
    for (timing, refusal) in [
        (b"0000000000-0000000", Some(Refusal::Field(40, 40))),
        (b"0000000001-0000000", None),
        (b"0000000000-0000001", None),
        (b"0000000000+0000000", None),
    ] {
        let frame = b"\x12R SOE100007000150000020000001";
        let frame = [&frame[..], timing, b"  \r"].concat();
        assert_eq!(REPLY_TRIAL.refusal(&frame), refusal);
        assert_eq!(Reply::read(&frame).err(), refusal);
    }
}

#[test]
fn dynamic_requests() {
    let trial = Trial {
        fields: DYNAMIC_FIELDS,
        rests: DYNAMIC_RESTS,
        accepts: |frame| Dynamic::read(frame).is_ok(),
    };
    check::<Dynamic>(&trial, &dynamic::FIELDS, |random| {
        cases::dynamic::frame_of(&cases::dynamic::random_record(random))
    });
}
