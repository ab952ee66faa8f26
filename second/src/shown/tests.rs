//! What the searches find, compared with classes of bytes worked out by hand.

use super::*;
use crate::dynamic::Dynamic;
use crate::frame::Kind;
use crate::refusal::Refusal;
use crate::reply::Reply;
use crate::request::Request;

const DIGITS: &str = "0123456789";

const REQUEST: &[u8] = b"\x11R 100700000P000002000S\r";
const CLOCK: &[u8] = b"\x12R SOR10000700015000002000000K123456789815062024  \r";
const NET: &[u8] = b"\x12R SOE1000070001500000200000010001125400+0000000  \r";
const ABSENT: &[u8] = b"\x12R SOZ10000700015000002000000K--:--.----no date!  \r";
const DYNAMIC: &[u8] = b"\x13R 1A000150010020004125500301234567898200100S\r";

/// The bytes that are shown at each place of the field at this offset.
fn classes<Record: Kind>(frame: &[u8], offset: usize) -> Vec<String> {
    let shown = Record::shown(frame, offset);
    (0..shown.width())
        .map(|place| {
            let codes = (0..=u8::MAX).filter(|&code| shown.is_shown(place, code));
            codes.map(char::from).collect()
        })
        .collect()
}

/// A first digit of its own, and then any digits.
fn number(first: &str, width: usize) -> Vec<String> {
    let mut classes = vec![DIGITS.to_string(); width];
    classes[0] = first.to_string();
    classes
}

#[test]
fn numbers_of_requests() {
    for (offset, width, first) in [
        (4, 3, DIGITS),
        (7, 5, "012345"),
        (13, 3, "012"),
        (16, 3, "012"),
        (19, 3, "01"),
    ] {
        assert_eq!(classes::<Request>(REQUEST, offset), number(first, width));
    }
}

#[test]
fn numbers_of_replies() {
    for (offset, width, first) in [
        (7, 5, DIGITS),
        (12, 5, "012345"),
        (17, 3, "01"),
        (20, 3, "012"),
        (23, 3, DIGITS),
        (26, 3, "012"),
    ] {
        for frame in [CLOCK, NET, ABSENT] {
            assert_eq!(classes::<Reply>(frame, offset), number(first, width));
        }
    }
}

/// No order has a period that others do not show, byte by byte.
#[test]
fn numbers_of_dynamic_requests() {
    for (offset, width, first) in [
        (5, 5, "0123456"),
        (10, 3, "012"),
        (13, 3, "012"),
        (16, 5, "0123456"),
        (21, 3, "012"),
        (24, 3, "012"),
        (27, 1, "01"),
        (38, 1, DIGITS),
        (39, 5, DIGITS),
    ] {
        for order in *b"ABabTt" {
            let mut frame = DYNAMIC.to_vec();
            frame[4] = order;
            assert_eq!(classes::<Dynamic>(&frame, offset), number(first, width));
        }
    }
}

#[test]
fn times_and_dates() {
    let time = ["012", DIGITS, "012345", DIGITS, "012345", DIGITS];
    let time = [&time[..], &[DIGITS; 4]].concat();
    assert_eq!(classes::<Reply>(CLOCK, 30), time);
    assert_eq!(classes::<Reply>(NET, 30), time);
    assert_eq!(classes::<Dynamic>(DYNAMIC, 28), time);
    let date = ["0123", DIGITS, "01", DIGITS, "2", "0", DIGITS, DIGITS];
    assert_eq!(classes::<Reply>(CLOCK, 40), date);
    assert_eq!(classes::<Reply>(NET, 40), number("+-", 8));
    let mut at_zero = NET.to_vec();
    at_zero[30..40].copy_from_slice(b"0000000000");
    assert_eq!(classes::<Reply>(&at_zero, 40), number("+-", 8));
}

#[test]
fn raw_fields() {
    let raw: String = (' '..='~').collect();
    for (frame, offset, width) in [
        (ABSENT, 30, 10),
        (ABSENT, 40, 8),
        (ABSENT, 48, 2),
        (CLOCK, 48, 2),
        (CLOCK, 3, 1),
    ] {
        assert_eq!(classes::<Reply>(frame, offset), vec![raw.clone(); width]);
    }
}

/// Minus zero is wrong only together, and only after a time of zero.
#[test]
fn minus_zero_after_each_time() {
    for (time, refusal) in [
        (b"0000000000", Some(Refusal::Field(40, 40))),
        (b"0000000001", None),
        (b"0000010000", None),
        (b"2359599999", None),
    ] {
        let mut frame = NET.to_vec();
        frame[30..40].copy_from_slice(time);
        frame[40] = b'-';
        assert_eq!(Reply::read(&frame).err(), refusal);
        frame[47] = b':';
        let spoiled = Refusal::Field(40, 47);
        assert_eq!(Reply::read(&frame).err(), Some(spoiled));
    }
}

#[test]
fn the_first_byte_that_is_not_shown() {
    let shown = Shown::by(2, [b"ab".to_vec(), b"cd".to_vec()]);
    for (field, spoiled) in [
        (b"ax", 2),
        (b"xb", 1),
        (b"xx", 1),
        (b"cb", 1),
        (b"ca", 2),
        (b"ba", 1),
    ] {
        let frame = [b"-", &field[..], b"-"].concat();
        assert_eq!(shown.first_spoiled(&frame, 1), spoiled);
    }
}
