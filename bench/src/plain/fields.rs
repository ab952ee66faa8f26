//! Functions that all kinds of frame are read and written with.

use super::refusal::{field, Refusal, ADDRESS, END, KIND, LENGTH};
use super::times;

pub const CR: u8 = 0x0d;
const FIRST_RAW: u8 = 0x20;
const LAST_RAW: u8 = 0x7e;

/// The frame, if its lead byte, length, end and address are right.
#[inline(always)]
pub fn framed<const SIZE: usize>(bytes: &[u8], lead: u8) -> Result<&[u8; SIZE], Refusal> {
    if bytes.first() != Some(&lead) {
        return Err(KIND);
    }
    let frame: &[u8; SIZE] = bytes.try_into().map_err(|_| LENGTH)?;
    if frame[SIZE - 1] != CR {
        return Err(END);
    }
    if frame[1] != b'R' || !is_address(frame[2]) {
        return Err(ADDRESS);
    }
    Ok(frame)
}

/// A way to read digits.
pub trait Digits {
    /// The number that these digits are; none if one is not a digit.
    fn number(digits: &[u8]) -> Option<u32>;
}

/// Tests each digit while it is read.
pub struct OneByOne;

impl Digits for OneByOne {
    #[inline(always)]
    fn number(digits: &[u8]) -> Option<u32> {
        let mut value = 0;
        for &byte in digits {
            let digit = byte.wrapping_sub(b'0');
            if digit > 9 {
                return None;
            }
            value = value * 10 + u32::from(digit);
        }
        Some(value)
    }
}

/// FIELD for a field in which each byte can be one from `least` to `most` at its place. The spoiled byte is the first one
/// that is not. If there is none, it is the field's first byte.
#[cold]
#[inline(never)]
pub fn outside(frame: &[u8], at: usize, least: &[u8], most: &[u8]) -> Refusal {
    let limits = least.iter().zip(most);
    let spoiled = frame[at..].iter().zip(limits).position(|(byte, (least, most))| byte < least || most < byte);
    field(at, at + spoiled.unwrap_or(0))
}

/// The number in a field, if `good` accepts it. `most` has the greatest digit that can be at each place.
#[inline(always)]
pub fn number_at<D: Digits, const WIDTH: usize>(
    frame: &[u8],
    at: usize,
    most: &[u8; WIDTH],
    good: impl FnOnce(u32) -> bool,
) -> Result<u32, Refusal> {
    let value = D::number(&frame[at..at + WIDTH]).filter(|&value| good(value));
    value.ok_or_else(|| outside(frame, at, &[b'0'; WIDTH], most))
}

/// The byte at a place, if `good` accepts it.
#[inline(always)]
pub fn byte_at(frame: &[u8], at: usize, good: impl FnOnce(u8) -> bool) -> Result<u8, Refusal> {
    if good(frame[at]) {
        Ok(frame[at])
    } else {
        Err(field(at, at))
    }
}

/// The time of day in a field of ten digits, in ticks.
#[inline(always)]
pub fn clock_at<D: Digits>(frame: &[u8], at: usize) -> Result<u32, Refusal> {
    times::clock::<D>(&frame[at..at + 10]).ok_or_else(|| outside(frame, at, b"0000000000", b"2959599999"))
}

/// The bytes of a raw field.
#[inline(always)]
pub fn raw_at<const WIDTH: usize>(frame: &[u8], at: usize) -> Result<[u8; WIDTH], Refusal> {
    let bytes: [u8; WIDTH] = frame[at..at + WIDTH].try_into().expect("WIDTH bytes");
    if all_raw(&bytes) {
        Ok(bytes)
    } else {
        Err(outside(frame, at, &[FIRST_RAW; WIDTH], &[LAST_RAW; WIDTH]))
    }
}

/// Fills a field with the digits of a value, which must fit.
#[inline]
pub fn put_number(digits: &mut [u8], mut value: u32) {
    for digit in digits.iter_mut().rev() {
        *digit = b'0' + (value % 10) as u8;
        value /= 10;
    }
}

pub fn is_address(code: u8) -> bool {
    matches!(code, b' ' | b'0'..=b'9')
}

pub fn is_requester(code: u8) -> bool {
    code.is_ascii_alphanumeric()
}

pub fn is_output(code: u8) -> bool {
    matches!(code, b'S' | b'A' | b'B' | b'T')
}

pub fn is_raw(code: u8) -> bool {
    matches!(code, FIRST_RAW..=LAST_RAW)
}

/// Are all bytes raw? There is no early return: on so few bytes it is faster without one.
pub fn all_raw(codes: &[u8]) -> bool {
    codes.iter().fold(true, |good, &code| good & is_raw(code))
}
