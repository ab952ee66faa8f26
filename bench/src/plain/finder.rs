//! Cuts captured bytes into frames.

use super::fields::CR;
use super::{dynamic, reply, request};
use crate::abi::FrameAnswer;

pub const WHOLE: u32 = 1;
pub const CUT: u32 = 2;

/// The first frame that begins at a place or after it.
#[inline]
pub fn next_frame(capture: &[u8], at: usize) -> Option<FrameAnswer> {
    let start = at + capture.get(at..)?.iter().position(|&byte| is_lead(byte))?;
    let (kind, end) = end_of_frame(capture, start);
    Some(FrameAnswer { kind, start, end, next: end })
}

/// Whether the frame that begins at a place is whole or cut, and where it ends.
#[inline]
fn end_of_frame(capture: &[u8], start: usize) -> (u32, usize) {
    for (place, &byte) in capture.iter().enumerate().skip(start + 1) {
        if is_lead(byte) {
            return (CUT, place);
        }
        if byte == CR {
            return (WHOLE, place + 1);
        }
    }
    (CUT, capture.len())
}

pub fn is_lead(byte: u8) -> bool {
    matches!(byte, request::LEAD | reply::LEAD | dynamic::LEAD)
}
