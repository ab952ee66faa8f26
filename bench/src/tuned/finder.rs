//! Cuts captured bytes into frames. Blocks in which no frame begins or ends are skipped.

use crate::abi::FrameAnswer;
use crate::plain::fields::CR;
use crate::plain::finder::{is_lead, CUT, WHOLE};

const BLOCK: usize = 16;

/// The first frame that begins at a place or after it.
#[inline(always)]
pub fn next_frame(capture: &[u8], at: usize) -> Option<FrameAnswer> {
    let rest = capture.get(at..)?;
    let start = if rest.first().is_some_and(|&byte| is_lead(byte)) { at } else { at + first(rest, is_lead)? };
    let inside = start + 1;
    let (kind, end) = match first(&capture[inside..], |byte| is_lead(byte) | (byte == CR)) {
        Some(size) if capture[inside + size] == CR => (WHOLE, inside + size + 1),
        Some(size) => (CUT, inside + size),
        None => (CUT, capture.len()),
    };
    Some(FrameAnswer { kind, start, end, next: end })
}

/// The place of the first byte that is wanted. A block is searched without an early return, so that all its bytes are
/// tested at once.
#[inline(always)]
fn first(bytes: &[u8], wanted: impl Fn(u8) -> bool) -> Option<usize> {
    let (blocks, _) = bytes.as_chunks::<BLOCK>();
    let empty = |block: &&[u8; BLOCK]| !block.iter().fold(false, |found, &byte| found | wanted(byte));
    let skipped = blocks.iter().take_while(empty).count() * BLOCK;
    bytes[skipped..].iter().position(|&byte| wanted(byte)).map(|place| skipped + place)
}
