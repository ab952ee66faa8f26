//! Plain Rust, tuned in the ways of the proved library. So the ratio of proved to tuned does not count what these ways gain:
//!
//! - a search for frames skips blocks of sixteen bytes (`finder`);
//! - digits are tested in runs, and then the numbers are read without a test (`fields`, `dynamic`, `reply`);
//! - a held cell, or a reply that comes in, is first asked only whether it is good, and for its label (`reply`);
//! - the keys of the seats are a column of numbers, which is made once in a call (`desk`);
//! - if no cell is held, nothing is counted, and the tally only has to be all zero (`EMPTY_APART`).
//!
//! All else is plain's. What did not gain was left out: rules are combined by `&&`, because with `&` a held cell takes 15 ns
//! instead of 12 (on an AMD EPYC). Held cells are counted as on the plain side, since a copy of the tally that is counted down
//! is no faster.

mod desk;
mod dynamic;
mod fields;
mod finder;
mod reply;

use crate::abi::{DynamicRequest, FrameAnswer, ReplyRecord};
use crate::plain;
use crate::plain::desk::Label;
use crate::plain::refusal::Refusal;
use crate::plain::ways::Ways;
use fields::InRuns;

/// The ways of tuned.
pub struct Tuned;

impl Ways for Tuned {
    type Keys = desk::Column;
    const EMPTY_APART: bool = true;

    #[inline(always)]
    fn read_reply(frame: &[u8]) -> Result<ReplyRecord, Refusal> {
        plain::reply::read_by::<InRuns>(frame)
    }

    #[inline(always)]
    fn read_dynamic(frame: &[u8]) -> Result<DynamicRequest, Refusal> {
        plain::dynamic::read_by::<InRuns>(frame)
    }

    #[inline(always)]
    fn label(frame: &[u8]) -> Result<Label, Refusal> {
        reply::label(frame)
    }

    #[inline(always)]
    fn held_label(cell: &[u8]) -> Option<Label> {
        reply::held_label(cell)
    }

    #[inline(always)]
    fn next_frame(capture: &[u8], at: usize) -> Option<FrameAnswer> {
        finder::next_frame(capture, at)
    }
}
