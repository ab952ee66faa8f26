//! The static reply: its runs of digits, and its label.

use super::fields::{all_digits, sum, InRuns};
use crate::plain::desk::{Key, Label};
use crate::plain::fields::{all_raw, is_address, is_raw, is_requester, CR};
use crate::plain::refusal::{Refusal, KIND};
use crate::plain::reply::{
    is_bib, is_channel, is_group, is_information, is_run, is_status, read, ReplyDigits, LEAD, SIZE,
};
use crate::plain::times::is_day;

/// The label of a reply that comes in.
#[inline(always)]
pub fn label(frame: &[u8]) -> Result<Label, Refusal> {
    held_label(frame).ok_or_else(|| refusal_of(frame))
}

/// The refusal of a frame that has no label.
#[cold]
#[inline(never)]
fn refusal_of(frame: &[u8]) -> Refusal {
    read(frame).err().unwrap_or(KIND)
}

impl ReplyDigits for InRuns {
    #[inline(never)]
    fn can_read_head(frame: &[u8; SIZE]) -> bool {
        all_digits(&frame[7..29])
    }

    #[inline(never)]
    fn can_read_clock(frame: &[u8; SIZE]) -> bool {
        all_digits(&frame[30..48])
    }

    #[inline(never)]
    fn can_read_net(frame: &[u8; SIZE]) -> bool {
        all_digits(&frame[30..40]) & all_digits(&frame[41..48])
    }
}

/// The label of a frame; none if it is not a good reply. No refusal is looked for.
#[inline(always)]
pub fn held_label(cell: &[u8]) -> Option<Label> {
    let frame: &[u8; SIZE] = cell.try_into().ok()?;
    if !InRuns::can_read_head(frame) || !is_head(frame) {
        return None;
    }
    let key = Key { address: frame[2].into(), requester: frame[6].into(), number: sum(&frame[7..12]) };
    is_timing(frame).then_some(Label { status: frame[5], letter: frame[29], key })
}

/// Is all good but the timing? The digits must be.
#[inline(always)]
fn is_head(frame: &[u8; SIZE]) -> bool {
    let status = frame[5];
    frame[0] == LEAD
        && frame[1] == b'R'
        && is_address(frame[2])
        && is_raw(frame[3])
        && is_raw(frame[4])
        && is_status(status)
        && is_requester(frame[6])
        && is_bib(sum(&frame[12..17]))
        && is_group(sum(&frame[17..20]))
        && is_run(sum(&frame[20..23]), status)
        && is_channel(sum(&frame[26..29]))
        && is_information(frame[29])
        && all_raw(&frame[48..50])
        && frame[50] == CR
}

/// Is the timing good? Plain's `kind_of` would become a jump by a table here, which is slower than comparisons.
#[inline(always)]
fn is_timing(frame: &[u8; SIZE]) -> bool {
    let [status, information] = [frame[5], frame[29]];
    if status != b'Z' && matches!(information, b'0' | b'K' | b'S' | b's' | b'a') {
        InRuns::can_read_clock(frame) && is_clock_timing(frame)
    } else if status != b'Z' && matches!(information, b'1'..=b'3') {
        InRuns::can_read_net(frame) && is_net_timing(frame)
    } else {
        all_raw(&frame[30..48])
    }
}

/// Is it a time and a day? The digits must be good, as below.
#[inline(always)]
fn is_clock_timing(frame: &[u8; SIZE]) -> bool {
    is_time(frame) && is_day(sum(&frame[40..42]), sum(&frame[42..44]), sum(&frame[44..48]))
}

/// Is it a net time? Minus zero is none.
#[inline(always)]
fn is_net_timing(frame: &[u8; SIZE]) -> bool {
    let zero = || sum(&frame[41..48]) == 0 && sum(&frame[30..36]) == 0 && sum(&frame[36..40]) == 0;
    is_time(frame) && (frame[40] == b'+' || (frame[40] == b'-' && !zero()))
}

#[inline(always)]
fn is_time(frame: &[u8; SIZE]) -> bool {
    sum(&frame[30..32]) < 24 && sum(&frame[32..34]) < 60 && sum(&frame[34..36]) < 60
}
