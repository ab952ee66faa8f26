//! What the fields of good requests show. No field depends on the fields before it.

use super::{
    at, is_bib, is_channel, is_group, is_information, is_number, is_output, is_requester, is_run,
    width,
};
use crate::shown::{letters, numbers, Kept, Shown};

static REQUESTER: Kept = Kept::new(|| letters(is_requester));
static NUMBER: Kept = Kept::new(|| numbers(width::NUMBER, is_number));
static BIB: Kept = Kept::new(|| numbers(width::BIB, is_bib));
static INFORMATION: Kept = Kept::new(|| letters(is_information));
static CHANNEL: Kept = Kept::new(|| numbers(width::CHANNEL, is_channel));
static RUN: Kept = Kept::new(|| numbers(width::RUN, is_run));
static GROUP: Kept = Kept::new(|| numbers(width::GROUP, is_group));
static OUTPUT: Kept = Kept::new(|| letters(is_output));

pub fn of_field(_: &[u8], offset: usize) -> &'static Shown {
    match offset {
        at::REQUESTER => &REQUESTER,
        at::NUMBER => &NUMBER,
        at::BIB => &BIB,
        at::INFORMATION => &INFORMATION,
        at::CHANNEL => &CHANNEL,
        at::RUN => &RUN,
        at::GROUP => &GROUP,
        at::OUTPUT => &OUTPUT,
        _ => unreachable!("no field of a request begins at {offset}"),
    }
}
