//! What the fields of good dynamic requests show. Only the period depends on a field before it.

use super::{
    at, is_bib, is_channel, is_days, is_order, is_output, is_period, is_requester, is_run, is_sign,
    is_stop_bib, width,
};
use crate::shown::{clock_times, letters, numbers, under, Kept, Shown};

static REQUESTER: Kept = Kept::new(|| letters(is_requester));
static ORDER: Kept = Kept::new(|| letters(is_order));
static BIB: Kept = Kept::new(|| numbers(width::BIB, is_bib));
static CHANNEL: Kept = Kept::new(|| numbers(width::CHANNEL, is_channel));
static RUN: Kept = Kept::new(|| numbers(width::RUN, is_run));
static STOP_BIB: Kept = Kept::new(|| numbers(width::BIB, is_stop_bib));
static SIGN: Kept = Kept::new(|| numbers(width::SIGN, is_sign));
static TIME: Kept = Kept::new(clock_times);
static DAYS: Kept = Kept::new(|| numbers(width::DAYS, is_days));
static OUTPUT: Kept = Kept::new(|| letters(is_output));

/// One for each order.
static PERIODS: [(u8, Kept); 6] = [
    (b'A', Kept::new(|| periods(b'A'))),
    (b'B', Kept::new(|| periods(b'B'))),
    (b'a', Kept::new(|| periods(b'a'))),
    (b'b', Kept::new(|| periods(b'b'))),
    (b'T', Kept::new(|| periods(b'T'))),
    (b't', Kept::new(|| periods(b't'))),
];

fn periods(order: u8) -> Shown {
    numbers(width::PERIOD, |period| is_period(period, order))
}

pub fn of_field(frame: &[u8], offset: usize) -> &'static Shown {
    match offset {
        at::REQUESTER => &REQUESTER,
        at::ORDER => &ORDER,
        at::BIB => &BIB,
        at::CHANNEL | at::STOP_CHANNEL => &CHANNEL,
        at::RUN | at::STOP_RUN => &RUN,
        at::STOP_BIB => &STOP_BIB,
        at::SIGN => &SIGN,
        at::TIME => &TIME,
        at::DAYS => &DAYS,
        at::PERIOD => under(&PERIODS, frame[at::ORDER]),
        at::OUTPUT => &OUTPUT,
        _ => unreachable!("no field of a dynamic request begins at {offset}"),
    }
}
