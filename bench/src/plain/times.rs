//! Times of day, days, net times and running time.

use super::fields::{put_number, Digits};
use super::refusal::{Refusal, TIME};
use crate::abi::RunningOf;

const DAY: i64 = 864_000_000;
const MOST_NET_DAYS: u64 = 9_999_999;

pub fn is_clock(ticks: u32) -> bool {
    i64::from(ticks) < DAY
}

/// The ticks of a time `HHMMSSdddd`.
#[inline(always)]
pub fn clock<D: Digits>(text: &[u8]) -> Option<u32> {
    let hours = D::number(&text[..2])?;
    let minutes = D::number(&text[2..4])?;
    let seconds = D::number(&text[4..6])?;
    let ticks = D::number(&text[6..10])?;
    let good = hours < 24 && minutes < 60 && seconds < 60;
    good.then_some(((hours * 60 + minutes) * 60 + seconds) * 10_000 + ticks)
}

#[inline]
pub fn put_clock(text: &mut [u8], ticks: u32) {
    put_number(&mut text[..2], ticks / 36_000_000);
    put_number(&mut text[2..4], ticks / 600_000 % 60);
    put_number(&mut text[4..6], ticks / 10_000 % 60);
    put_number(&mut text[6..10], ticks % 10_000);
}

/// Is it a real day of the years 2000 to 2099?
#[inline(always)]
pub fn is_day(day: u32, month: u32, year: u32) -> bool {
    let last = match month {
        1 | 3 | 5 | 7 | 8 | 10 | 12 => 31,
        4 | 6 | 9 | 11 => 30,
        2 if is_leap(year) => 29,
        2 => 28,
        _ => return false,
    };
    (2000..=2099).contains(&year) && (1..=last).contains(&day)
}

fn is_leap(year: u32) -> bool {
    year.is_multiple_of(4) && (!year.is_multiple_of(100) || year.is_multiple_of(400))
}

/// The net value of days and a time with one sign for both. Minus zero has no value.
#[inline(always)]
pub fn net_value(minus: bool, days: u32, time: u32) -> Option<i64> {
    let size = i64::from(days) * DAY + i64::from(time);
    if minus && size == 0 {
        return None;
    }
    Some(if minus { -size } else { size })
}

/// The days and the time of a value without its sign; none if seven digits cannot show the days.
#[inline]
pub fn net_parts(value: i64) -> Option<(u32, u32)> {
    let size = value.unsigned_abs();
    let days = size / DAY as u64;
    (days <= MOST_NET_DAYS).then_some((days as u32, (size % DAY as u64) as u32))
}

pub fn running_time(of: &RunningOf) -> Result<i64, Refusal> {
    let times = is_clock(of.tnow) && is_clock(of.tev) && (of.bib != 0 || of.tev == 0);
    if !times || of.sign > 1 || of.days > 9 || !is_clock(of.time) {
        return Err(TIME);
    }
    let taux = i64::from(of.days) * DAY + i64::from(of.time);
    let signed = if of.sign == 1 { -taux } else { taux };
    Ok(i64::from(of.tnow) - i64::from(of.tev) - signed)
}
