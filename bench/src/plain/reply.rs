//! The static reply.

use super::fields::{
    all_raw, byte_at, clock_at, framed, is_address, is_raw, is_requester, number_at, outside, put_number, raw_at,
    Digits, OneByOne, CR,
};
use super::refusal::{field, part, Refusal, KIND, ROOM};
use super::times::{is_clock, is_day, net_parts, net_value, put_clock};
use crate::abi::{ReplyHead, ReplyRecord, TimingNumbers, CLOCK, NET, RAW};

pub const LEAD: u8 = 0x12;
pub const SIZE: usize = 51;

/// Reads a frame. It is inlined, so that a caller that needs one part of the record pays only for that part.
#[inline(always)]
pub fn read(bytes: &[u8]) -> Result<ReplyRecord, Refusal> {
    read_by::<OneByOne>(bytes)
}

/// A way to read the digits of a reply.
pub trait ReplyDigits: Digits {
    /// Can the numbers before the information be read in this way?
    #[inline(always)]
    fn can_read_head(_: &[u8; SIZE]) -> bool {
        true
    }

    /// The same for a time and a day.
    #[inline(always)]
    fn can_read_clock(_: &[u8; SIZE]) -> bool {
        true
    }

    /// The same for a net time.
    #[inline(always)]
    fn can_read_net(_: &[u8; SIZE]) -> bool {
        true
    }
}

impl ReplyDigits for OneByOne {}

#[inline(always)]
pub fn read_by<D: ReplyDigits>(bytes: &[u8]) -> Result<ReplyRecord, Refusal> {
    let frame = framed(bytes, LEAD)?;
    if D::can_read_head(frame) {
        read_fields::<D>(frame)
    } else {
        Err(refusal_of(frame))
    }
}

/// The refusal of a frame in which a byte is not a digit.
#[cold]
#[inline(never)]
fn refusal_of(frame: &[u8; SIZE]) -> Refusal {
    read_fields::<OneByOne>(frame).err().unwrap_or(KIND)
}

#[inline(always)]
fn read_fields<D: ReplyDigits>(frame: &[u8; SIZE]) -> Result<ReplyRecord, Refusal> {
    let program = byte_at(frame, 3, is_raw)?;
    let mode = byte_at(frame, 4, is_raw)?;
    let status = byte_at(frame, 5, is_status)?;
    let requester = byte_at(frame, 6, is_requester)?;
    let number = number_at::<D, _>(frame, 7, b"99999", |_| true)?;
    let bib = number_at::<D, _>(frame, 12, b"59999", is_bib)?;
    let group = number_at::<D, _>(frame, 17, b"199", is_group)?;
    let run = number_at::<D, _>(frame, 20, b"299", |run| is_run(run, status))?;
    let physical = number_at::<D, _>(frame, 23, b"999", |_| true)?;
    let channel = number_at::<D, _>(frame, 26, b"299", is_channel)?;
    let information = byte_at(frame, 29, is_information)?;
    let (timing, raw_time, raw_date) = match kind_of(status, information) {
        CLOCK => (read_clock::<D>(frame)?, [0; 10], [0; 8]),
        NET => (read_net::<D>(frame)?, [0; 10], [0; 8]),
        _ => (TimingNumbers { kind: RAW, ..TimingNumbers::default() }, raw_at(frame, 30)?, raw_at(frame, 40)?),
    };
    let spare = raw_at(frame, 48)?;
    let address = frame[2];
    let head = ReplyHead {
        address,
        program,
        mode,
        status,
        requester,
        number,
        bib,
        group,
        run,
        physical,
        channel,
        information,
    };
    Ok(ReplyRecord { head, timing, raw_time, raw_date, spare })
}

#[inline(always)]
fn read_clock<D: ReplyDigits>(frame: &[u8; SIZE]) -> Result<TimingNumbers, Refusal> {
    if D::can_read_clock(frame) {
        clock_fields::<D>(frame)
    } else {
        Err(refusal_of(frame))
    }
}

#[inline(always)]
fn clock_fields<D: Digits>(frame: &[u8; SIZE]) -> Result<TimingNumbers, Refusal> {
    let ticks = clock_at::<D>(frame, 30)?;
    let wrong = || outside(frame, 40, b"00002000", b"39192099");
    let day = D::number(&frame[40..42]).ok_or_else(wrong)?;
    let month = D::number(&frame[42..44]).ok_or_else(wrong)?;
    let year = D::number(&frame[44..48]).ok_or_else(wrong)?;
    if !is_day(day, month, year) {
        return Err(wrong());
    }
    Ok(TimingNumbers { kind: CLOCK, ticks, day, month, year, net: 0 })
}

#[inline(always)]
fn read_net<D: ReplyDigits>(frame: &[u8; SIZE]) -> Result<TimingNumbers, Refusal> {
    if D::can_read_net(frame) {
        net_fields::<D>(frame)
    } else {
        Err(refusal_of(frame))
    }
}

#[inline(always)]
fn net_fields<D: Digits>(frame: &[u8; SIZE]) -> Result<TimingNumbers, Refusal> {
    let time = clock_at::<D>(frame, 30)?;
    let minus = match frame[40] {
        b'+' => false,
        b'-' => true,
        _ => return Err(field(40, 40)),
    };
    let wrong = || outside(frame, 40, b"+0000000", b"-9999999");
    let days = D::number(&frame[41..48]).ok_or_else(wrong)?;
    let net = net_value(minus, days, time).ok_or_else(wrong)?;
    Ok(TimingNumbers { kind: NET, net, ..TimingNumbers::default() })
}

pub fn write(record: &ReplyRecord, out: &mut [u8]) -> Result<usize, Refusal> {
    let head = &record.head;
    head_must_be_good(head)?;
    timing_must_be_good(record)?;
    let frame: &mut [u8; SIZE] = out.first_chunk_mut().ok_or(ROOM)?;
    frame[..3].copy_from_slice(&[LEAD, b'R', head.address]);
    frame[3] = head.program;
    frame[4] = head.mode;
    frame[5] = head.status;
    frame[6] = head.requester;
    put_number(&mut frame[7..12], head.number);
    put_number(&mut frame[12..17], head.bib);
    put_number(&mut frame[17..20], head.group);
    put_number(&mut frame[20..23], head.run);
    put_number(&mut frame[23..26], head.physical);
    put_number(&mut frame[26..29], head.channel);
    frame[29] = head.information;
    put_timing(record, frame);
    frame[48..50].copy_from_slice(&record.spare);
    frame[50] = CR;
    Ok(SIZE)
}

#[inline]
fn put_timing(record: &ReplyRecord, frame: &mut [u8; SIZE]) {
    let timing = &record.timing;
    match timing.kind {
        CLOCK => {
            put_clock(&mut frame[30..40], timing.ticks);
            put_number(&mut frame[40..42], timing.day);
            put_number(&mut frame[42..44], timing.month);
            put_number(&mut frame[44..48], timing.year);
        }
        NET => {
            let (days, time) = net_parts(timing.net).expect("a good record");
            put_clock(&mut frame[30..40], time);
            frame[40] = if timing.net < 0 { b'-' } else { b'+' };
            put_number(&mut frame[41..48], days);
        }
        _ => {
            frame[30..40].copy_from_slice(&record.raw_time);
            frame[40..48].copy_from_slice(&record.raw_date);
        }
    }
}

fn head_must_be_good(head: &ReplyHead) -> Result<(), Refusal> {
    part(is_address(head.address), 2)?;
    part(is_raw(head.program), 3)?;
    part(is_raw(head.mode), 4)?;
    part(is_status(head.status), 5)?;
    part(is_requester(head.requester), 6)?;
    part(head.number <= 99_999, 7)?;
    part(is_bib(head.bib), 12)?;
    part(is_group(head.group), 17)?;
    part(is_run(head.run, head.status), 20)?;
    part(head.physical <= 999, 23)?;
    part(is_channel(head.channel), 26)?;
    part(is_information(head.information), 29)
}

/// Checks the timing of a record. The parts that its kind does not use must be zero.
fn timing_must_be_good(record: &ReplyRecord) -> Result<(), Refusal> {
    let timing = &record.timing;
    part(timing.kind == kind_of(record.head.status, record.head.information), 30)?;
    match timing.kind {
        CLOCK => {
            part(is_clock(timing.ticks), 30)?;
            part(is_day(timing.day, timing.month, timing.year), 40)?;
        }
        NET => part(net_parts(timing.net).is_some(), 40)?,
        _ => {
            part(all_raw(&record.raw_time), 30)?;
            part(all_raw(&record.raw_date), 40)?;
        }
    }
    part(all_raw(&record.spare), 48)?;
    let dateless = timing.ticks == 0 && timing.day == 0 && timing.month == 0 && timing.year == 0;
    let rawless = record.raw_time == [0; 10] && record.raw_date == [0; 8];
    part(timing.kind == CLOCK || dateless, 50)?;
    part(timing.kind == NET || timing.net == 0, 50)?;
    part(timing.kind == RAW || rawless, 50)
}

/// The kind of timing that a reply has.
#[inline(always)]
fn kind_of(status: u8, information: u8) -> u32 {
    match information {
        _ if status == b'Z' => RAW,
        b'0' | b'K' | b'S' | b's' | b'a' => CLOCK,
        b'1' | b'2' | b'3' => NET,
        _ => RAW,
    }
}

pub fn is_status(code: u8) -> bool {
    matches!(code, b'R' | b'E' | b'Z')
}

pub fn is_bib(value: u32) -> bool {
    value <= 59_999
}

pub fn is_group(value: u32) -> bool {
    value <= 199
}

pub fn is_run(value: u32, status: u8) -> bool {
    value <= 250 && (value != 0 || status == b'Z')
}

pub fn is_channel(value: u32) -> bool {
    matches!(value, 0..=240 | 245 | 248 | 249 | 250 | 255)
}

#[rustfmt::skip]
pub fn is_information(code: u8) -> bool {
    matches!(
        code,
        b'0'..=b'9' | b'A' | b'Q' | b'P' | b'a' | b'S' | b's' | b'T' | b'K' | b'R' | b'G' | b'H' | b'h' | b'I' | b'i' | b'J'
        | b'j' | b'p' | b'k' | b'u' | b'g' | b'W' | b'w' | b'X'
    )
}
