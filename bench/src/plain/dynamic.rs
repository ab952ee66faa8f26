//! The dynamic request.

use super::fields::{
    byte_at, clock_at, framed, is_address, is_output, is_requester, number_at, put_number, Digits, OneByOne, CR,
};
use super::refusal::{part, Refusal, KIND, ROOM};
use super::times::{is_clock, put_clock};
use crate::abi::DynamicRequest;

pub const LEAD: u8 = 0x13;
pub const SIZE: usize = 46;

#[inline(always)]
pub fn read(bytes: &[u8]) -> Result<DynamicRequest, Refusal> {
    read_by::<OneByOne>(bytes)
}

/// A way to read the digits of a dynamic request.
pub trait DynamicDigits: Digits {
    /// Can the numbers be read in this way?
    #[inline(always)]
    fn can_read(_: &[u8; SIZE]) -> bool {
        true
    }
}

impl DynamicDigits for OneByOne {}

#[inline(always)]
pub fn read_by<D: DynamicDigits>(bytes: &[u8]) -> Result<DynamicRequest, Refusal> {
    let frame = framed(bytes, LEAD)?;
    if D::can_read(frame) {
        read_fields::<D>(frame)
    } else {
        Err(refusal_of(frame))
    }
}

/// The refusal of a frame in which a byte is not a digit.
#[cold]
#[inline(never)]
fn refusal_of(frame: &[u8; SIZE]) -> Refusal {
    read_fields::<OneByOne>(frame).err().unwrap_or(KIND)
}

/// Reads the fields after the address.
#[inline(always)]
fn read_fields<D: Digits>(frame: &[u8; SIZE]) -> Result<DynamicRequest, Refusal> {
    let requester = byte_at(frame, 3, is_requester)?;
    let order = byte_at(frame, 4, is_order)?;
    Ok(DynamicRequest {
        address: frame[2],
        requester,
        order,
        bib: number_at::<D, _>(frame, 5, b"69999", is_bib)?,
        channel: number_at::<D, _>(frame, 10, b"299", is_channel)?,
        run: number_at::<D, _>(frame, 13, b"299", is_run)?,
        stop_bib: number_at::<D, _>(frame, 16, b"69999", is_stop_bib)?,
        stop_channel: number_at::<D, _>(frame, 21, b"299", is_channel)?,
        stop_run: number_at::<D, _>(frame, 24, b"299", is_run)?,
        sign: number_at::<D, _>(frame, 27, b"1", |sign| sign <= 1)?,
        time: clock_at::<D>(frame, 28)?,
        days: number_at::<D, _>(frame, 38, b"9", |_| true)?,
        period: number_at::<D, _>(frame, 39, b"99999", |period| is_period(period, order))?,
        output: byte_at(frame, 44, is_output)?,
    })
}

pub fn write(record: &DynamicRequest, out: &mut [u8]) -> Result<usize, Refusal> {
    must_be_good(record)?;
    let frame: &mut [u8; SIZE] = out.first_chunk_mut().ok_or(ROOM)?;
    frame[..3].copy_from_slice(&[LEAD, b'R', record.address]);
    frame[3] = record.requester;
    frame[4] = record.order;
    put_number(&mut frame[5..10], record.bib);
    put_number(&mut frame[10..13], record.channel);
    put_number(&mut frame[13..16], record.run);
    put_number(&mut frame[16..21], record.stop_bib);
    put_number(&mut frame[21..24], record.stop_channel);
    put_number(&mut frame[24..27], record.stop_run);
    put_number(&mut frame[27..28], record.sign);
    put_clock(&mut frame[28..38], record.time);
    put_number(&mut frame[38..39], record.days);
    put_number(&mut frame[39..44], record.period);
    frame[44] = record.output;
    frame[45] = CR;
    Ok(SIZE)
}

fn must_be_good(record: &DynamicRequest) -> Result<(), Refusal> {
    part(is_address(record.address), 2)?;
    part(is_requester(record.requester), 3)?;
    part(is_order(record.order), 4)?;
    part(is_bib(record.bib), 5)?;
    part(is_channel(record.channel), 10)?;
    part(is_run(record.run), 13)?;
    part(is_stop_bib(record.stop_bib), 16)?;
    part(is_channel(record.stop_channel), 21)?;
    part(is_run(record.stop_run), 24)?;
    part(record.sign <= 1, 27)?;
    part(is_clock(record.time), 28)?;
    part(record.days <= 9, 38)?;
    part(is_period(record.period, record.order), 39)?;
    part(is_output(record.output), 44)
}

fn is_order(code: u8) -> bool {
    matches!(code, b'A' | b'B' | b'a' | b'b' | b'T' | b't')
}

fn is_bib(value: u32) -> bool {
    value <= 60_000
}

fn is_stop_bib(value: u32) -> bool {
    matches!(value, 1..=60_000)
}

fn is_channel(value: u32) -> bool {
    matches!(value, 0..=240 | 250 | 255)
}

fn is_run(value: u32) -> bool {
    value <= 250
}

/// Orders A and B need a period that is not zero.
fn is_period(value: u32, order: u8) -> bool {
    value <= 99_999 && (value != 0 || !matches!(order, b'A' | b'B'))
}
