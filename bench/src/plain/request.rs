//! The static request.

use super::fields::{byte_at, framed, is_address, is_output, is_requester, number_at, put_number, OneByOne, CR};
use super::refusal::{part, Refusal, ROOM};
use crate::abi::StaticRequest;

pub const LEAD: u8 = 0x11;
const SIZE: usize = 24;

#[inline(always)]
pub fn read(bytes: &[u8]) -> Result<StaticRequest, Refusal> {
    let frame = framed::<SIZE>(bytes, LEAD)?;
    Ok(StaticRequest {
        address: frame[2],
        requester: byte_at(frame, 3, is_requester)?,
        number: number_at::<OneByOne, _>(frame, 4, b"999", |_| true)?,
        bib: number_at::<OneByOne, _>(frame, 7, b"59999", is_bib)?,
        information: byte_at(frame, 12, is_information)?,
        channel: number_at::<OneByOne, _>(frame, 13, b"299", is_channel)?,
        run: number_at::<OneByOne, _>(frame, 16, b"299", is_run)?,
        group: number_at::<OneByOne, _>(frame, 19, b"199", is_group)?,
        output: byte_at(frame, 22, is_output)?,
    })
}

pub fn write(record: &StaticRequest, out: &mut [u8]) -> Result<usize, Refusal> {
    must_be_good(record)?;
    let frame: &mut [u8; SIZE] = out.first_chunk_mut().ok_or(ROOM)?;
    frame[..3].copy_from_slice(&[LEAD, b'R', record.address]);
    frame[3] = record.requester;
    put_number(&mut frame[4..7], record.number);
    put_number(&mut frame[7..12], record.bib);
    frame[12] = record.information;
    put_number(&mut frame[13..16], record.channel);
    put_number(&mut frame[16..19], record.run);
    put_number(&mut frame[19..22], record.group);
    frame[22] = record.output;
    frame[23] = CR;
    Ok(SIZE)
}

fn must_be_good(record: &StaticRequest) -> Result<(), Refusal> {
    part(is_address(record.address), 2)?;
    part(is_requester(record.requester), 3)?;
    part(record.number <= 999, 4)?;
    part(is_bib(record.bib), 7)?;
    part(is_information(record.information), 12)?;
    part(is_channel(record.channel), 13)?;
    part(is_run(record.run), 16)?;
    part(is_group(record.group), 19)?;
    part(is_output(record.output), 22)
}

fn is_bib(value: u32) -> bool {
    value <= 59_999
}

#[rustfmt::skip]
fn is_information(code: u8) -> bool {
    matches!(
        code,
        b'0'..=b'9' | b'A' | b'Q' | b'P' | b'a' | b'S' | b's' | b'T' | b'K' | b'L' | b't' | b'R' | b'*' | b'G' | b'H' | b'h'
        | b'I' | b'i' | b'J' | b'j' | b'p' | b'k' | b'u' | b'g' | b'W' | b'w' | b'X' | b'l' | b'b' | b'c' | b'd' | b'q'
    )
}

fn is_channel(value: u32) -> bool {
    matches!(value, 0..=240 | 248 | 249 | 251 | 255)
}

fn is_run(value: u32) -> bool {
    value <= 250
}

fn is_group(value: u32) -> bool {
    value <= 199
}
