//! What all kinds of frame have in common: the bytes around the fields, how a field is read, and
//! the order in which a frame is read and a record is written.

use crate::digits;
use crate::refusal::Refusal;
use crate::shown::Shown;
use crate::times;

pub const CR: u8 = 0x0d;

/// Byte 1 of every frame.
const BYTE_1: u8 = b'R';

/// The offset of the address in every frame.
pub const ADDRESS: usize = 2;

/// The offset of a frame's first wrong field.
#[derive(Clone, Copy, Debug, PartialEq, Eq)]
pub struct WrongAt(pub usize);

/// One kind of frame, implemented by the record that holds its contents.
pub trait Kind: Sized {
    const LEAD: u8;
    const LENGTH: usize;

    /// Reads the fields of a frame that has this address and nothing wrong around the fields. They
    /// are read by rising offset, so the first wrong one is found.
    fn read_fields(address: u8, frame: &[u8]) -> Result<Self, WrongAt>;

    /// What good fields at this offset show after the fields that this frame has before it. Those
    /// are good.
    fn shown(frame: &[u8], offset: usize) -> &'static Shown;

    /// The offset of the first field that keeps the record from being well formed. The address is
    /// the first of all.
    fn first_wrong_field(&self) -> Option<usize>;

    /// The bytes from the address up to the CR in the frame of a well formed record.
    fn fields(&self) -> Vec<u8>;

    fn read(frame: &[u8]) -> Result<Self, Refusal> {
        let address = read_surround(frame, Self::LEAD, Self::LENGTH)?;
        Self::read_fields(address, frame).map_err(|WrongAt(offset)| {
            let spoiled = Self::shown(frame, offset).first_spoiled(frame, offset);
            Refusal::Field(offset, spoiled)
        })
    }

    /// Writes the frame to the first bytes of `output` and changes no other byte. RECORD is tried
    /// before ROOM. If the write is refused, the output stays as it was.
    fn write(&self, output: &mut [u8]) -> Result<(), Refusal> {
        if let Some(offset) = self.first_wrong_field() {
            return Err(Refusal::Record(offset));
        }
        let target = output.get_mut(..Self::LENGTH).ok_or(Refusal::Room)?;
        let frame = [&[Self::LEAD, BYTE_1][..], &self.fields(), &[CR]].concat();
        target.copy_from_slice(&frame);
        Ok(())
    }
}

/// The address of a frame, or one of refusals 1 to 4. They are tried in that order, so a frame with
/// several faults gets the lowest number.
fn read_surround(frame: &[u8], lead: u8, length: usize) -> Result<u8, Refusal> {
    if frame.first() != Some(&lead) {
        return Err(Refusal::Kind);
    }
    if frame.len() != length {
        return Err(Refusal::Length);
    }
    if frame.last() != Some(&CR) {
        return Err(Refusal::End);
    }
    match *frame {
        [_, BYTE_1, address, ..] if is_address(address) => Ok(address),
        _ => Err(Refusal::Address),
    }
}

/// The letter at `offset`, if it is good.
pub fn letter(frame: &[u8], offset: usize, good: fn(u8) -> bool) -> Result<u8, WrongAt> {
    match frame.get(offset) {
        Some(&code) if good(code) => Ok(code),
        _ => Err(WrongAt(offset)),
    }
}

/// The number at `offset`, if all its bytes are digits and its value is good. Whichever byte is
/// wrong, the field is wrong at the offset at which it begins.
pub fn number(
    frame: &[u8],
    offset: usize,
    width: usize,
    good: impl FnOnce(u64) -> bool,
) -> Result<u64, WrongAt> {
    digits::read(frame, offset, width)
        .filter(|&value| good(value))
        .ok_or(WrongAt(offset))
}

/// The time HHMMSSdddd at `offset`, in ticks.
pub fn time(frame: &[u8], offset: usize) -> Result<i128, WrongAt> {
    times::read_clock(frame, offset).ok_or(WrongAt(offset))
}

/// The `WIDTH` raw bytes at `offset`. They are one field.
pub fn raw<const WIDTH: usize>(frame: &[u8], offset: usize) -> Result<[u8; WIDTH], WrongAt> {
    frame
        .get(offset..offset + WIDTH)
        .and_then(|field| field.try_into().ok())
        .filter(|field: &[u8; WIDTH]| all_raw(field))
        .ok_or(WrongAt(offset))
}

/// The offset of the first field that is not good. The fields are given by rising offset.
pub fn first_wrong(fields: &[(usize, bool)]) -> Option<usize> {
    let wrong = fields.iter().find(|&&(_, good)| !good);
    wrong.map(|&(offset, _)| offset)
}

/// A space or a digit. The space is an address of its own, and not the same as `0`.
pub fn is_address(code: u8) -> bool {
    matches!(code, b' ' | b'0'..=b'9')
}

/// Three ranges, not one: the bytes between `9` and `A`, and between `Z` and `a`, are not
/// requesters.
pub fn is_requester(code: u8) -> bool {
    matches!(code, b'0'..=b'9' | b'A'..=b'Z' | b'a'..=b'z')
}

pub fn is_output(code: u8) -> bool {
    matches!(code, b'S' | b'A' | b'B' | b'T')
}

/// The blank and all printing characters. Neither CR nor a lead byte is among them.
pub fn is_raw(code: u8) -> bool {
    matches!(code, 0x20..=0x7e)
}

pub fn all_raw(codes: &[u8]) -> bool {
    codes.iter().copied().all(is_raw)
}

#[cfg(test)]
mod tests {
    use super::*;

    #[test]
    fn there_are_62_requesters_and_4_outputs() {
        let codes = || 0..=u8::MAX;
        assert_eq!(codes().filter(|&code| is_requester(code)).count(), 62);
        assert_eq!(codes().filter(|&code| is_output(code)).count(), 4);
    }

    #[test]
    fn there_are_11_addresses() {
        let good: Vec<u8> = (0..=u8::MAX).filter(|&code| is_address(code)).collect();
        assert_eq!(good, b" 0123456789");
    }

    #[test]
    fn the_address_is_returned_as_sent() {
        for address in *b" 0123456789" {
            let frame = [0x11, b'R', address, b'x', CR];
            assert_eq!(read_surround(&frame, 0x11, 5), Ok(address));
        }
        for address in [0x00, 0x1f, 0x21, 0x2d, 0x2f, 0x3a, b'R', 0xb0] {
            let frame = [0x11, b'R', address, b'x', CR];
            assert_eq!(read_surround(&frame, 0x11, 5), Err(Refusal::Address));
        }
        for other in *b"Qr 0" {
            let frame = [0x11, other, b'0', b'x', CR];
            assert_eq!(read_surround(&frame, 0x11, 5), Err(Refusal::Address));
        }
    }

    #[test]
    fn the_address_is_tried_after_the_end() {
        for frame in [b"\x11R-x\n", b"\x11S0x\n", b"\x11R9x\n"] {
            assert_eq!(read_surround(frame, 0x11, 5), Err(Refusal::End));
            assert_eq!(read_surround(frame, 0x11, 6), Err(Refusal::Length));
            assert_eq!(read_surround(frame, 0x12, 6), Err(Refusal::Kind));
        }
    }

    #[test]
    fn raw_bytes_are_20h_to_7eh() {
        assert_eq!((0..=u8::MAX).filter(|&code| is_raw(code)).count(), 95);
        assert_eq!(raw(b"x ~y", 1), Ok([0x20, 0x7e]));
        for wrong in [0x00, 0x0d, 0x1f, 0x7f, 0x80, 0xff] {
            assert_eq!(raw::<2>(&[b'x', b' ', wrong], 1), Err(WrongAt(1)));
        }
        assert_eq!(raw::<2>(b"xyz", 2), Err(WrongAt(2)));
    }

    #[test]
    fn requesters_are_not_one_ascii_range() {
        for code in [0x2f, 0x3a, 0x40, 0x5b, 0x60, 0x7b] {
            assert!(!is_requester(code));
        }
        for code in [0x30, 0x39, 0x41, 0x5a, 0x61, 0x7a] {
            assert!(is_requester(code));
        }
    }
}
