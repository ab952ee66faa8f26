//! The reasons why a call is refused.

#[derive(Clone, Copy)]
pub struct Refusal {
    pub number: u32,
    pub offset: u32,
    pub spoiled: u32,
}

const fn numbered(number: u32) -> Refusal {
    Refusal { number, offset: 0, spoiled: 0 }
}

pub const KIND: Refusal = numbered(1);
pub const LENGTH: Refusal = numbered(2);
pub const END: Refusal = numbered(3);
pub const ADDRESS: Refusal = numbered(4);
pub const ROOM: Refusal = numbered(7);
pub const TIME: Refusal = numbered(8);
pub const DESK: Refusal = numbered(9);
pub const NO_ANSWER_DUE: Refusal = numbered(10);
pub const IN_USE: Refusal = numbered(11);
pub const NO_SEAT: Refusal = numbered(12);
pub const STRAY: Refusal = numbered(13);
pub const ENDED: Refusal = numbered(14);
pub const OUT_OF_PLACE: Refusal = numbered(15);
pub const FULL: Refusal = numbered(16);
pub const NO_SUCH: Refusal = numbered(17);

/// FIELD, with the offset at which the wrong field begins, and that of its spoiled byte.
pub const fn field(at: usize, spoiled: usize) -> Refusal {
    Refusal { number: 5, offset: at as u32, spoiled: spoiled as u32 }
}

/// RECORD with this offset, unless the part is good.
#[inline]
pub fn part(good: bool, at: u32) -> Result<(), Refusal> {
    if good {
        Ok(())
    } else {
        Err(Refusal { number: 6, offset: at, spoiled: 0 })
    }
}

#[rustfmt::skip]
const NAMES: [&str; 18] = [
    "DONE", "KIND", "LENGTH", "END", "ADDRESS", "FIELD", "RECORD", "ROOM", "TIME", "DESK", "NO ANSWER DUE", "IN USE",
    "NO SEAT", "STRAY", "ENDED", "OUT OF PLACE", "FULL", "NO SUCH",
];

/// Writes a refusal's name and a zero byte, and returns the name's size.
pub fn put_name(refusal: u32, out: &mut [u8]) -> Result<usize, Refusal> {
    let name = NAMES.get(refusal as usize).unwrap_or(&"UNKNOWN").as_bytes();
    let place = out.get_mut(..=name.len()).ok_or(ROOM)?;
    place[..name.len()].copy_from_slice(name);
    place[name.len()] = 0;
    Ok(name.len())
}
