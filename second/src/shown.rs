//! The spoiled byte of a wrong field: its first byte that no well formed frame with the same fields
//! before it has at that place. What such frames have there is not listed by hand. It is found by a
//! search over all good fields, and what is good is asked of the readers.

#[cfg(test)]
mod tests;

use crate::digits;
use crate::frame::is_raw;
use crate::times;
use std::sync::LazyLock;

/// For each place of a field, which bytes good fields show there.
pub struct Shown(Vec<[bool; 256]>);

/// What a search found. It is searched once, when it is first asked for, because millions of frames
/// are read.
pub type Kept = LazyLock<Shown>;

impl Shown {
    /// What these good fields show. All of them have `width` bytes.
    pub fn by(width: usize, good_fields: impl IntoIterator<Item = Vec<u8>>) -> Self {
        let mut places = vec![[false; 256]; width];
        for field in good_fields {
            debug_assert_eq!(field.len(), width);
            for (shown, code) in places.iter_mut().zip(field) {
                shown[usize::from(code)] = true;
            }
        }
        Shown(places)
    }

    /// The offset of the spoiled byte of the wrong field that begins at `offset`. If each of the
    /// field's bytes is shown at its place, they are wrong only together. Then it is the offset of
    /// the field itself.
    pub fn first_spoiled(&self, frame: &[u8], offset: usize) -> usize {
        let field = &frame[offset..offset + self.0.len()];
        let mut places = self.0.iter().zip(field);
        let place = places.position(|(shown, &code)| !shown[usize::from(code)]);
        offset + place.unwrap_or(0)
    }

    /// How many bytes the field has.
    pub fn width(&self) -> usize {
        self.0.len()
    }

    pub fn is_shown(&self, place: usize, code: u8) -> bool {
        self.0[place][usize::from(code)]
    }
}

pub fn letters(good: fn(u8) -> bool) -> Shown {
    let codes = (0..=u8::MAX).filter(|&code| good(code));
    Shown::by(1, codes.map(|code| vec![code]))
}

pub fn numbers(width: usize, good: impl Fn(u64) -> bool) -> Shown {
    let values = (0..values_of(width)).filter(|&value| good(value));
    Shown::by(width, values.map(|value| digits::write(value, width)))
}

/// Each raw byte is good or wrong by itself, so it is enough to fill the field with one byte.
pub fn raw_bytes(width: usize) -> Shown {
    let codes = (0..=u8::MAX).filter(|&code| is_raw(code));
    Shown::by(width, codes.map(|code| vec![code; width]))
}

/// Hours, minutes, seconds and fraction are good or wrong each by itself. So each is searched by
/// itself, with zeros in the three others.
pub fn clock_times() -> Shown {
    const ZEROS: &[u8] = b"0000000000";
    let parts = [(0, 2), (2, 2), (4, 2), (6, 4)];
    let times = parts.into_iter().flat_map(|(place, width)| {
        (0..values_of(width)).map(move |value| {
            let (before, after) = (&ZEROS[..place], &ZEROS[place + width..]);
            [before, &digits::write(value, width), after].concat()
        })
    });
    let good = times.filter(|time| times::read_clock(time, 0).is_some());
    Shown::by(ZEROS.len(), good)
}

/// What is kept under this letter, if a field depends on a letter before it.
pub fn under(kept: &'static [(u8, Kept)], letter: u8) -> &'static Shown {
    let mut kept = kept.iter();
    let (_, shown) = kept
        .find(|&&(other, _)| other == letter)
        .expect("the letter is good");
    shown
}

/// How many values a number of this many digits has.
fn values_of(width: usize) -> u64 {
    (0..width).map(|_| 10).product()
}
