//! Cases about the spoiled byte of a wrong field. The tables give it for each wrong text, worked out
//! by hand. The tests hold them against the readers.

#[cfg(test)]
mod brute_force;
pub mod dynamic;
pub mod reply;
pub mod request;

use super::{replaced, Cases};
use crate::frame::Kind;
use crate::random::Random;
use crate::spelling::bytes_text;

/// A field of several bytes: its offset and its width.
pub type Field = (usize, usize);

/// The offset of a field, a text that is wrong there, and the offset of the spoiled byte.
pub type Spoiled = (usize, &'static [u8], usize);

/// Texts that are wrong as a time, each with the place of its spoiled byte. In those with place 0
/// the first digit is never shown, or all digits are wrong only together.
pub const WRONG_TIMES: [(&[u8], usize); 22] = [
    (b"2400000000", 0),
    (b"2900000000", 0),
    (b"3000000000", 0),
    (b"3060600000", 0),
    (b"/2:4567898", 0),
    (b" 234567898", 0),
    // An hour that is wrong only together, before a byte that is never shown.
    (b"2461000000", 2),
    (b"2459600000", 4),
    (b"24595:9999", 5),
    (b"245959999:", 9),
    (b"2900000 00", 7),
    // Good hours, and bytes after them that are never shown.
    (b"0060000000", 2),
    (b"0061610000", 2),
    (b"2360600000", 2),
    (b"0000600000", 4),
    (b"235960////", 4),
    (b"1:00000000", 1),
    (b"12/:567898", 2),
    (b"123:567898", 3),
    (b"12345/7898", 5),
    (b"1234567:/8", 7),
    (b"123456789:", 9),
];

pub fn add_all(cases: &mut Cases, seed: u64) {
    request::add_all(cases, &mut Random::new(seed, "spoiled request"));
    reply::add_all(cases, &mut Random::new(seed, "spoiled reply"));
    dynamic::add_all(cases, &mut Random::new(seed, "spoiled dynamic"));
}

fn add_frames(cases: &mut Cases, word: &str, frames: &[Vec<u8>]) {
    for frame in frames {
        cases.add(format!("{word} {}", bytes_text(frame)));
    }
}

/// The frame with each of these wrong texts.
fn with_each(frame: &[u8], spoiled: &[Spoiled]) -> Vec<Vec<u8>> {
    spoiled
        .iter()
        .map(|&(offset, wrong, _)| replaced(frame, offset, wrong))
        .collect()
}

/// The frame with each of these texts, and then with a field or all fields after it that could not
/// be worse. The texts are those of all fields from some offset on.
fn with_worse_after(frame: &[u8], spoiled: &[Spoiled]) -> Vec<Vec<u8>> {
    let mut frames = Vec::new();
    for (low, &(offset, wrong, _)) in spoiled.iter().enumerate() {
        let mut frame = replaced(frame, offset, wrong);
        for (number, &(offset, other, _)) in spoiled[low + 1..].iter().enumerate() {
            frame = replaced(&frame, offset, &vec![0xff; other.len()]);
            if number == 0 {
                frames.push(frame.clone());
            }
        }
        frames.push(frame);
    }
    frames
}

/// The frame with each byte at each place of this field that is never shown there but has a
/// neighbour that is.
fn with_edges<Record: Kind>(frame: &[u8], offset: usize) -> Vec<Vec<u8>> {
    let shown = Record::shown(frame, offset);
    let mut frames = Vec::new();
    for place in 0..shown.width() {
        let is_shown = |code| shown.is_shown(place, code);
        for code in 0..=u8::MAX {
            let neighbours = [code.checked_sub(1), code.checked_add(1)];
            if !is_shown(code) && neighbours.into_iter().flatten().any(is_shown) {
                frames.push(replaced(frame, offset + place, &[code]));
            }
        }
    }
    frames
}

/// Changes one to three bytes of one of these fields. The field may still be good.
pub fn change_field(frame: &mut [u8], fields: &[Field], random: &mut Random) {
    let (offset, width) = random.pick(fields);
    for _ in 0..1 + random.below(3) {
        let code = &mut frame[offset + random.place(width)];
        *code = match random.below(8) {
            0 => random.byte(),
            1 => code.wrapping_add(1),
            2 => code.wrapping_sub(1),
            3 => *code ^ (1 << random.below(8)),
            4 => random.pick(b"/:+-, *.\x1f\x20\x7e\x7f"),
            _ => b'0' + random.below(10) as u8,
        };
    }
}

#[cfg(test)]
mod tests {
    use super::*;
    use crate::refusal::Refusal;

    /// Each wrong text in the frame is refused with both of its numbers.
    pub fn check<Record: Kind>(frame: &[u8], spoiled: &[Spoiled]) {
        assert!(Record::read(frame).is_ok());
        for (&(offset, wrong, spoiled), frame) in spoiled.iter().zip(with_each(frame, spoiled)) {
            let refusal = Record::read(&frame).err();
            let expected = Refusal::Field(offset, spoiled);
            assert_eq!(refusal, Some(expected), "{}", wrong.escape_ascii());
        }
    }

    /// The first wrong field counts, whatever comes after it.
    pub fn check_worse_after<Record: Kind>(frame: &[u8], spoiled: &[Spoiled]) {
        let frames = with_worse_after(frame, spoiled);
        assert_eq!(frames.len(), 2 * spoiled.len() - 1);
        for (number, frame) in frames.iter().enumerate() {
            let (offset, _, spoiled) = spoiled[number / 2];
            let refusal = Record::read(frame).err();
            assert_eq!(refusal, Some(Refusal::Field(offset, spoiled)));
        }
    }

    /// Each edge is refused as the spoiled byte.
    pub fn check_edges<Record: Kind>(good: &[u8], fields: &[Field]) {
        assert!(Record::read(good).is_ok());
        for &(offset, width) in fields {
            let frames = with_edges::<Record>(good, offset);
            for frame in &frames {
                let place = (0..good.len()).find(|&place| frame[place] != good[place]);
                let expected = place.map(|place| Refusal::Field(offset, place));
                assert_eq!(Record::read(frame).err(), expected);
            }
            // At least one byte below and one above at each place.
            assert!(frames.len() >= 2 * width);
        }
    }
}
