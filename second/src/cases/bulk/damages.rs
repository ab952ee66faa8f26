//! Damage cases: in a frame, each byte is changed to each value.

use super::{bounds, frames_asked, Maker, MAKERS};
use crate::cases::spoiled::change_field;
use crate::random::Random;
use crate::spelling::bytes_text;

/// Damage cases that together ask about at most this many frames, and nearly as many. The kinds
/// take turns.
pub fn cases(random: &mut Random, most: u64) -> Vec<String> {
    let mut asked = 0;
    let makers = MAKERS.into_iter().cycle();
    makers
        .map(|maker| case(maker, random))
        .take_while(|case| {
            asked += frames_asked(case);
            asked <= most
        })
        .collect()
}

fn case(maker: &Maker, random: &mut Random) -> String {
    format!(
        "damage-{} {}",
        maker.word,
        bytes_text(&frame(maker, random))
    )
}

/// Usually a good frame or one with fields at their bounds. Once in eight times a byte of the frame
/// is changed before it is damaged, and twice in eight times one of its fields.
fn frame(maker: &Maker, random: &mut Random) -> Vec<u8> {
    match random.below(8) {
        0 => {
            let mut frame = (maker.good)(random);
            change_byte(&mut frame, random);
            frame
        }
        1 | 2 => with_changed_field(maker, random),
        3 | 4 => bounds::frame(maker, random),
        _ => (maker.good)(random),
    }
}

/// A good frame in which one to three bytes of one field are changed.
pub fn with_changed_field(maker: &Maker, random: &mut Random) -> Vec<u8> {
    let mut frame = (maker.good)(random);
    change_field(&mut frame, maker.fields, random);
    frame
}

/// Changes the byte at some place: to any byte, to a neighbour, by one bit, to a digit, or by
/// swapping it with another byte of the frame.
pub fn change_byte(frame: &mut [u8], random: &mut Random) {
    let place = random.place(frame.len());
    match random.below(6) {
        0 => frame[place] = random.byte(),
        1 => frame[place] = frame[place].wrapping_add(1),
        2 => frame[place] = frame[place].wrapping_sub(1),
        3 => frame[place] ^= 1 << random.below(8),
        4 => frame[place] = b'0' + random.below(10) as u8,
        _ => frame.swap(place, random.place(frame.len())),
    }
}

#[cfg(test)]
mod tests {
    use super::super::{DYNAMIC, REPLY, REQUEST};
    use super::*;
    use crate::dynamic::Dynamic;
    use crate::frame::Kind;
    use crate::refusal::Refusal;
    use crate::reply::Reply;
    use crate::request::Request;
    use std::collections::BTreeMap;

    #[test]
    fn they_are_as_many_as_fit() {
        let longest = 256 * 51;
        for most in [0, 6_143, 6_144, 100_000] {
            let cases = cases(&mut Random::new(1, "test"), most);
            let asked: u64 = cases.iter().map(|case| frames_asked(case)).sum();
            assert!(asked <= most && asked + longest > most, "{asked} of {most}");
        }
    }

    #[test]
    fn frames_keep_their_length() {
        let mut random = Random::new(1, "test");
        for (maker, length) in MAKERS.into_iter().zip([24, 51, 46]) {
            assert!((0..200).all(|_| frame(maker, &mut random).len() == length));
        }
    }

    /// How many frames are refused for each pair of a field and its spoiled byte.
    fn refused<Record: Kind>(maker: &Maker) -> BTreeMap<(usize, usize), usize> {
        let mut random = Random::new(1, "test");
        let mut counts = BTreeMap::new();
        for _ in 0..6000 {
            match Record::read(&with_changed_field(maker, &mut random)) {
                Ok(_) => {}
                Err(Refusal::Field(offset, spoiled)) => {
                    *counts.entry((offset, spoiled)).or_default() += 1;
                }
                Err(refusal) => panic!("{refusal:?}"),
            }
        }
        counts
    }

    /// Every byte of every field is the spoiled one, and often.
    #[test]
    fn every_byte_of_every_field_is_spoiled() {
        for (maker, counts) in [
            (&REQUEST, refused::<Request>(&REQUEST)),
            (&REPLY, refused::<Reply>(&REPLY)),
            (&DYNAMIC, refused::<Dynamic>(&DYNAMIC)),
        ] {
            let places = maker.fields.iter().map(|&(_, width)| width).sum();
            assert_eq!(counts.len(), places, "{counts:?}");
            assert!(counts.values().all(|&count| count > 10), "{counts:?}");
        }
    }
}
