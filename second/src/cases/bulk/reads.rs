//! Plain reads. Each asks about one frame.

use super::damages::{change_byte, with_changed_field};
use super::{bounds, Maker, MAKERS};
use crate::frame::Kind;
use crate::random::Random;
use crate::reply::Reply;
use crate::spelling::{bytes_text, MOST_BYTES};

pub fn case(random: &mut Random) -> String {
    let maker = random.pick(&MAKERS);
    let frame = frame(maker, random);
    let is_value = maker.word == "reply" && frame.len() == Reply::LENGTH;
    let value = if is_value && random.once_in(3) {
        "-value"
    } else {
        ""
    };
    format!("read-{}{value} {}", maker.word, bytes_text(&frame))
}

fn frame(maker: &Maker, random: &mut Random) -> Vec<u8> {
    match random.below(20) {
        0..=2 => (maker.good)(random),
        3..=6 => bounds::frame(maker, random),
        7..=10 => with_changed_field(maker, random),
        11..=13 => slightly_damaged(maker, random),
        14..=16 => (maker.befallen)(random),
        17 => of_any_length(maker, random),
        18 => of_any_bytes(maker, random),
        _ => of_any_kind(random),
    }
}

/// A good frame in which one to three bytes are changed.
fn slightly_damaged(maker: &Maker, random: &mut Random) -> Vec<u8> {
    let mut frame = (maker.good)(random);
    for _ in 0..1 + random.below(3) {
        change_byte(&mut frame, random);
    }
    frame
}

/// A frame that is too short or is followed by random bytes. Its last byte may be a CR.
fn of_any_length(maker: &Maker, random: &mut Random) -> Vec<u8> {
    let mut frame = (maker.good)(random);
    let length = match random.below(3) {
        0 => random.place(MOST_BYTES + 1),
        1 => frame.len() + 1 + random.place(3),
        _ => frame.len() - 1 - random.place(3),
    };
    let more = length.saturating_sub(frame.len());
    frame.extend(random.bytes(more));
    frame.truncate(length);
    end_with_cr(&mut frame, random);
    frame
}

/// Random bytes, half the time as many as a frame of this kind has. Most begin as its frames do.
fn of_any_bytes(maker: &Maker, random: &mut Random) -> Vec<u8> {
    let good = (maker.good)(random);
    let length = match random.below(2) {
        0 => random.place(MOST_BYTES + 1),
        _ => good.len(),
    };
    let mut frame = random.bytes(length);
    let begun = random.pick(&[0, 1, 3, 3]).min(length);
    frame[..begun].copy_from_slice(&good[..begun]);
    end_with_cr(&mut frame, random);
    frame
}

/// A frame of any kind. Half the time its lead byte is replaced by a byte from 10h to 14h.
fn of_any_kind(random: &mut Random) -> Vec<u8> {
    let mut frame = (random.pick(&MAKERS).good)(random);
    if random.once_in(2) {
        frame[0] = random.pick(b"\x10\x11\x12\x13\x14");
    }
    frame
}

/// Puts a CR in the last byte, if there is one, two times in three.
fn end_with_cr(frame: &mut [u8], random: &mut Random) {
    if let Some(last) = frame.last_mut() {
        if !random.once_in(3) {
            *last = b'\r';
        }
    }
}

#[cfg(test)]
mod tests {
    use super::*;
    use crate::answers;

    #[test]
    fn frames_are_no_longer_than_a_case_may_ask() {
        let mut random = Random::new(1, "test");
        let mut longest = 0;
        for _ in 0..5000 {
            let frame = frame(random.pick(&MAKERS), &mut random);
            longest = longest.max(frame.len());
        }
        assert!((90..=MOST_BYTES).contains(&longest), "{longest}");
    }

    #[test]
    fn every_line_is_a_case() {
        let mut random = Random::new(1, "test");
        let text: String = (0..3000).map(|_| case(&mut random) + "\n").collect();
        assert!(answers::by_case(text.as_bytes()).is_ok());
    }
}
