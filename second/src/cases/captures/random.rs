//! Random captures with every kind of fault that a frame can have.

use super::{key, keys, requests as requests_to, Capture};
use crate::cases::desk::frames::{
    random_minus_zero, random_reply, request, request_for, Key, E, R, Z,
};
use crate::cases::frames::befall_at_random;
use crate::cases::{dynamic, reply, request as requests};
use crate::random::Random;

const CAPTURES: usize = 60;

/// The least length of the first capture, and how much it grows from one capture to the next. All
/// captures stay below 3,000 bytes, and their total length is about the same for any seed.
const SHORTEST: usize = 200;
const STEP: usize = 46;

/// How many keys a capture has. The seats are not enough for the last two.
const NUMBERS_OF_KEYS: [usize; 6] = [2, 3, 5, 9, 17, 20];

/// A capture begins with one request for every `BYTES_A_REQUEST` bytes of its length, but with no
/// more requests than it has keys.
const BYTES_A_REQUEST: usize = 100;

pub fn captures(random: &mut Random) -> Vec<Capture> {
    (0..CAPTURES)
        .map(|place| {
            let length = SHORTEST + STEP * place + random.place(STEP);
            capture(random, length)
        })
        .collect()
}

/// Some requests, then pieces up to this length. The last piece is cut to fit or replaced by LFs.
pub fn capture(random: &mut Random, length: usize) -> Capture {
    let number_of_keys = random.pick(&NUMBERS_OF_KEYS);
    let opened = number_of_keys.min(length / BYTES_A_REQUEST);
    let mut capture = requests_to(&keys(opened)).concat();
    let mut before = 0;
    while capture.len() < length {
        before = capture.len();
        capture.extend(piece(random, number_of_keys));
    }
    if random.once_in(2) {
        capture.truncate(before);
    }
    capture.resize(length, b'\n');
    capture
}

/// One frame, good or not, or some bytes that are not a frame.
fn piece(random: &mut Random, number_of_keys: usize) -> Vec<u8> {
    let own = key(random.place(number_of_keys));
    match random.below(25) {
        0 | 1 => request(own),
        2..=14 => good_reply(random, own),
        15 | 16 => dynamic::frame_of(&dynamic::random_record(random)),
        17 => requests::frame_of(&requests::random_record(random)),
        18 => stray(random, own),
        19 => request_for(own, b'q'),
        20 => damaged(random, own),
        21 => begun(random, own),
        22 => noise(random),
        23 => random_minus_zero(random, own),
        _ => random.pick(&[&b"\n"[..], b"\r", b"\r\n", b"\n\n"]).to_vec(),
    }
}

/// A reply to this key. All its other fields are random.
fn good_reply(random: &mut Random, own: Key) -> Vec<u8> {
    let status = match random.below(12) {
        0 => E,
        1 => Z,
        _ => R,
    };
    random_reply(random, status, own)
}

/// A reply with another address or another number than all keys of the capture.
fn stray(random: &mut Random, (address, requester, number): Key) -> Vec<u8> {
    let other = match random.below(2) {
        0 => (random.pick(b"12456789"), requester, number),
        _ => {
            let number = number + random.pick(&[1, 2, 1_000, 65_536]);
            (address, requester, number)
        }
    };
    good_reply(random, other)
}

/// A good frame of any kind.
fn good_frame(random: &mut Random, own: Key) -> Vec<u8> {
    match random.below(4) {
        0 => request(own),
        1 => dynamic::frame_of(&dynamic::random_record(random)),
        _ => good_reply(random, own),
    }
}

/// A frame with a random change. Sometimes it is still good.
fn damaged(random: &mut Random, own: Key) -> Vec<u8> {
    let mut frame = good_frame(random, own);
    let numbers = match frame[0] {
        0x11 => &requests::NUMBERS[..],
        0x12 => &reply::NUMBERS,
        _ => &dynamic::NUMBERS,
    };
    befall_at_random(&mut frame, numbers, random);
    frame
}

/// The beginning of a frame.
fn begun(random: &mut Random, own: Key) -> Vec<u8> {
    let mut frame = good_frame(random, own);
    frame.truncate(1 + random.place(frame.len() - 1));
    frame
}

/// Random bytes, or only lead bytes and CRs.
fn noise(random: &mut Random) -> Vec<u8> {
    let length = random.place(12);
    if random.once_in(2) {
        return random.bytes(length);
    }
    (0..length)
        .map(|_| random.pick(b"\x11\x12\x13\r"))
        .collect()
}

#[cfg(test)]
mod tests {
    use super::*;
    use crate::cases::captures::tests::refusals;
    use std::collections::BTreeSet;

    #[test]
    fn captures_are_sixty_and_short() {
        for seed in [0, 1, 2, 3, u64::MAX] {
            let captures = captures(&mut Random::new(seed, "test"));
            assert_eq!(captures.len(), 60);
            let mut lengths = captures.iter().map(Vec::len);
            assert!(lengths.all(|length| (200..=3_000).contains(&length)));
        }
    }

    /// Every refusal that a whole frame can get, except FULL: no capture is long enough for it.
    #[test]
    fn every_refusal_of_a_whole_frame_comes() {
        let captures = captures(&mut Random::new(1, "test"));
        let expected = BTreeSet::from([2, 4, 5, 10, 11, 12, 13, 14, 15]);
        assert_eq!(refusals(&captures), expected);
    }
}
