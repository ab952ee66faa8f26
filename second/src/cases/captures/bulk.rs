//! Captures in bulk: for each seed a piece with a given number of captures.

use super::{key, keys, requests, Capture, Frames};
use crate::cases::desk::frames::{random_reply, request, E, R, Z};
use crate::cases::dynamic;
use crate::desk::SEATS;
use crate::listing::MOST_BYTES;
use crate::random::Random;

/// The longest capture of all. It is much too long to have a list.
const LONGEST: usize = 70_000;

/// Bytes for captures that have many frames. From one row to the next, lead bytes and CRs become
/// rarer.
const ALPHABETS: [&[u8]; 4] = [
    b"\x11\x12\x13\r",
    b"\x11\x12\x13\r\ra\n",
    b"\x11\x12\x13\r\r\n\0RS 019Az\x10\x14",
    b"\x12\r R0123456789",
];

/// The captures of one piece.
pub fn piece(seed: u64, captures: u64) -> Vec<Capture> {
    let mut random = Random::new(seed, "bulk captures");
    (0..captures).map(|_| capture(&mut random)).collect()
}

fn capture(random: &mut Random) -> Capture {
    match random.below(128) {
        0..=45 => mixed(random, 1_000),
        46..=69 => mixed(random, 4_000),
        70..=101 => worn(random),
        102..=113 => of_few_bytes(random),
        114..=119 => of_any_bytes(random),
        120..=122 => full(random),
        123 | 124 => mixed(random, MOST_BYTES),
        125 | 126 => about_the_longest(random),
        _ => too_long(random),
    }
}

/// Frames of all kinds up to this length: good, wrong and cut, with noise between them.
fn mixed(random: &mut Random, most: usize) -> Capture {
    let length = random.place(most + 1);
    super::random::capture(random, length)
}

/// Exactly as long as the longest capture that has a list, or up to three bytes shorter or longer.
fn about_the_longest(random: &mut Random) -> Capture {
    let length = MOST_BYTES - 3 + random.place(7);
    super::random::capture(random, length)
}

fn too_long(random: &mut Random) -> Capture {
    let length = MOST_BYTES + 1 + random.place(LONGEST - MOST_BYTES);
    let mut capture = super::random::capture(random, 2_000);
    capture.resize(length, random.pick(b"\n\x11\r"));
    capture
}

fn of_few_bytes(random: &mut Random) -> Capture {
    let alphabet = random.pick(&ALPHABETS);
    let length = random.pick(&[4, 20, 100, 1_000]);
    (0..random.place(length + 1))
        .map(|_| random.pick(alphabet))
        .collect()
}

fn of_any_bytes(random: &mut Random) -> Capture {
    let length = random.place(2_000);
    random.bytes(length)
}

/// Good requests and replies to them, with dynamic requests between. Most replies are an R; an E or
/// a Z comes once in `end_once_in` times.
fn conversation(random: &mut Random, frames: usize, end_once_in: u64) -> Frames {
    let number_of_keys = 1 + random.place(SEATS + 2);
    let mut heard = requests(&keys(number_of_keys));
    for _ in 0..frames {
        let own = key(random.place(number_of_keys));
        heard.push(match random.below(16) {
            0 => request(own),
            1 => dynamic::frame_of(&dynamic::random_record(random)),
            _ if random.once_in(end_once_in) => {
                let status = random.pick(&[E, E, Z]);
                random_reply(random, status, own)
            }
            _ => random_reply(random, R, own),
        });
    }
    heard
}

/// A conversation with about as many replies as there are cells.
fn full(random: &mut Random) -> Capture {
    let frames = 280 + random.place(80);
    conversation(random, frames, 200).concat()
}

/// A good conversation with transmission errors.
fn worn(random: &mut Random) -> Capture {
    let frames = random.place(40);
    let mut capture = conversation(random, frames, 8).concat();
    for _ in 0..random.place(12) {
        wear(&mut capture, random);
    }
    capture
}

/// Changes, removes, repeats or inserts bytes.
fn wear(capture: &mut Capture, random: &mut Random) {
    let place = random.place(capture.len().max(1));
    let Some(byte) = capture.get_mut(place) else {
        return;
    };
    match random.below(8) {
        0 => *byte = random.byte(),
        1 => *byte ^= 1 << random.below(8),
        2 => *byte = random.pick(b"\x11\x12\x13\r"),
        3 => {
            capture.remove(place);
        }
        4 => capture.insert(place, random.byte()),
        5 => capture.insert(place, random.pick(b"\x11\x12\x13\r")),
        6 => {
            capture.drain(place..(place + random.place(80)).min(capture.len()));
        }
        _ => {
            let again = capture[place..(place + random.place(80)).min(capture.len())].to_vec();
            capture.splice(place..place, again);
        }
    }
}

#[cfg(test)]
mod tests {
    use super::super::tests::{refusals, taken_and_refused};
    use super::*;
    use std::collections::BTreeSet;

    #[test]
    fn a_seed_gives_the_same_piece() {
        assert_eq!(piece(1, 50), piece(1, 50));
        assert_ne!(piece(1, 50), piece(2, 50));
    }

    #[test]
    fn a_piece_has_the_captures_it_says() {
        for captures in [0, 1, 100] {
            assert_eq!(piece(1, captures).len() as u64, captures);
        }
    }

    #[test]
    fn lengths_are_of_all_sizes() {
        let lengths: Vec<usize> = piece(1, 800).iter().map(Vec::len).collect();
        let within = |low, high| {
            lengths
                .iter()
                .filter(|&&length| low <= length && length < high)
                .count()
        };
        assert!(within(0, 30) > 10);
        assert!(within(30, 4_000) > 500);
        assert!(within(4_000, MOST_BYTES - 3) > 10);
        assert!(within(MOST_BYTES - 3, MOST_BYTES + 1) > 2);
        assert!(within(MOST_BYTES + 1, MOST_BYTES + 4) > 2);
        assert!(within(MOST_BYTES + 4, LONGEST + 1) > 2);
        assert_eq!(within(LONGEST + 1, usize::MAX), 0);
    }

    /// Every refusal that a whole frame can get from the call of its lead byte. KIND and END cannot
    /// occur there.
    #[test]
    fn every_refusal_of_a_whole_frame_comes() {
        let captures = piece(1, 400);
        let expected = BTreeSet::from([2, 4, 5, 10, 11, 12, 13, 14, 15, 16]);
        assert_eq!(refusals(&captures), expected);
    }

    #[test]
    fn worn_captures_keep_most_of_their_frames() {
        let mut random = Random::new(1, "test");
        let captures: Vec<Capture> = (0..50).map(|_| worn(&mut random)).collect();
        let (taken, refused) = taken_and_refused(&captures);
        assert!(taken > refused / 2 && refused > 100, "{taken} {refused}");
    }
}
