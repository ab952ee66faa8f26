//! Cases of the finder: `find` and `find-from`.

use super::Cases;
use crate::random::Random;
use crate::spelling::{bytes_text, MOST_BYTES_OF_CAPTURE};

/// A good frame of each kind. The first two are the scope paper's.
const REQUEST: &[u8] = b"\x11R 100700000P000002000S\r";
const REPLY: &[u8] = b"\x12R SOR10000700015000002000000P000000000000000000  \r";
const DYNAMIC: &[u8] = b"\x13R 1A000150010020004125500301234567898200100S\r";
const FRAMES: [&[u8]; 3] = [REQUEST, REPLY, DYNAMIC];

const LEADS: [u8; 3] = [0x11, 0x12, 0x13];

/// Captures with every kind of fault that a frame can have. They are short, because they are asked
/// about at each of their places.
const MIXED: [&[u8]; 7] = [
    b"",
    b"\r",
    b"\x11",
    b"a\x11b\r\nc\x12d\x13\r\r\x11\x11\re",
    b"\x13\x12\x11\r\x12\r\r\r\x11ab",
    b"\r\0\x12R \r\n\x13R \x11R \n\x12\n\r",
    b"\x11R 1\x12R S\rO\x13\x13R 1A",
];

pub fn add_all(cases: &mut Cases, seed: u64) {
    add_short_captures(cases);
    add_every_byte(cases);
    add_fillings(cases);
    add_neighbours(cases);
    add_cut_frames(cases);
    add_places(cases);
    add_long_frames(cases);
    add_random_captures(cases, &mut Random::new(seed, "find"));
    add_random_places(cases, &mut Random::new(seed, "find-from"));
}

fn add_find(cases: &mut Cases, capture: &[u8]) {
    cases.add(format!("find {}", bytes_text(capture)));
}

fn add_from(cases: &mut Cases, place: usize, capture: &[u8]) {
    cases.add(format!("find-from {place} {}", bytes_text(capture)));
}

/// The capture cut into frames, a search from each of its places, and some from past its end.
fn add_at_every_place(cases: &mut Cases, capture: &[u8]) {
    add_find(cases, capture);
    for place in 0..=capture.len() + 1 {
        add_from(cases, place, capture);
    }
    add_from(cases, u32::MAX as usize, capture);
}

/// All captures of up to three bytes, made of the four bytes that have a meaning and one that has
/// none.
fn add_short_captures(cases: &mut Cases) {
    const CODES: [u8; 5] = [0x11, 0x12, 0x13, b'\r', b'a'];
    let mut captures = vec![Vec::new()];
    for _ in 0..3 {
        for capture in &captures {
            add_find(cases, capture);
        }
        captures = longer_by_one(&captures, &CODES);
    }
    for capture in &captures {
        add_find(cases, capture);
    }
}

fn longer_by_one(captures: &[Vec<u8>], codes: &[u8]) -> Vec<Vec<u8>> {
    let mut longer = Vec::new();
    for capture in captures {
        longer.extend(codes.iter().map(|&code| [&capture[..], &[code]].concat()));
    }
    longer
}

/// Each byte alone, inside a frame and between two frames.
fn add_every_byte(cases: &mut Cases) {
    for code in 0..=u8::MAX {
        add_find(cases, &[code]);
        add_find(cases, &[0x12, b'A', code, b'B', b'\r']);
        add_find(cases, &[0x11, b'A', b'\r', code, 0x13, b'B', b'\r']);
    }
}

/// What may be between two frames and after a lead byte. The second frame is whole, or cut by the
/// end.
fn add_fillings(cases: &mut Cases) {
    let fillings: [&[u8]; 10] = [
        b"",
        b"\r",
        b"\r\r",
        b"\n",
        b"\r\n",
        b"\0\0\0",
        b"RSAz09 ",
        b"\x10\x14\x91\x92\x93",
        b"\x8d\x0c\x0e",
        b"H\r",
    ];
    for first in LEADS {
        for filling in fillings {
            for last in [&b"\r"[..], b""] {
                let whole = [&[first], &b"ab\r"[..], filling, b"\x13c", last].concat();
                add_find(cases, &whole);
                let cut = [&[first], filling, &b"\x11c"[..], last].concat();
                add_find(cases, &cut);
            }
        }
    }
}

/// Frames of every two kinds side by side, directly and with LF between and after them.
fn add_neighbours(cases: &mut Cases) {
    for first in FRAMES {
        for second in FRAMES {
            add_find(cases, &[first, second].concat());
            add_find(cases, &[first, b"\n", second, b"\n"].concat());
        }
    }
    add_find(cases, &FRAMES.concat());
    add_find(cases, &[REPLY, REQUEST, REPLY, DYNAMIC, REPLY].concat());
}

/// Each frame cut at every length: by the end, by a frame of another kind, and at some lengths by
/// one of its own kind.
fn add_cut_frames(cases: &mut Cases) {
    for (frame, (other, own)) in FRAMES.into_iter().zip([
        (b"\x12x\r", b"\x11x\r"),
        (b"\x13x\r", b"\x12x\r"),
        (b"\x11x\r", b"\x13x\r"),
    ]) {
        for length in 1..frame.len() {
            let begun = &frame[..length];
            add_find(cases, begun);
            add_find(cases, &[begun, other].concat());
            if length % 8 == 1 {
                add_find(cases, &[begun, own].concat());
                add_find(cases, &[begun, frame].concat());
            }
        }
        // What is left after the lead byte is not a frame, wherever it begins.
        add_find(cases, &frame[1..]);
        add_find(cases, &[&frame[1..], frame].concat());
    }
}

fn add_places(cases: &mut Cases) {
    for capture in MIXED {
        add_at_every_place(cases, capture);
    }
    for frame in FRAMES {
        let places = [0, 1, 2, frame.len() - 1, frame.len(), frame.len() + 1];
        for place in places {
            add_from(cases, place, frame);
        }
    }
    let capture = [REQUEST, b"\n", &REPLY[..20], DYNAMIC, b"\r\r", &REPLY[..2]].concat();
    for place in (0..=capture.len() + 1).step_by(3) {
        add_from(cases, place, &capture);
    }
}

/// Frames far longer than any kind, whole and cut, up to the longest capture that a case can ask
/// about.
fn add_long_frames(cases: &mut Cases) {
    for length in [201, 256, 257, MOST_BYTES_OF_CAPTURE] {
        let mut capture = vec![b'x'; length];
        capture[0] = 0x12;
        add_find(cases, &capture);
        add_from(cases, 0, &capture);
        capture[length - 1] = b'\r';
        add_find(cases, &capture);
        add_from(cases, 1, &capture);
        capture[length - 2] = 0x11;
        add_find(cases, &capture);
        capture[length - 1] = 0x13;
        add_find(cases, &capture);
    }
    let skipped = [&[b'y'; 300][..], b"\x13z\r", &[b'\r'; 90]].concat();
    add_find(cases, &skipped);
    for place in [0, 256, 300, 301, 303, 392, 393, 394] {
        add_from(cases, place, &skipped);
    }
    add_find(cases, &[0x11; MOST_BYTES_OF_CAPTURE]);
    add_find(cases, &[b'\r'; MOST_BYTES_OF_CAPTURE]);
}

/// Bytes for captures that have many frames. From one row to the next, lead bytes and CRs become
/// rarer.
const ALPHABETS: [&[u8]; 4] = [
    b"\x11\x12\x13\r",
    b"\x11\x12\x13\r\ra\n",
    b"\x11\x12\x13\r\r\n\0RS 019Az\x10\x14",
    b"\x12\r R0123456789",
];

fn random_capture(random: &mut Random, most: usize) -> Vec<u8> {
    let alphabet = random.pick(&ALPHABETS);
    let length = random.place(most + 1);
    (0..length).map(|_| random.pick(alphabet)).collect()
}

fn add_random_captures(cases: &mut Cases, random: &mut Random) {
    for _ in 0..300 {
        add_find(cases, &random_capture(random, 60));
    }
    for _ in 0..12 {
        add_find(cases, &random_capture(random, MOST_BYTES_OF_CAPTURE));
    }
    for _ in 0..40 {
        let mut capture = Vec::new();
        for _ in 0..random.below(5) {
            capture.extend_from_slice(&random_frame(random));
            let between = random.place(3);
            capture.extend(random.bytes(between));
        }
        add_find(cases, &capture);
    }
}

/// A good frame; half the time only its beginning, or with one byte changed.
fn random_frame(random: &mut Random) -> Vec<u8> {
    let mut frame = random.pick(&FRAMES).to_vec();
    let place = random.place(frame.len());
    match random.below(4) {
        0 => frame.truncate(place),
        1 => frame[place] = random.pick(b"\x11\x12\x13\r\n\0"),
        _ => {}
    }
    frame
}

fn add_random_places(cases: &mut Cases, random: &mut Random) {
    for _ in 0..120 {
        let capture = random_capture(random, 60);
        let place = random.place(capture.len() + 3);
        add_from(cases, place, &capture);
    }
}

#[cfg(test)]
mod tests {
    use super::*;
    use crate::dynamic::Dynamic;
    use crate::frame::Kind;
    use crate::reply::Reply;
    use crate::request::Request;

    #[test]
    fn the_frames_are_good_ones() {
        assert!(Request::read(REQUEST).is_ok());
        assert!(Reply::read(REPLY).is_ok());
        assert!(Dynamic::read(DYNAMIC).is_ok());
    }

    #[test]
    fn short_captures_are_all_there() {
        let mut cases = Cases::default();
        add_short_captures(&mut cases);
        assert_eq!(cases.text.lines().count(), 1 + 5 + 25 + 125);
    }

    #[test]
    fn every_way_of_cutting_is_asked() {
        let mut cases = Cases::default();
        add_all(&mut cases, 1);
        let answers = crate::answers::file(cases.text.as_bytes()).expect("cases");
        let has = |text: &str| answers.lines().any(|line| line == text);
        assert!(has("nothing"));
        assert!(has("whole 0 24 whole 24 75 whole 75 121 nothing"));
        // Cut by a lead byte, by the end, and by both.
        assert!(has("cut 0 23 whole 23 26 nothing"));
        assert!(has("cut 0 50 nothing"));
        assert!(has("cut 0 1 cut 1 2 cut 2 3 nothing"));
        // The longest capture, as one frame.
        assert!(has("whole 0 400 nothing"));
        assert!(has("cut 0 400 nothing"));
        assert!(has("cut 0 400 400"));
    }

    #[test]
    fn random_captures_keep_their_length() {
        let mut random = Random::new(1, "test");
        for most in [0, 1, 60] {
            assert!((0..200).all(|_| random_capture(&mut random, most).len() <= most));
        }
    }
}
