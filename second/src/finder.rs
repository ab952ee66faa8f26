//! The finder: cuts captured bytes into frames.

use crate::dynamic::Dynamic;
use crate::frame::{Kind, CR};
use crate::reply::Reply;
use crate::request::Request;
use std::iter;

/// How a frame ends.
#[derive(Clone, Copy, Debug, PartialEq, Eq)]
pub enum Ending {
    /// Its CR came. The CR is its last byte.
    Whole,
    /// A lead byte or the end of the capture came first. That lead byte is not part of the frame.
    Cut,
}

/// A frame in a capture. Its bytes are from `start` up to, but not including, `end`.
#[derive(Clone, Copy, Debug, PartialEq, Eq)]
pub struct Found {
    pub ending: Ending,
    pub start: usize,
    pub end: usize,
    /// Where the search continues, outside any frame.
    pub next: usize,
}

/// The three bytes that begin a frame, both outside and inside another frame.
pub fn is_lead(code: u8) -> bool {
    [Request::LEAD, Reply::LEAD, Dynamic::LEAD].contains(&code)
}

/// The first frame for a search that begins at `place` outside any frame. All bytes before its lead
/// byte are skipped, including any CR. Past the end of the capture there is nothing.
pub fn first_from(capture: &[u8], place: usize) -> Option<Found> {
    let start = first_place(capture, place, is_lead)?;
    let stop = first_place(capture, start + 1, |code| code == CR || is_lead(code));
    Some(match stop {
        Some(place) if capture[place] == CR => found(Ending::Whole, start, place + 1),
        Some(lead) => found(Ending::Cut, start, lead),
        None => found(Ending::Cut, start, capture.len()),
    })
}

/// The search continues at the frame's end. After a whole frame that is the place after its CR.
/// After a cut frame it is the lead byte that cut it, which begins the next frame, or the end of
/// the capture.
fn found(ending: Ending, start: usize, end: usize) -> Found {
    Found {
        ending,
        start,
        end,
        next: end,
    }
}

/// The first place, from this one on, with a wanted byte.
fn first_place(capture: &[u8], from: usize, wanted: fn(u8) -> bool) -> Option<usize> {
    let rest = capture.get(from..)?;
    let skipped = rest.iter().position(|&code| wanted(code))?;
    Some(from + skipped)
}

/// All frames of a capture, in order.
pub fn frames(capture: &[u8]) -> impl Iterator<Item = Found> + '_ {
    iter::successors(first_from(capture, 0), |last| {
        first_from(capture, last.next)
    })
}

#[cfg(test)]
mod tests {
    use super::*;
    use crate::random::Random;
    use Ending::{Cut, Whole};

    fn check(capture: &[u8], expected: &[(Ending, usize, usize)]) {
        let found: Vec<(Ending, usize, usize)> = frames(capture)
            .map(|frame| (frame.ending, frame.start, frame.end))
            .collect();
        assert_eq!(found, expected, "{}", capture.escape_ascii());
    }

    #[test]
    fn there_are_three_lead_bytes() {
        let leads: Vec<u8> = (0..=u8::MAX).filter(|&code| is_lead(code)).collect();
        assert_eq!(leads, [0x11, 0x12, 0x13]);
    }

    #[test]
    fn nothing_begins_without_a_lead_byte() {
        for capture in [&b""[..], b"\r", b"R 1\r", b"\0\n\x10\x14\x91\xff\r\r"] {
            check(capture, &[]);
        }
    }

    #[test]
    fn a_frame_runs_to_its_cr() {
        check(b"\x11abc\r", &[(Whole, 0, 5)]);
        check(b"\x12\r", &[(Whole, 0, 2)]);
        check(b"x\r\x13a\r\r\ny", &[(Whole, 2, 5)]);
        check(b"\x11a\r\x12b\r", &[(Whole, 0, 3), (Whole, 3, 6)]);
        check(b"\x11a\r\n\x12b\r", &[(Whole, 0, 3), (Whole, 4, 7)]);
        let long = [b"\x13", &[b'x'; 300][..], b"\r"].concat();
        check(&long, &[(Whole, 0, 302)]);
    }

    #[test]
    fn a_lead_byte_inside_cuts_and_begins() {
        check(b"\x11ab\x12c\r", &[(Cut, 0, 3), (Whole, 3, 6)]);
        check(b"\x11\x11\r", &[(Cut, 0, 1), (Whole, 1, 3)]);
        for lead in [0x11, 0x12, 0x13] {
            check(&[0x12, b'x', lead, 0x0d], &[(Cut, 0, 2), (Whole, 2, 4)]);
        }
    }

    #[test]
    fn the_end_of_the_capture_cuts() {
        check(b"\x13", &[(Cut, 0, 1)]);
        check(b"..\x13ab", &[(Cut, 2, 5)]);
        check(b"\x11a\x12b", &[(Cut, 0, 2), (Cut, 2, 4)]);
        check(b"\x11a\r\x12", &[(Whole, 0, 3), (Cut, 3, 4)]);
    }

    #[test]
    fn a_search_from_a_place_stands_outside_any_frame() {
        let capture = b"\x11a\x12b\r";
        assert_eq!(first_from(capture, 0), Some(found(Cut, 0, 2)));
        assert_eq!(first_from(capture, 1), Some(found(Whole, 2, 5)));
        assert_eq!(first_from(capture, 2), Some(found(Whole, 2, 5)));
        for place in [3, 4, 5, 6, usize::MAX] {
            assert_eq!(first_from(capture, place), None);
        }
    }

    #[test]
    fn the_frames_of_the_example() {
        let capture = b"\x11R 100700000P000002000S\r\x11R A012000411255001000S\r\
                        \x12R SOR10000700015000002000000P000000000000000000  \r";
        check(capture, &[(Whole, 0, 24), (Whole, 24, 48), (Whole, 48, 99)]);
    }

    /// Checked on the bytes alone. Every lead byte begins one frame, and frames begin nowhere else.
    /// A frame has a CR only as its last byte, and then it is whole. What cuts a frame is a lead
    /// byte or the end.
    #[test]
    fn frames_found_are_the_lead_bytes() {
        let mut random = Random::new(1, "finder");
        for _ in 0..2000 {
            let length = random.place(40);
            let capture: Vec<u8> = (0..length)
                .map(|_| random.pick(b"\x11\x12\x13\r\rab\n"))
                .collect();
            let starts: Vec<usize> = frames(&capture).map(|frame| frame.start).collect();
            let leads: Vec<usize> = (0..length).filter(|&at| is_lead(capture[at])).collect();
            assert_eq!(starts, leads, "{}", capture.escape_ascii());
            for frame in frames(&capture) {
                let (last, before) = capture[frame.start..frame.end]
                    .split_last()
                    .expect("a lead byte at least");
                assert_eq!(*last == CR, frame.ending == Whole);
                assert!(!before.contains(&CR));
                let cut_by = capture.get(frame.end).copied();
                assert!(frame.ending == Whole || cut_by.is_none_or(is_lead));
                assert_eq!(frame.next, frame.end);
            }
        }
    }
}
