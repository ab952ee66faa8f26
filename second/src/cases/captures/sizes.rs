//! Captures about as long as the longest one that has a list.

use super::{counts, key, keys, requests, Capture};
use crate::cases::desk::frames::{reply_with_bib, R};
use crate::cases::dynamic::{MINUS, PLUS};
use crate::desk::SEATS;
use crate::listing::MOST_BYTES;

/// The last two are too long.
const LENGTHS: [usize; 4] = [MOST_BYTES - 1, MOST_BYTES, MOST_BYTES + 1, 40_000];

pub fn captures() -> Vec<Capture> {
    let mut captures = LENGTHS.map(filled).to_vec();
    captures.push(counts::leads(MOST_BYTES));
    captures
}

/// A capture of exactly this length. Its last byte is the CR of a dynamic request, so one byte less
/// would mean one frame less.
fn filled(length: usize) -> Capture {
    let last = PLUS;
    let mut capture = requests(&keys(SEATS)).concat();
    for turn in 0.. {
        let frames = frames_of_turn(turn);
        if capture.len() + frames.len() + last.len() > length {
            break;
        }
        capture.extend(frames);
    }
    capture.resize(length - last.len(), b'\n');
    capture.extend(last);
    capture
}

/// A reply and two dynamic requests, which take no cell. This way there are enough cells for all
/// replies.
fn frames_of_turn(turn: usize) -> Vec<u8> {
    let reply = reply_with_bib(R, key(turn % SEATS), turn);
    [&reply[..], PLUS, b"\r\n", MINUS].concat()
}

#[cfg(test)]
mod tests {
    use super::*;
    use crate::cases::captures::tests::check_ends;
    use crate::listing;

    #[test]
    fn lengths_are_exact() {
        let lengths: Vec<usize> = captures().iter().map(Vec::len).collect();
        assert_eq!(lengths, [32_767, 32_768, 32_769, 40_000, 32_768]);
    }

    #[test]
    fn the_longest_have_a_list() {
        let captures = captures();
        let (listed, too_long) = captures.split_at(2);
        check_ends(listed, &[[16, 223, 447, 0], [16, 223, 447, 0]]);
        for capture in &too_long[..2] {
            assert_eq!(listing::list(capture), b"input too long\n");
        }
        check_ends(&too_long[2..], &[[0, 0, 0, MOST_BYTES]]);
    }
}
