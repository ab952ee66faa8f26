//! Net replies with a minus, with days and without.

use super::{Capture, ONE, OTHER};
use crate::cases::desk::frames::{reply_with_bib, request, Key, E, R, Z};
use crate::cases::replaced;
use crate::reply::{at, CLOCK_LETTERS, NET_LETTERS};

/// Time and date with a minus. The first is wrong in a net reply.
const SIGNED: [&[u8]; 7] = [
    b"0000000000-0000000",
    b"0000000001-0000000",
    b"0000010000-0000000",
    b"2359599999-0000000",
    b"0000000000-0000001",
    b"2359590000-0000001",
    b"2359599999-9999999",
];

pub fn captures() -> Vec<Capture> {
    vec![one_second_behind(), all_signed()]
}

/// A reply with this letter, time and date. Its bib tells it apart from others.
fn timed(status: u8, key: Key, bib: usize, letter: u8, timing: &[u8]) -> Vec<u8> {
    let frame = reply_with_bib(status, key, bib);
    let frame = replaced(&frame, at::INFORMATION, &[letter]);
    replaced(&frame, at::TIME, timing)
}

/// Two skiers on a dual slalom, the second one second behind. A third has the time of the first, and
/// the minus is then wrong.
fn one_second_behind() -> Capture {
    [
        request(ONE),
        timed(R, ONE, 3, b'1', b"0000000000+0000000"),
        timed(R, ONE, 2, b'1', b"0000010000-0000000"),
        timed(R, ONE, 1, b'1', b"0000000000-0000000"),
        timed(E, ONE, 1, b'1', b"0000000000+0000000"),
    ]
    .concat()
}

/// Each text under each net letter, then under a clock letter and a raw letter, and last as the only
/// record of a reply that is not available.
fn all_signed() -> Capture {
    let mut capture = [request(ONE), request(OTHER)].concat();
    for (turn, timing) in SIGNED.into_iter().enumerate() {
        let clock = CLOCK_LETTERS[turn % CLOCK_LETTERS.len()];
        let letters = NET_LETTERS.iter().copied().chain([clock, b'P']);
        for (number, letter) in letters.enumerate() {
            let bib = 100 - 10 * turn + number;
            capture.extend(timed(R, ONE, bib, letter, timing));
        }
    }
    capture.extend(timed(Z, OTHER, 0, b'1', SIGNED[0]));
    capture
}

#[cfg(test)]
mod tests {
    use super::*;
    use crate::cases::captures::tests::check_ends;
    use crate::listing;

    #[test]
    fn minus_zero_is_refused_and_the_others_are_not() {
        let texts = SIGNED.len();
        // Of the five replies with a text, the one with a clock letter is always refused.
        let taken = 4 * texts - NET_LETTERS.len() + 1;
        let refused = texts + NET_LETTERS.len();
        let expected = [[1, 3, 0, 1], [2, taken, 0, refused]];
        check_ends(&captures(), &expected);
    }

    /// The list shows time and date as the frame has them.
    #[test]
    fn the_list_of_one_second_behind() {
        let list = String::from_utf8(listing::list(&one_second_behind())).expect("text");
        let rows: Vec<&str> = list.lines().skip(1).collect();
        let begin = "0\t1\t-\t007";
        let between = "000\t002\t000\t000\t1";
        let expected = [
            format!("{begin}\t00003\t{between}\t0000000000\t+0000000\tR"),
            format!("{begin}\t00002\t{between}\t0000010000\t-0000000\tR"),
            format!("{begin}\t00001\t{between}\t0000000000\t+0000000\tE"),
            "end\t1\t3\t0\t1".to_string(),
        ];
        assert_eq!(rows, expected);
    }
}
