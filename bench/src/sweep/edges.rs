//! Replies with fields at their limits, and short captures, which begin and end within a block.

use super::{got, read_by_all, reply_to};
use crate::abi::*;
use crate::compare::same;
use crate::inputs::*;
use crate::random::Random;

/// Fields of a reply at the limits of what is good and beyond them, each with its offset. The numbers 1031 and 65543 end in
/// the same bits as that of seat 0, which is 7.
#[rustfmt::skip]
const FIELDS: [(usize, &[u8]); 53] = [
    (2, b"1"), (2, b"!"),
    (5, b"R"), (5, b"E"), (5, b"Z"), (5, b"F"),
    (7, b"00000"), (7, b"01031"), (7, b"65543"), (7, b"99999"),
    (12, b"59999"), (12, b"60000"),
    (17, b"199"), (17, b"200"),
    (20, b"000"), (20, b"001"), (20, b"250"), (20, b"251"),
    (23, b"000"), (23, b"999"),
    (26, b"240"), (26, b"241"), (26, b"245"), (26, b"248"), (26, b"251"), (26, b"255"), (26, b"256"),
    (29, b"0"), (29, b"1"), (29, b"3"), (29, b"4"), (29, b"a"), (29, b"B"),
    (30, b"0000000000"), (30, b"0000000001"), (30, b"0000010000"), (30, b"2359599999"), (30, b"2400000000"),
    (30, b"0060000000"), (30, b"0000600000"),
    (40, b"00000000"), (40, b"31122099"), (40, b"01012100"), (40, b"01011999"), (40, b"29022000"), (40, b"29022001"),
    (40, b"31042050"), (40, b"32012050"), (40, b"01132050"),
    (40, b"+0000000"), (40, b"-0000000"), (40, b"-0000001"), (40, b"-9999999"),
];

/// Makes all these calls, and returns how many there were.
pub fn all(random: &mut Random) -> usize {
    replies(random) + short_captures(random)
}

/// Replies with two such fields. Each is read, given to a desk, and held by a desk to which another reply is given.
fn replies(random: &mut Random) -> usize {
    let lent = Lent::with(random, 2, 3);
    let any = reply_with(random, key_of_seat(1));
    for kind in [CLOCK, NET, RAW] {
        let good = reply_frame(&with_key(reply(random, kind), key_of_seat(0)));
        for one in FIELDS {
            for other in FIELDS {
                let mut frame = good.clone();
                for (at, text) in [one, other] {
                    frame[at..at + text.len()].copy_from_slice(text);
                }
                read_by_all(&frame);
                reply_to(&lent, &frame);
                let mut holding = lent.clone();
                holding.cells[..CELL_SIZE].copy_from_slice(&frame);
                holding.count_again();
                reply_to(&holding, &any);
            }
        }
    }
    3 * FIELDS.len() * FIELDS.len() * 5
}

/// Captures of a few blocks with up to three bytes that may begin or end a frame. Each is searched from all its places.
fn short_captures(random: &mut Random) -> usize {
    let mut calls = 0;
    for _ in 0..2_000 {
        let mut capture = vec![b' '; 1 + random.below(70)];
        for _ in 0..random.below(4) {
            let place = random.below(capture.len());
            capture[place] = random.one_of(&[0x0c, b'\r', 0x0e, 0x10, 0x11, 0x12, 0x13, 0x14]);
        }
        for at in 0..capture.len() + 2 {
            same(&(&capture, at), |side| got(|answer| side.next_frame(answer, &capture, at)));
        }
        calls += capture.len() + 2;
    }
    calls
}
