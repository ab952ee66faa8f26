//! As many replies as there are cells, and more.

use super::{key, keys, requests, Capture, ONE};
use crate::cases::desk::frames::{reply, reply_with_bib, request, Key, E, R, Z};
use crate::cases::dynamic::PLUS;
use crate::desk::SEATS;

const REPLIES: [usize; 4] = [255, 256, 257, 300];

pub fn captures() -> Vec<Capture> {
    let to_one_seat = REPLIES.map(|count| many_replies(count, &[ONE]));
    let spread = REPLIES.map(|count| many_replies(count, &keys(SEATS - 1)));
    [to_one_seat, spread].concat()
}

/// This many replies to these keys in turn, the last of them an E. Then one more request, which
/// needs no cell. Of the replies that follow, the first, a Z, is taken if a cell is left. The
/// others are always refused.
fn many_replies(count: usize, keys: &[Key]) -> Capture {
    let mut capture = requests(keys).concat();
    for number in 1..count {
        let key = keys[number % keys.len()];
        capture.extend(reply_with_bib(R, key, 1_000 - number));
    }
    let ended = keys[0];
    capture.extend(reply_with_bib(E, ended, 1_000));
    let late = key(SEATS);
    capture.extend([request(late), reply(Z, late), reply(R, late)].concat());
    capture.extend(
        [
            reply(Z, ended),
            reply(R, ended),
            reply(R, (b' ', b'z', 999)),
        ]
        .concat(),
    );
    capture.extend(PLUS);
    capture
}

#[cfg(test)]
mod tests {
    use super::*;
    use crate::cases::captures::tests::check_ends;

    /// After 255 replies one more is taken, the Z. All other late replies are refused.
    #[test]
    fn there_are_256_cells() {
        let taken_and_refused = [[256, 4], [256, 5], [256, 6], [256, 49]];
        let one_seat = taken_and_refused.map(|[taken, refused]| [2, taken, 1, refused]);
        let spread = taken_and_refused.map(|[taken, refused]| [16, taken, 1, refused]);
        check_ends(&captures(), &[one_seat, spread].concat());
    }
}
