//! Two stopwatches or more on one line: frames that differ in the address, and bytes that are no
//! address.

use super::{replies, requests, Capture, Frames, ONE};
use crate::cases::desk::frames::{reply, reply_with_bib, request, Key, E, R, Z};
use crate::cases::dynamic::PLUS;
use crate::cases::frames::ADDRESSES;
use crate::cases::replaced;
use crate::frame::ADDRESS;

pub fn captures() -> Vec<Capture> {
    vec![
        two_in_turns("RRE", "RRE"),
        two_in_turns("Z", "RRRE"),
        eleven(),
        strays(),
        more_than_the_seats(),
        many_bytes(&request(ONE)),
        many_bytes(&reply(R, ONE)),
        many_bytes(PLUS),
    ]
}

/// The key of `ONE` under this address.
fn key_with(address: u8) -> Key {
    let (_, requester, number) = ONE;
    (address, requester, number)
}

fn all_keys() -> [Key; 11] {
    ADDRESSES.map(key_with)
}

/// Two stopwatches answer requests of one requester and number. Their replies come in turns, the
/// second's first.
fn two_in_turns(first: &str, second: &str) -> Capture {
    let keys = [key_with(b' '), key_with(b'0')];
    let (first, second) = (replies(keys[0], first), replies(keys[1], second));
    let mut frames: Frames = requests(&keys);
    for turn in 0..first.len().max(second.len()) {
        frames.extend(second.get(turn).cloned());
        frames.extend(first.get(turn).cloned());
    }
    frames.concat()
}

/// A request under each address, and each again. Then a record of each, the last address first, and
/// the last record of each.
fn eleven() -> Capture {
    let keys = all_keys();
    let mut frames = requests(&keys);
    frames.extend(requests(&keys));
    for (bib, &key) in keys.iter().enumerate().rev() {
        frames.push(reply_with_bib(R, key, bib));
    }
    for key in keys {
        frames.push(reply(E, key));
    }
    frames.concat()
}

/// Two addresses have a request, and the replies of all others are strays. After one more request
/// its reply is taken.
fn strays() -> Capture {
    let mut frames = requests(&[key_with(b'3'), key_with(b' ')]);
    frames.extend(all_keys().map(|key| reply(R, key)));
    frames.push(request(key_with(b'0')));
    frames.extend(all_keys().map(|key| reply(Z, key)));
    frames.concat()
}

/// Each address has requests of two requesters. These are more than there are seats. Then comes a
/// reply to each of them.
fn more_than_the_seats() -> Capture {
    let keys: Vec<Key> = ADDRESSES
        .iter()
        .flat_map(|&address| [(address, b'1', 7), (address, b'A', 7)])
        .collect();
    let replies: Frames = keys.iter().rev().map(|&key| reply(E, key)).collect();
    [requests(&keys).concat(), replies.concat()].concat()
}

/// The frame with many bytes as its address, the highest first: all bytes near an address, and one
/// in sixteen of the others. None of them cuts or ends a frame. Before them comes a request.
fn many_bytes(frame: &[u8]) -> Capture {
    let is_near = |code: u8| (0x1c..=0x42).contains(&code);
    let frames = (0..=u8::MAX)
        .rev()
        .filter(|&code| is_near(code) || code.is_multiple_of(16))
        .map(|code| replaced(frame, ADDRESS, &[code]));
    [request(ONE), frames.flatten().collect()].concat()
}

#[cfg(test)]
mod tests {
    use super::*;
    use crate::cases::captures::tests::{check_ends, seats_of_rows};

    #[test]
    fn addresses_are_told_apart() {
        // The bytes from 1Ch to 42h, and the thirteen others.
        let many = 39 + 13;
        check_ends(
            &captures(),
            &[
                [2, 6, 0, 0],
                [2, 5, 0, 0],
                [11, 22, 0, 11],
                [3, 2 + 1, 0, 9 + 10],
                [16, 16, 0, 6 + 6],
                // The first request is opened already.
                [1 + 10, 0, 0, many - 10],
                [1, 1, 0, many - 1],
                [1, 0, 11, many - 11],
            ],
        );
    }

    #[test]
    fn each_stopwatch_has_its_rows() {
        let captures = captures();
        assert_eq!(seats_of_rows(&captures[0]), [0, 0, 0, 1, 1, 1]);
        assert_eq!(seats_of_rows(&captures[1]), [0, 1, 1, 1, 1]);
        let two_each: Vec<usize> = (0..22).map(|row| row / 2).collect();
        assert_eq!(seats_of_rows(&captures[2]), two_each);
    }
}
