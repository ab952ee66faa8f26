//! Whole frames that are refused, together with some that are not.

use super::{replies, Capture, Frames, ONE, OTHER};
use crate::cases::desk::frames::{
    of_wrong_length, patched, reply, request, request_for, Key, E, R, REPLY_DAMAGES,
    REQUEST_DAMAGES, Z,
};
use crate::cases::dynamic::{MINUS, MINUS_ZERO, NUMBERS, PLUS, WRONG_FIELDS};
use crate::cases::frames::{with_number_edges, with_surround_faults};
use crate::cases::replaced;
use crate::dynamic::{at, ORDERS};

pub fn captures() -> Vec<Capture> {
    vec![
        strays(),
        numbers_above_999(),
        damaged_requests(),
        damaged_replies(ONE),
        damaged_replies((b' ', b'z', 999)),
        wrong_lengths(),
        dynamic_requests(),
        wrong_dynamic_requests(),
        dynamic_edges(),
        no_answer_due(),
        after_the_end(),
        out_of_place(),
    ]
}

/// Replies whose key no request has. Most of them share the requester or the number of a request.
fn strays() -> Capture {
    let mut capture = [request(ONE), request(OTHER)].concat();
    for stray in [
        (b' ', b'1', 12),
        (b' ', b'A', 7),
        (b' ', b'a', 12),
        (b' ', b'0', 7),
        (b' ', b'1', 70),
        (b' ', b'1', 0),
        (b' ', b'z', 999),
    ] {
        for status in [R, E, Z] {
            capture.extend(reply(status, stray));
        }
    }
    capture.extend(replies(OTHER, "RE").concat());
    capture.extend(replies(ONE, "Z").concat());
    capture
}

/// No request has such a number. Some of them would match a request if cut to three digits or to
/// sixteen bits.
fn numbers_above_999() -> Capture {
    let mut capture = [
        request(ONE),
        request((b' ', b'A', 999)),
        request((b' ', b'z', 0)),
    ]
    .concat();
    for requester in *b"1Az" {
        for number in [
            1_000, 1_007, 1_999, 7_000, 10_007, 65_536, 65_543, 66_535, 99_999,
        ] {
            capture.extend(reply(R, (b' ', requester, number)));
        }
    }
    for key in [(b' ', b'z', 0), (b' ', b'A', 999), ONE] {
        capture.extend(reply(E, key));
    }
    capture
}

/// A frame with each damage, then the frame without damage.
fn damaged_requests() -> Capture {
    let frame = request(ONE);
    let mut damaged: Frames = REQUEST_DAMAGES
        .iter()
        .map(|&damage| patched(&frame, damage))
        .collect();
    damaged.extend(with_surround_faults(&frame, b"\x10\x14\x91"));
    [damaged.concat(), frame, reply(E, ONE)].concat()
}

/// Damaged replies to this key, with one request open. A good reply is between any two of them. It
/// ends the bytes of a frame that has lost its lead byte or its CR.
fn damaged_replies(key: Key) -> Capture {
    let frame = reply(R, key);
    let mut damaged: Frames = REPLY_DAMAGES
        .iter()
        .map(|&damage| patched(&frame, damage))
        .collect();
    damaged.extend(with_surround_faults(&frame, b"\x10\x14\x92"));
    let good = reply(R, ONE);
    [request(ONE), good.clone(), damaged.join(&good[..]), good].concat()
}

/// Frames of each kind that are too short or too long, a lead byte followed by a CR, and a frame of
/// each kind with each of the three lead bytes.
fn wrong_lengths() -> Capture {
    let frames = [request(ONE), reply(R, OTHER), PLUS.to_vec()];
    let mut capture = request(OTHER);
    for frame in &frames {
        capture.extend(of_wrong_length(frame).concat());
        capture.extend([frame[0], b'\r']);
        for lead in [0x11, 0x12, 0x13] {
            capture.extend(replaced(frame, 0, &[lead]));
        }
    }
    let long = [&b"\x12"[..], &[b'0'; 300], b"\r"].concat();
    [capture, long, reply(R, ONE)].concat()
}

/// Good dynamic requests, some before the first request and some twice.
fn dynamic_requests() -> Capture {
    let mut capture = [*PLUS, *MINUS, *MINUS_ZERO, *PLUS].concat();
    capture.extend(request(ONE));
    for &order in ORDERS {
        capture.extend(replaced(PLUS, at::ORDER, &[order]));
    }
    capture.extend(reply(E, ONE));
    capture.extend(replaced(PLUS, at::BIB, b"60000"));
    capture
}

/// A dynamic request for each wrong field, each followed by a good one. Then those with something
/// wrong around the fields.
fn wrong_dynamic_requests() -> Capture {
    let mut capture = Capture::new();
    for (offset, wrong) in WRONG_FIELDS {
        capture.extend(replaced(PLUS, offset, wrong));
        capture.extend(MINUS);
    }
    let around = with_surround_faults(MINUS, b"\x10\x14\x93");
    [capture, around.concat()].concat()
}

/// Dynamic requests with each number on both sides of its limits.
fn dynamic_edges() -> Capture {
    with_number_edges(MINUS, &NUMBERS).concat()
}

/// The letter that no answer is due to, with a free key and with a key in use, and replies to it.
fn no_answer_due() -> Capture {
    [
        request_for(ONE, b'q'),
        reply(R, ONE),
        request(OTHER),
        request_for(OTHER, b'q'),
        reply(R, OTHER),
        request(ONE),
        request_for(ONE, b'q'),
        reply(Z, ONE),
    ]
    .concat()
}

/// Every status after R and E, after a Z, and after an E that came first.
fn after_the_end() -> Capture {
    let third = (b' ', b'z', 999);
    [
        request(ONE),
        request(OTHER),
        request(third),
        replies(ONE, "REREZ").concat(),
        replies(OTHER, "ZREZ").concat(),
        replies(third, "EREZ").concat(),
        replies(ONE, "R").concat(),
    ]
    .concat()
}

/// A Z after records. For one of the two requests, records go on after it.
fn out_of_place() -> Capture {
    [
        request(ONE),
        request(OTHER),
        replies(ONE, "RZRZZE").concat(),
        replies(OTHER, "RZ").concat(),
    ]
    .concat()
}

#[cfg(test)]
mod tests {
    use super::*;
    use crate::cases::captures::tests::check_ends;

    #[test]
    fn what_is_turned_away() {
        check_ends(
            &captures(),
            &[
                [2, 3, 0, 21],
                [3, 3, 0, 27],
                // Frames that have lost their lead byte are not frames.
                [1, 1, 0, 16 + 19],
                [1, 49, 0, 25 + 19],
                [1, 49, 0, 25 + 19],
                [2, 2, 1, 3 * 6 + 1],
                [1, 1, 11, 0],
                [0, 0, 13, 13 + 19],
                [0, 0, 34, 35],
                [2, 2, 0, 4],
                [3, 4, 0, 10],
                [2, 4, 0, 4],
            ],
        );
    }
}
