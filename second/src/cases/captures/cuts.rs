//! Frames that do not reach their CR, or that have a CR too early.

use super::{Capture, ONE, OTHER};
use crate::cases::desk::frames::{reply, request, E, R};
use crate::cases::dynamic::PLUS;
use crate::cases::replaced;

const LEADS: [u8; 3] = [0x11, 0x12, 0x13];

pub fn captures() -> Vec<Capture> {
    vec![
        cut_at_every_length(&request(ONE)),
        cut_at_every_length(&reply(R, ONE)),
        cut_at_every_length(PLUS),
        cut_by_the_end(1),
        cut_by_the_end(50),
        leads_back_to_back(),
        a_lead_at_every_place(),
        a_cr_at_every_place(),
    ]
}

/// Every beginning of a frame, each cut by the whole frame after it.
fn cut_at_every_length(frame: &[u8]) -> Capture {
    let mut capture = [request(ONE), reply(R, ONE)].concat();
    for length in 1..frame.len() {
        capture.extend(&frame[..length]);
        capture.extend(frame);
    }
    capture
}

/// The last frame is cut by the end. It would be taken if it were whole.
fn cut_by_the_end(length: usize) -> Capture {
    let last = reply(E, ONE);
    [&request(ONE)[..], &reply(R, ONE), &last[..length]].concat()
}

/// Every pair of lead bytes before a good frame of each kind, and three lead bytes before a CR.
fn leads_back_to_back() -> Capture {
    let frames = [request(ONE), reply(R, ONE), PLUS.to_vec()];
    let mut capture = Capture::new();
    for first in LEADS {
        for second in LEADS {
            for frame in &frames {
                capture.extend([first, second]);
                capture.extend(frame);
            }
            capture.extend([first, second, first, b'\r']);
        }
    }
    capture
}

/// A reply in which each byte in turn is replaced by a lead byte, including its CR.
fn a_lead_at_every_place() -> Capture {
    let mut capture = [request(ONE), request(OTHER)].concat();
    let frame = reply(R, OTHER);
    for place in 0..frame.len() {
        capture.extend(replaced(&frame, place, &[LEADS[place % LEADS.len()]]));
    }
    [capture, frame].concat()
}

/// A reply and a dynamic request in which each byte in turn is replaced by a CR.
fn a_cr_at_every_place() -> Capture {
    let mut capture = request(OTHER);
    for frame in [reply(R, OTHER), PLUS.to_vec()] {
        for place in 0..frame.len() {
            capture.extend(replaced(&frame, place, b"\r"));
        }
    }
    capture
}

#[cfg(test)]
mod tests {
    use super::*;
    use crate::cases::captures::tests::check_ends;

    #[test]
    fn whole_frames_among_cut_ones() {
        check_ends(
            &captures(),
            &[
                // The key is already in use before the first cut.
                [1, 1, 0, 2 * 23],
                [1, 1 + 50, 0, 50],
                [1, 1, 45, 45],
                [1, 1, 0, 1],
                [1, 1, 0, 1],
                // Of nine requests one is opened. With each pair nine more lead bytes are refused.
                [1, 9, 9, 8 + 9 * 9],
                // One frame gets another lead byte. All the others become two frames.
                [2, 1, 0, 1 + 2 * 50],
                // If the lead byte is replaced there is no frame. If the CR is replaced the frame
                // is good.
                [1, 1, 1, 49 + 44],
            ],
        );
    }
}
