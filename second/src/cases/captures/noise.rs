//! Bytes that belong to no frame, and every byte value at one place inside a frame.

use super::short::EXAMPLE;
use super::{replies, requests, Capture, ONE, OTHER};
use crate::cases::desk::frames::{reply, reply_with_bib, request, E, R};
use crate::cases::dynamic::PLUS;
use crate::cases::replaced;
use crate::dynamic;
use crate::finder::is_lead;
use crate::reply::at;

pub fn captures() -> Vec<Capture> {
    vec![
        line_feeds(),
        noise_between(&all_but_leads()),
        noise_between(&all_bytes()),
        each_byte_between(),
        each_byte_in_a_reply(),
        each_byte_in_a_dynamic_request(),
        without_lead_bytes(),
    ]
}

fn all_bytes() -> Vec<u8> {
    (0..=u8::MAX).collect()
}

fn all_but_leads() -> Vec<u8> {
    (0..=u8::MAX).filter(|&code| !is_lead(code)).collect()
}

/// An LF after each frame.
fn line_feeds() -> Capture {
    let mut capture = Capture::new();
    for frame in EXAMPLE.into_iter().chain([&PLUS[..]]) {
        capture.extend(frame);
        capture.push(b'\n');
    }
    capture
}

/// The same noise before, between and after some frames.
fn noise_between(noise: &[u8]) -> Capture {
    let mut frames = requests(&[ONE, OTHER]);
    frames.extend(replies(ONE, "RRE"));
    frames.push(PLUS.to_vec());
    frames.extend(replies(OTHER, "Z"));
    [noise, &frames.join(noise), noise].concat()
}

/// After each byte comes a frame: a dynamic request once in four times, otherwise a reply.
fn each_byte_between() -> Capture {
    let mut capture = [request(ONE), request(OTHER)].concat();
    for code in all_bytes() {
        capture.push(code);
        if code % 4 == 0 {
            capture.extend(PLUS);
        } else {
            capture.extend(reply_with_bib(R, OTHER, code.into()));
        }
    }
    capture
}

/// Each byte value as the last raw byte of a reply.
fn each_byte_in_a_reply() -> Capture {
    let mut capture = request(ONE);
    for code in all_bytes() {
        let frame = reply_with_bib(R, ONE, code.into());
        capture.extend(replaced(&frame, at::CR - 1, &[code]));
    }
    [capture, reply(E, ONE)].concat()
}

fn each_byte_in_a_dynamic_request() -> Capture {
    let frames = all_bytes()
        .into_iter()
        .map(|code| replaced(PLUS, dynamic::at::ORDER, &[code]));
    frames.flatten().collect()
}

/// The example without its lead bytes: left out, or replaced by letters, by lead bytes with their
/// top bit set, or by CR and LF.
fn without_lead_bytes() -> Capture {
    let mut capture = Capture::new();
    for lead in [&b""[..], b"H", b"D", b"\x91", b"\x92", b"\x93", b"\r\n"] {
        for frame in EXAMPLE {
            capture.extend(lead);
            capture.extend(&frame[1..]);
        }
    }
    capture
}

#[cfg(test)]
mod tests {
    use super::*;
    use crate::cases::captures::tests::check_ends;

    #[test]
    fn frames_in_noise() {
        assert_eq!(all_but_leads().len(), 253);
        check_ends(
            &captures(),
            &[
                [2, 3, 1, 1],
                [2, 4, 1, 0],
                // Three lead bytes in each of eight stretches of noise, and no frame is lost.
                [2, 4, 1, 3 * 8],
                [2, 192, 64, 3],
                // The 95 raw bytes and a last record are taken. A lead byte inside a frame makes
                // two frames of it.
                [1, 95 + 1, 0, 161 + 3],
                [0, 0, 6, 250 + 3],
                [0, 0, 0, 0],
            ],
        );
    }
}
