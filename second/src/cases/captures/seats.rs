//! As many requests as there are seats, and more.

use super::{key, keys, replies, requests, Capture};
use crate::cases::desk::frames::{reply, reply_with_bib, request, E, R, Z};
use crate::desk::SEATS;

/// One more than there are seats.
const SEVENTEEN: usize = SEATS + 1;

pub fn captures() -> Vec<Capture> {
    let rising: Vec<usize> = (0..SEVENTEEN).collect();
    let falling: Vec<usize> = (0..SEVENTEEN).rev().collect();
    vec![
        seventeen_requests(),
        replies_in_order(&rising),
        replies_in_order(&falling),
        two_digit_seats(),
        all_ended(),
    ]
}

fn seventeen_requests() -> Capture {
    requests(&keys(SEVENTEEN)).concat()
}

/// A record for each request in this order, then the last record of each.
fn replies_in_order(order: &[usize]) -> Capture {
    let mut capture = seventeen_requests();
    for status in [R, E] {
        for &place in order {
            capture.extend(reply_with_bib(status, key(place), place));
        }
    }
    capture
}

/// Replies to the last seat with one digit and to those with two digits, the highest seat first.
fn two_digit_seats() -> Capture {
    let mut capture = seventeen_requests();
    for place in (9..SEATS).rev() {
        capture.extend(replies(key(place), "RRRE").concat());
    }
    capture
}

/// A seat that has ended does not become free again.
fn all_ended() -> Capture {
    let mut capture = requests(&keys(SEATS)).concat();
    for place in 0..SEATS {
        let status = if place % 2 == 0 { Z } else { E };
        capture.extend(reply(status, key(place)));
        capture.extend(request(key(SEATS + place)));
        capture.extend(request(key(place)));
    }
    capture
}

#[cfg(test)]
mod tests {
    use super::*;
    use crate::cases::captures::tests::{check_ends, seats_of_rows};

    #[test]
    fn there_are_sixteen_seats() {
        let records = 2 * SEATS;
        check_ends(
            &captures(),
            &[
                [16, 0, 0, 1],
                [16, records, 0, 3],
                [16, records, 0, 3],
                [16, 28, 0, 1],
                [16, 16, 0, 32],
            ],
        );
    }

    #[test]
    fn each_seat_has_its_rows() {
        let captures = captures();
        let two_each: Vec<usize> = (0..2 * SEATS).map(|row| row / 2).collect();
        assert_eq!(seats_of_rows(&captures[1]), two_each);
        assert_eq!(seats_of_rows(&captures[2]), two_each);
        let four_each: Vec<usize> = (4 * 9..4 * SEATS).map(|row| row / 4).collect();
        assert_eq!(seats_of_rows(&captures[3]), four_each);
    }
}
