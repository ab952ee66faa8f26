//! The frames that scripts use to open requests and to reply. They are built here, without the
//! writers that are compared.

use crate::cases::{self, replaced};
use crate::frame::ADDRESS;
use crate::random::Random;
use crate::reply;
use std::iter;

/// Address, requester and number.
pub type Key = (u8, u8, u32);

/// The statuses of a reply.
pub const R: u8 = b'R';
pub const E: u8 = b'E';
pub const Z: u8 = b'Z';

pub fn request(key: Key) -> Vec<u8> {
    request_for(key, b'P')
}

/// A request for this information.
pub fn request_for((address, requester, number): Key, information: u8) -> Vec<u8> {
    let mut frame = b"\x11R".to_vec();
    frame.extend([address, requester]);
    frame.extend(format!("{number:03}00000").bytes());
    frame.push(information);
    frame.extend(b"000002000S\r");
    frame
}

pub fn reply(status: u8, key: Key) -> Vec<u8> {
    reply_with_bib(status, key, 15)
}

/// A reply with this bib. Different bibs make replies distinguishable.
pub fn reply_with_bib(status: u8, (address, requester, number): Key, bib: usize) -> Vec<u8> {
    let mut frame = b"\x12R".to_vec();
    frame.extend([address, b'S', b'O', status, requester]);
    frame.extend(format!("{number:05}{bib:05}").bytes());
    frame.extend(b"000002000000P000000000000000000  \r");
    frame
}

/// The row of the tally for the letter that most of these frames have.
pub const ROW_OF_P: usize = 12;

/// A reply with this letter, and with a time and a date that suit it.
pub fn reply_for(status: u8, key: Key, letter: u8) -> Vec<u8> {
    let date: &[u8; 8] = match letter {
        letter if reply::CLOCK_LETTERS.contains(&letter) => b"01012000",
        letter if reply::NET_LETTERS.contains(&letter) => b"+0000000",
        _ => b"00000000",
    };
    let mut frame = reply(status, key);
    frame[reply::at::INFORMATION] = letter;
    frame[reply::at::DATE..reply::at::SPARE].copy_from_slice(date);
    frame
}

/// A reply with this status to this key. All its other fields are random.
pub fn random_reply(random: &mut Random, status: u8, key: Key) -> Vec<u8> {
    let mut record = iter::repeat_with(|| cases::reply::random_record(random))
        .find(|record| record.status == status)
        .expect("each status comes");
    let (address, requester, number) = key;
    record.address = address;
    record.requester = requester;
    record.number = number.into();
    cases::reply::frame_of(&record)
}

/// A reply of status R to this key, with minus and no days. Half the time its time is zero too, and
/// then it is wrong.
pub fn random_minus_zero(random: &mut Random, key: Key) -> Vec<u8> {
    let mut frame = random_reply(random, R, key);
    cases::reply::put_minus_zero(&mut frame, random);
    frame
}

/// A request with this key. All its other fields are random. To one in 41 no answer is due.
pub fn random_request(random: &mut Random, (address, requester, number): Key) -> Vec<u8> {
    let mut record = cases::request::random_record(random);
    record.address = address;
    record.requester = requester;
    record.number = number.into();
    cases::request::frame_of(&record)
}

/// Bytes to put at a place of a frame.
pub type Patch = (usize, &'static [u8]);

/// Changes that make a request wrong. Each of KIND, END, ADDRESS and FIELD occurs.
pub const REQUEST_DAMAGES: [Patch; 17] = [
    (0, b"\x12"),
    (0, b"\x13"),
    (0, b"H"),
    (23, b"\n"),
    (23, b"\0"),
    (1, b"r"),
    (ADDRESS, b"-"),
    (3, b"["),
    (4, b"0 7"),
    (7, b"60000"),
    (12, b"B"),
    (13, b"250"),
    (16, b"251"),
    (19, b"200"),
    (22, b"C"),
    // The letter that no answer is due to, together with a wrong field.
    (12, b"q250"),
    (12, b"q000002000s"),
];

/// Changes that make a reply of status R wrong. Each of KIND, END, ADDRESS and FIELD occurs.
pub const REPLY_DAMAGES: [Patch; 26] = [
    (0, b"\x11"),
    (0, b"\x13"),
    (0, b"H"),
    (reply::at::CR, b"\n"),
    (reply::at::CR, b"\0"),
    (1, b"r"),
    (reply::at::ADDRESS, b"-"),
    (reply::at::PROGRAM, b"\x1f"),
    (reply::at::MODE, b"\x7f"),
    (reply::at::STATUS, b"r"),
    (reply::at::STATUS, b"S"),
    (reply::at::REQUESTER, b"["),
    (reply::at::NUMBER, b"0000 "),
    (reply::at::BIB, b"60000"),
    (reply::at::GROUP, b"200"),
    (reply::at::RUN, b"000"),
    (reply::at::RUN, b"251"),
    (reply::at::PHYSICAL, b"0-1"),
    (reply::at::CHANNEL, b"251"),
    (reply::at::INFORMATION, b"L"),
    (reply::at::TIME, b"\x1f"),
    (reply::at::DATE, b"0000000\x7f"),
    (reply::at::SPARE, b" \x80"),
    // Clock and net letters, with a time or a date that does not suit them.
    (reply::at::INFORMATION, b"K240000000029022024"),
    (reply::at::INFORMATION, b"K235959999929022023"),
    (reply::at::INFORMATION, b"1000000000000000000"),
];

pub fn patched(frame: &[u8], (place, text): Patch) -> Vec<u8> {
    replaced(frame, place, text)
}

/// No bytes at all, only a lead byte, and a frame that is one byte too short and one that is one
/// byte too long. The last two end with CR.
pub fn of_wrong_length(frame: &[u8]) -> [Vec<u8>; 4] {
    let (_, fields) = frame.split_last().expect("a frame has bytes");
    let (_, shorter) = fields.split_last().expect("a frame has fields");
    [
        Vec::new(),
        frame[..1].to_vec(),
        [shorter, b"\r"].concat(),
        [fields, b"0\r"].concat(),
    ]
}

#[cfg(test)]
mod tests {
    use super::*;
    use crate::frame::Kind;
    use crate::refusal::Refusal;
    use crate::reply::Reply;
    use crate::request::Request;

    #[test]
    fn frames_are_good_and_have_their_key() {
        for address in *b" 09" {
            let record = Request::read(&request((address, b'z', 999))).expect("a request");
            assert_eq!(record.address, address);
            assert_eq!((record.requester, record.number), (b'z', 999));
        }
        for (status, address) in [(R, b' '), (E, b'0'), (Z, b'9')] {
            let frame = reply_with_bib(status, (address, b'a', 99_999), 59_999);
            let record = Reply::read(&frame).expect("a reply");
            assert_eq!(record.address, address);
            assert_eq!((record.requester, record.number), (b'a', 99_999));
            assert_eq!((record.status, record.bib), (status, 59_999));
        }
    }

    #[test]
    fn every_letter_has_a_good_reply() {
        assert_eq!(reply::INFORMATION[ROW_OF_P], b'P');
        for &letter in reply::INFORMATION {
            for status in [R, E, Z] {
                let frame = reply_for(status, (b' ', b'1', 7), letter);
                let record = Reply::read(&frame).expect("a reply");
                assert_eq!((record.status, record.information), (status, letter));
            }
        }
    }

    /// Each of these refusals occurs, and FIELD with each of these offsets.
    fn check_refusals(refusals: &[Option<Refusal>], offsets: &[usize]) {
        assert!(refusals.iter().all(Option::is_some));
        for refusal in [Refusal::Kind, Refusal::End, Refusal::Address] {
            assert!(refusals.contains(&Some(refusal)));
        }
        for &offset in offsets {
            let is_there = |refusal: &Refusal| (refusal.number(), refusal.offset()) == (5, offset);
            assert!(refusals.iter().flatten().any(is_there), "{offset}");
        }
    }

    #[test]
    fn damages_reach_every_refusal() {
        let request = request((b' ', b'1', 7));
        let refusals =
            REQUEST_DAMAGES.map(|damage| Request::read(&patched(&request, damage)).err());
        check_refusals(&refusals, &[3, 4, 7, 12, 13, 16, 19, 22]);
        let reply = reply(R, (b' ', b'1', 7));
        let refusals = REPLY_DAMAGES.map(|damage| Reply::read(&patched(&reply, damage)).err());
        check_refusals(
            &refusals,
            &[3, 4, 5, 6, 7, 12, 17, 20, 23, 26, 29, 30, 40, 48],
        );
    }

    #[test]
    fn wrong_lengths() {
        let [none, lead, shorter, longer] = of_wrong_length(&reply(R, (b' ', b'1', 7)));
        assert_eq!(Reply::read(&none), Err(Refusal::Kind));
        assert_eq!([lead.len(), shorter.len(), longer.len()], [1, 50, 52]);
        for frame in [lead, shorter, longer] {
            assert_eq!(Reply::read(&frame), Err(Refusal::Length));
        }
    }
}
