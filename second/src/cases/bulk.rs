//! Frames in bulk: for each seed a piece of cases that ask about a given number of frames. The
//! scripts and captures in bulk are in `desk::bulk` and `captures::bulk`.

mod bounds;
mod damages;
mod reads;

use super::frames::Number;
use super::spoiled::{self, Field};
use super::{dynamic, reply, request};
use crate::random::Random;

/// How many values a damage case puts at each place.
const VALUES: u64 = 256;

/// Damage cases ask about at most one in `DAMAGES_ONE_IN` frames of a piece. There is one write for
/// every `WRITES_ONE_IN` frames.
const DAMAGES_ONE_IN: u64 = 2;
const WRITES_ONE_IN: u64 = 50;

/// How frames and records of one kind are made.
struct Maker {
    /// How the words of its cases end.
    word: &'static str,
    numbers: &'static [Number],
    /// The offsets of the address and of the fields that are one letter each.
    letters: &'static [usize],
    /// The fields of several bytes.
    fields: &'static [Field],
    /// A good frame.
    good: fn(&mut Random) -> Vec<u8>,
    /// A frame with no, one or several random changes.
    befallen: fn(&mut Random) -> Vec<u8>,
    /// Puts times and dates, and the fields that belong to them, at their bounds.
    put_times: fn(&mut [u8], &mut Random),
    write: fn(&mut Random) -> String,
}

const MAKERS: [&Maker; 3] = [&REQUEST, &REPLY, &DYNAMIC];

const REQUEST: Maker = Maker {
    word: "request",
    numbers: &request::NUMBERS,
    letters: &[
        crate::request::at::ADDRESS,
        crate::request::at::REQUESTER,
        crate::request::at::INFORMATION,
        crate::request::at::OUTPUT,
    ],
    fields: &spoiled::request::FIELDS,
    good: |random| request::frame_of(&request::random_record(random)),
    befallen: request::random_frame,
    put_times: bounds::put_times_of_request,
    write: request::random_write,
};

const REPLY: Maker = Maker {
    word: "reply",
    numbers: &reply::NUMBERS,
    letters: &[
        crate::reply::at::ADDRESS,
        crate::reply::at::PROGRAM,
        crate::reply::at::MODE,
        crate::reply::at::STATUS,
        crate::reply::at::REQUESTER,
        crate::reply::at::INFORMATION,
    ],
    fields: &spoiled::reply::FIELDS,
    good: |random| reply::frame_of(&reply::random_record(random)),
    befallen: reply::random_frame,
    put_times: bounds::put_times_of_reply,
    write: reply::random_write,
};

const DYNAMIC: Maker = Maker {
    word: "dynamic",
    numbers: &dynamic::NUMBERS,
    letters: &[
        crate::dynamic::at::ADDRESS,
        crate::dynamic::at::REQUESTER,
        crate::dynamic::at::ORDER,
        crate::dynamic::at::OUTPUT,
    ],
    fields: &spoiled::dynamic::FIELDS,
    good: |random| dynamic::frame_of(&dynamic::random_record(random)),
    befallen: dynamic::random_frame,
    put_times: bounds::put_times_of_dynamic,
    write: dynamic::random_write,
};

/// The cases of one piece. They ask about exactly this many frames. Some writes are added.
pub fn piece(seed: u64, frames: u64) -> Vec<String> {
    let mut random = Random::new(seed, "bulk frames");
    let mut cases = damages::cases(&mut random, frames / DAMAGES_ONE_IN);
    let damaged: u64 = cases.iter().map(|case| frames_asked(case)).sum();
    cases.extend((damaged..frames).map(|_| reads::case(&mut random)));
    for _ in 0..frames / WRITES_ONE_IN {
        let maker = random.pick(&MAKERS);
        cases.push((maker.write)(&mut random));
    }
    cases
}

/// How many frames a case asks a reader about.
fn frames_asked(case: &str) -> u64 {
    match case.split_once(' ') {
        Some((word, "-")) if word.starts_with("damage-") => 0,
        Some((word, bytes)) if word.starts_with("damage-") => VALUES * (bytes.len() / 2) as u64,
        Some((word, _)) if word.starts_with("read-") => 1,
        _ => 0,
    }
}

#[cfg(test)]
mod tests {
    use super::*;
    use crate::answers;
    use crate::bulk::tally::Tally;
    use crate::frame::Kind;
    use crate::reply::Reply;
    use crate::spelling::parse_bytes;
    use std::collections::BTreeSet;

    #[test]
    fn frames_that_cases_ask_about() {
        assert_eq!(frames_asked("damage-request 1152"), 512);
        assert_eq!(frames_asked("damage-reply -"), 0);
        assert_eq!(frames_asked("read-reply-value -"), 1);
        assert_eq!(frames_asked("write-request 0 1 2 3 4 5 6 7 8 9"), 0);
        assert_eq!(frames_asked("used"), 0);
    }

    fn frames_of(cases: &[String]) -> u64 {
        cases.iter().map(|case| frames_asked(case)).sum()
    }

    #[test]
    fn a_piece_has_the_frames_it_says() {
        for frames in [0, 1, 2, 49, 5_000, 12_287, 12_288, 60_000] {
            let cases = piece(1, frames);
            assert_eq!(frames_of(&cases), frames);
            let writes = cases.iter().filter(|case| case.starts_with("write-"));
            assert_eq!(writes.count() as u64, frames / 50);
        }
    }

    #[test]
    fn a_seed_gives_the_same_piece() {
        assert_eq!(piece(1, 20_000), piece(1, 20_000));
        assert_ne!(piece(1, 20_000), piece(2, 20_000));
    }

    #[test]
    fn every_word_comes() {
        let cases = piece(1, 100_000);
        let words: BTreeSet<&str> = cases
            .iter()
            .filter_map(|case| case.split(' ').next())
            .collect();
        let expected = BTreeSet::from([
            "damage-request",
            "damage-reply",
            "damage-dynamic",
            "read-request",
            "read-reply",
            "read-reply-value",
            "read-dynamic",
            "write-request",
            "write-reply",
            "write-reply-value",
            "write-dynamic",
        ]);
        assert_eq!(words, expected);
    }

    /// More than a tenth of the net replies that are read have minus and no days with a time, and
    /// more than one in thirty without.
    #[test]
    fn minus_zero_comes_often() {
        use crate::reply::{at, NET_LETTERS};
        let cases = piece(1, 20_000);
        let frames = cases
            .iter()
            .filter_map(|case| case.split_once(' '))
            .filter(|(word, _)| word.starts_with("read-reply"))
            .filter_map(|(_, bytes)| parse_bytes(bytes).ok())
            .filter(|frame| frame.len() == Reply::LENGTH);
        let (mut net, mut timed, mut wrong) = (0, 0, 0);
        for frame in frames {
            let is_net =
                b"RE".contains(&frame[at::STATUS]) && NET_LETTERS.contains(&frame[at::INFORMATION]);
            let minus_zero = is_net && frame[at::DATE..].starts_with(b"-0000000");
            let at_zero = frame[at::TIME..].starts_with(b"0000000000");
            net += usize::from(is_net);
            timed += usize::from(minus_zero && !at_zero);
            wrong += usize::from(minus_zero && at_zero);
        }
        assert!(
            timed > net / 10 && wrong > net / 30,
            "{timed} {wrong} {net}"
        );
    }

    /// A good share of the plain reads is accepted. Every refusal of a reader or a writer occurs
    /// often.
    #[test]
    fn every_refusal_comes() {
        let mut tally = Tally::default();
        let plain: Vec<String> = piece(1, 12_000)
            .into_iter()
            .filter(|case| frames_asked(case) <= 1)
            .collect();
        let text: String = plain.iter().map(|case| format!("{case}\n")).collect();
        let answers = answers::by_case(text.as_bytes()).expect("cases");
        for (case, answer) in plain.iter().zip(&answers) {
            tally.take_case(case, answer);
        }
        let frames: u64 = tally.frames.iter().sum();
        assert_eq!(frames, frames_of(&plain));
        assert!((frames / 5..frames).contains(&tally.frames[0]));
        for number in 1..=5 {
            assert!(tally.frames[number] > frames / 100, "{number}");
        }
        for number in [0, 6, 7] {
            assert!(tally.records[number] > 20, "{number}");
        }
    }
}
