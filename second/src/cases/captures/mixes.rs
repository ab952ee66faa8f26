//! Several requests, with replies of each status in many orders.

use super::{keys, replies, requests, Capture, Frames, ONE, OTHER};
use crate::cases::desk::frames::{reply, reply_with_bib, request, Key, E, R, Z};
use crate::cases::replaced;
use crate::reply::{at, CLOCK_LETTERS, INFORMATION, NET_LETTERS};

/// Every word of one, two or three statuses is the replies to one request. The words are in groups
/// that fit the seats. Then come captures for single subjects.
pub fn captures() -> Vec<Capture> {
    let short = [words(1), words(2)].concat();
    let long = words(3);
    let (low, high) = long.split_at(14);
    let mut captures = vec![word_by_word(&short), requests_between(&short)];
    for group in [&short, low, high] {
        captures.push(in_turns(group));
    }
    captures.push(a_key_again());
    captures.push(a_reply_too_early());
    captures.push(the_same_reply_again());
    captures.push(all_kinds());
    captures.push(all_letters());
    captures.push(blanks_and_tildes());
    captures
}

/// All words of this many statuses.
fn words(length: usize) -> Vec<String> {
    let mut words = vec![String::new()];
    for _ in 0..length {
        words = words
            .iter()
            .flat_map(|word| "REZ".chars().map(move |status| format!("{word}{status}")))
            .collect();
    }
    words
}

/// The replies to each word's request.
fn answers(words: &[String]) -> Vec<Frames> {
    let keys = keys(words.len());
    let words = keys.into_iter().zip(words);
    words.map(|(key, word)| replies(key, word)).collect()
}

/// All requests, then the replies of one word after the other.
fn word_by_word(words: &[String]) -> Capture {
    let requests = requests(&keys(words.len()));
    [requests.concat(), answers(words).concat().concat()].concat()
}

/// Each request is heard just before its own replies, after the replies to the requests before it.
fn requests_between(words: &[String]) -> Capture {
    let requests = requests(&keys(words.len()));
    let pairs = requests.into_iter().zip(answers(words));
    pairs
        .flat_map(|(request, replies)| [request, replies.concat()].concat())
        .collect()
}

/// The first reply of every word, then the second of every word, and so on. In each turn the last
/// word comes first.
fn in_turns(words: &[String]) -> Capture {
    let answers = answers(words);
    let turns = answers.iter().map(Vec::len).max().unwrap_or(0);
    let mut capture = requests(&keys(words.len())).concat();
    for turn in 0..turns {
        for replies in answers.iter().rev() {
            capture.extend(replies.get(turn).into_iter().flatten());
        }
    }
    capture
}

/// A key is opened again before its first record, between records and after its end. Other keys
/// differ from it in only one part.
fn a_key_again() -> Capture {
    [
        request(ONE),
        request(ONE),
        request((b' ', b'1', 8)),
        reply_with_bib(R, ONE, 3),
        request(ONE),
        reply_with_bib(E, ONE, 2),
        request(ONE),
        reply_with_bib(R, ONE, 1),
        request((b' ', b'A', 7)),
        request((b' ', b'a', 7)),
        reply(E, (b' ', b'a', 7)),
        reply(Z, (b' ', b'1', 8)),
        request((b' ', b'1', 8)),
        reply(R, (b' ', b'A', 7)),
    ]
    .concat()
}

/// Replies before their request, and the same ones after it.
fn a_reply_too_early() -> Capture {
    let early = [reply(R, ONE), reply(E, ONE), reply(Z, OTHER)].concat();
    [
        &early[..],
        &request(ONE),
        &early,
        &request(OTHER),
        &early,
        &request(OTHER),
    ]
    .concat()
}

fn the_same_reply_again() -> Capture {
    let record = reply(R, OTHER).repeat(3);
    let last = reply(E, OTHER).repeat(2);
    [request(ONE), request(OTHER), record, last].concat()
}

/// Replies with clock, net and raw time, and replies that are not available. Some have a time or a
/// date that does not suit their letter.
fn all_kinds() -> Capture {
    let frames: [&[u8]; 11] = [
        b"\x11R z98700000P000000000S\r",
        b"\x11R A01200000P000000000S\r",
        b"\x11R 000000000K000000000T\r",
        b"\x12R GmRz0098759999199250547240K235959999929022024xy\r",
        b"\x12R ~ ZA0001230000100000999249s--:--.----no date!#~\r",
        b"\x12R SORz00987000410000010152551000112540000000000  \r",
        b"\x12R SORz0098700041012001015255200011254 0+0000001  \r",
        b"\x12R SORz009870004101200101525520001125400-9999999  \r",
        b"\x12R abR0000001234506708912324530000000000-9999999cd\r",
        b"\x12R 00E0000005678901200334525010001125400+0000000 0\r",
        b"\x12R 11Ez0098700001002003004005X +1.234kmh-noise-   \r",
    ];
    frames.concat()
}

/// A time and a date that suit the letter.
fn timing(letter: u8) -> &'static [u8] {
    if CLOCK_LETTERS.contains(&letter) {
        b"123456789831122099"
    } else if NET_LETTERS.contains(&letter) {
        b"0102030405-0000123"
    } else {
        b" 1234.567 abcdefgh"
    }
}

/// A reply with every letter. The bibs decrease.
fn all_letters() -> Capture {
    let mut capture = [request(ONE), request(OTHER)].concat();
    for (number, &letter) in INFORMATION.iter().enumerate() {
        let key: Key = if number % 3 == 0 { OTHER } else { ONE };
        let frame = reply_with_bib(R, key, 100 - number);
        let frame = replaced(&frame, at::INFORMATION, &[letter]);
        capture.extend(replaced(&frame, at::TIME, timing(letter)));
    }
    capture
}

/// The lowest and the highest raw byte, mixed and filling whole fields, wherever a reply has raw
/// bytes.
fn blanks_and_tildes() -> Capture {
    let patches: [(usize, &[u8]); 9] = [
        (at::TIME, b"          "),
        (at::DATE, b"        "),
        (at::TIME, b"~~~~~~~~~~"),
        (at::DATE, b"~~~~~~~~"),
        (at::TIME, b"         ~~         "),
        (at::SPARE, b"~ "),
        (at::SPARE, b" ~"),
        (at::PROGRAM, b" ~"),
        (at::PROGRAM, b"~ "),
    ];
    let mut capture = [request(ONE), request(OTHER), request((b' ', b'z', 0))].concat();
    for (place, text) in patches {
        capture.extend(replaced(&reply(R, ONE), place, text));
    }
    for (status, key) in [(Z, OTHER), (E, (b' ', b'z', 0))] {
        capture.extend(replaced(&reply(status, key), at::TIME, &[b' '; 20]));
    }
    capture.extend(replaced(&reply(E, ONE), at::TIME, &[b'~'; 20]));
    capture
}

#[cfg(test)]
mod tests {
    use super::*;
    use crate::cases::captures::tests::check_ends;

    #[test]
    fn words_of_three_statuses() {
        assert_eq!(words(1), ["R", "E", "Z"]);
        assert_eq!(words(3).len(), 27);
    }

    /// Of the short words, 14 of the 21 replies are taken: the three single ones, two each of RR
    /// and RE, and one of each other word.
    #[test]
    fn words_are_taken_up_to_their_end() {
        let short = [12, 14, 0, 7];
        check_ends(
            &captures(),
            &[
                short,
                short,
                short,
                [14, 24, 0, 18],
                [13, 13, 0, 26],
                [4, 5, 0, 5],
                [2, 3, 0, 7],
                [2, 4, 0, 1],
                [3, 6, 0, 2],
                [2, 33, 0, 0],
                [3, 12, 0, 0],
            ],
        );
    }
}
