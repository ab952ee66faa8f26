//! Plays every mix of two answers, with a stray and a damaged frame before each reply. What the
//! desk did is reduced to one number, the digest.

use crate::desk::{Desk, Seat};
use crate::refusal::Refusal;
use crate::reply::{self, LAST_RECORD, NOT_AVAILABLE, RECORD};
use crate::script;
use crate::spelling::NotACase;

/// The most letters a word has.
const LONGEST_WORD: usize = 4;

/// How the word without letters is spelled.
const NO_LETTERS: &str = "-";

/// What is lent for each mix: room for all replies of two words.
const LENT_BYTES: usize = 408;
const LENT_MARKS: usize = 8;

/// A byte that is not the CR a frame ends with.
const NO_CR: u8 = 0x00;

/// One of the two requests and the replies to it.
struct Side {
    address: u8,
    requester: u8,
    /// The bib of its first reply. Each further reply has a bib that is lower by one.
    bib: usize,
}

/// The first word's side, and the second word's in `mixes` and in `mixes-by-address`.
const A: Side = Side {
    address: b' ',
    requester: b'1',
    bib: 40,
};
const B: Side = Side {
    requester: b'A',
    bib: 30,
    ..A
};
const B_BY_ADDRESS: Side = Side {
    address: b'0',
    bib: 30,
    ..A
};

impl Side {
    fn request(&self) -> Vec<u8> {
        let mut frame = vec![0x11, b'R', self.address, self.requester];
        frame.extend(b"00700000P000000000S\r");
        frame
    }

    /// Reply `number` of this side, counted from 0, with the word's letter as its status.
    fn reply(&self, number: usize, letter: u8) -> Vec<u8> {
        let mut frame = vec![0x12, b'R', self.address, b'S', b'O', letter, self.requester];
        frame.extend(format!("00007{:05}", self.bib - number).bytes());
        frame.extend(b"000002000000P000000000000000000  \r");
        frame
    }

    /// All replies of a word.
    fn replies(&self, word: &[u8]) -> Vec<Vec<u8>> {
        let letters = word.iter().enumerate();
        letters
            .map(|(number, &letter)| self.reply(number, letter))
            .collect()
    }
}

/// The two answers that are mixed.
pub struct Pair {
    first: Side,
    second: Side,
    /// A place of a reply, and a byte that neither side has there. With it the reply is a stray.
    stray: (usize, u8),
}

/// Two answers that differ in the requester, and two that differ in the address alone.
pub const BY_REQUESTER: Pair = Pair {
    first: A,
    second: B,
    stray: (reply::at::REQUESTER, b'a'),
};
pub const BY_ADDRESS: Pair = Pair {
    first: A,
    second: B_BY_ADDRESS,
    stray: (reply::at::ADDRESS, b'1'),
};

impl Pair {
    /// How many mixes there are, and the digest of all of them.
    pub fn play(&self, first: &[u8], second: &[u8]) -> (usize, u64) {
        let mut digest = Digest::default();
        let mut played = 0;
        for mix in self.mixes(first, second) {
            self.play_one(&mix, &mut digest);
            played += 1;
        }
        (played, digest.0)
    }

    /// Every order in which the replies of both words can come, such that the order within each
    /// word is kept.
    fn mixes(&self, first: &[u8], second: &[u8]) -> impl Iterator<Item = Vec<Vec<u8>>> {
        let (first, second) = (self.first.replies(first), self.second.replies(second));
        let second_letters = second.len();
        let numbers = 0_u32..1 << (first.len() + second.len());
        numbers
            .filter(move |number| number.count_ones() as usize == second_letters)
            .map(move |number| deal(&first, &second, number))
    }

    fn play_one(&self, replies: &[Vec<u8>], digest: &mut Digest) {
        let mut desk = lend();
        for side in [&self.first, &self.second] {
            digest.take_call(desk.open(&side.request()));
        }
        for reply in replies {
            for frame in self.heard(reply) {
                digest.take_call(desk.reply(&frame));
            }
        }
        digest.take_desk(&desk);
    }

    /// The three frames that come for a reply: a stray, a damaged one, and the reply itself.
    fn heard(&self, reply: &[u8]) -> [Vec<u8>; 3] {
        let (place, code) = self.stray;
        [
            with_byte(reply, place, code),
            with_byte(reply, reply::at::CR, NO_CR),
            reply.to_vec(),
        ]
    }
}

/// The letters of a word.
pub fn parse_word(word: &str) -> Result<Vec<u8>, NotACase> {
    if word == NO_LETTERS {
        return Ok(Vec::new());
    }
    let good = |letter| matches!(letter, RECORD | LAST_RECORD | NOT_AVAILABLE);
    if (1..=LONGEST_WORD).contains(&word.len()) && word.bytes().all(good) {
        Ok(word.into())
    } else {
        Err(NotACase("a word has up to four of R, E and Z, or is -"))
    }
}

/// The desk that each mix begins with. It is also the desk that is left when all mixes have been
/// played.
pub fn lend() -> Desk {
    script::lend(LENT_BYTES, LENT_MARKS)
}

/// The mix with this number. Reply i is the second word's if bit i is set, otherwise the first
/// word's.
fn deal(first: &[Vec<u8>], second: &[Vec<u8>], number: u32) -> Vec<Vec<u8>> {
    let (mut first, mut second) = (first.iter(), second.iter());
    let mut replies = Vec::new();
    let length = first.len() + second.len();
    for place in 0..length {
        let side = if (number >> place) & 1 == 1 {
            &mut second
        } else {
            &mut first
        };
        replies.extend(side.next().cloned());
    }
    replies
}

fn with_byte(frame: &[u8], place: usize, code: u8) -> Vec<u8> {
    let mut frame = frame.to_vec();
    frame[place] = code;
    frame
}

/// One number that depends on all numbers it has taken in and on their order.
#[derive(Debug, PartialEq, Eq)]
struct Digest(u64);

impl Default for Digest {
    fn default() -> Self {
        Digest(1)
    }
}

impl Digest {
    const FACTOR: u64 = 1_000_003;
    const MODULUS: u64 = 4_294_967_291;

    fn take(&mut self, number: u64) {
        self.0 = (self.0 * Self::FACTOR + number % Self::MODULUS) % Self::MODULUS;
    }

    fn take_call(&mut self, outcome: Result<usize, Refusal>) {
        let numbers = match outcome {
            Ok(seat) => [0, 0, 0, seat],
            Err(refusal) => {
                let number = refusal.number().into();
                [number, refusal.offset(), refusal.spoiled(), 0]
            }
        };
        for number in numbers {
            self.take(number as u64);
        }
    }

    fn take_desk(&mut self, desk: &Desk) {
        self.take(desk.bits);
        self.take(desk.count.into());
        for seat in &desk.seats {
            let Seat {
                address,
                requester,
                number,
                held,
                ended,
            } = *seat;
            for number in [address, requester, number, held, ended] {
                self.take(number.into());
            }
        }
        for &byte in &desk.cells {
            self.take(byte.into());
        }
        for &mark in &desk.marks {
            self.take(mark.into());
        }
        for &number in desk.tally.0.iter().flatten() {
            self.take(number.into());
        }
    }
}

#[cfg(test)]
mod tests {
    use super::*;
    use crate::desk::CELL;
    use crate::frame::Kind;
    use crate::reply::Reply;

    #[test]
    fn words() {
        assert_eq!(parse_word("-"), Ok(Vec::new()));
        assert_eq!(parse_word("ZERR"), Ok(b"ZERR".to_vec()));
        for word in ["", "RRRRR", "r", "R-", "--", "RX"] {
            assert!(parse_word(word).is_err(), "{word}");
        }
    }

    #[test]
    fn requests_as_they_are_told() {
        assert_eq!(A.request(), b"\x11R 100700000P000000000S\r");
        assert_eq!(B.request(), b"\x11R A00700000P000000000S\r");
        assert_eq!(B_BY_ADDRESS.request(), b"\x11R0100700000P000000000S\r");
    }

    #[test]
    fn replies_as_they_are_told() {
        assert_eq!(
            A.reply(0, b'R'),
            b"\x12R SOR10000700040000002000000P000000000000000000  \r"
        );
        assert_eq!(
            B.reply(3, b'Z'),
            b"\x12R SOZA0000700027000002000000P000000000000000000  \r"
        );
        assert_eq!(
            B_BY_ADDRESS.reply(1, b'E'),
            b"\x12R0SOE10000700029000002000000P000000000000000000  \r"
        );
    }

    #[test]
    fn a_stray_and_a_damaged_frame_come_before_a_reply() {
        let reply = B_BY_ADDRESS.reply(0, b'R');
        let expected = Reply::read(&reply).expect("a reply");
        let [stray, damaged, last] = BY_ADDRESS.heard(&reply);
        let address = b'1';
        let stray_record = Reply {
            address,
            ..expected.clone()
        };
        assert_eq!(Reply::read(&stray), Ok(stray_record));
        assert_eq!(Reply::read(&damaged), Err(Refusal::End));
        assert_eq!(last, reply);
        let [stray, ..] = BY_REQUESTER.heard(&reply);
        let requester = b'a';
        let stray_record = Reply {
            requester,
            ..expected
        };
        assert_eq!(Reply::read(&stray), Ok(stray_record));
    }

    /// The byte at this place of each reply of each mix.
    fn sides(pair: &Pair, place: usize, first: &[u8], second: &[u8]) -> Vec<String> {
        let codes = |mix: Vec<Vec<u8>>| mix.iter().map(|reply| char::from(reply[place])).collect();
        pair.mixes(first, second).map(codes).collect()
    }

    #[test]
    fn mixes_by_rising_number() {
        let requesters = |first, second| sides(&BY_REQUESTER, 6, first, second);
        assert_eq!(requesters(b"", b""), [""]);
        assert_eq!(requesters(b"RE", b""), ["11"]);
        assert_eq!(requesters(b"", b"RE"), ["AA"]);
        assert_eq!(requesters(b"RE", b"Z"), ["A11", "1A1", "11A"]);
        let addresses = sides(&BY_ADDRESS, 2, b"RE", b"Z");
        assert_eq!(addresses, ["0  ", " 0 ", "  0"]);
        assert_eq!(BY_REQUESTER.mixes(b"RRRR", b"RRRR").count(), 70);
    }

    #[test]
    fn a_mix_keeps_the_order_of_each_word() {
        for (pair, place) in [(BY_REQUESTER, 6), (BY_ADDRESS, 2)] {
            let (first, second) = (pair.first.replies(b"RRE"), pair.second.replies(b"ZR"));
            for mix in pair.mixes(b"RRE", b"ZR") {
                let is_first = |reply: &Vec<u8>| reply[place] == first[0][place];
                let (ones, others): (Vec<_>, Vec<_>) = mix.into_iter().partition(is_first);
                assert_eq!((&ones, &others), (&first, &second));
            }
        }
    }

    fn digest_of(numbers: &[u64]) -> u64 {
        numbers.iter().fold(1, |digest, &number| {
            ((u128::from(digest) * 1_000_003 + u128::from(number)) % 4_294_967_291) as u64
        })
    }

    #[test]
    fn the_digest_takes_numbers_in() {
        let mut digest = Digest::default();
        digest.take(5);
        assert_eq!(digest, Digest(1_000_008));
        digest.take(u64::MAX);
        assert_eq!(digest, Digest(digest_of(&[5, u64::MAX])));
        digest.take_call(Err(Refusal::Field(30, 32)));
        digest.take_call(Ok(15));
        assert_eq!(
            digest,
            Digest(digest_of(&[5, u64::MAX, 5, 30, 32, 0, 0, 0, 0, 15]))
        );
    }

    #[test]
    fn two_words_without_letters() {
        for (pair, second) in [(BY_REQUESTER, [32, 65, 7]), (BY_ADDRESS, [48, 49, 7])] {
            let mut numbers = vec![0, 0, 0, 0, 0, 0, 0, 1, 3, 0];
            numbers.extend([32, 49, 7, 0, 0]);
            numbers.extend(second);
            numbers.extend([0; 2 + 5 * 14]);
            numbers.extend([0xee; 408]);
            numbers.extend([0xeeee_eeee; 8]);
            numbers.extend([0; 99]);
            assert_eq!(pair.play(b"", b""), (1, digest_of(&numbers)));
        }
    }

    #[test]
    fn a_word_of_one_letter() {
        let by_requester = b"\x12R SOEA0000700030000002000000P000000000000000000  \r";
        let by_address = b"\x12R0SOE10000700030000002000000P000000000000000000  \r";
        for (pair, second, cell) in [
            (BY_REQUESTER, [32, 65, 7], by_requester),
            (BY_ADDRESS, [48, 49, 7], by_address),
        ] {
            let mut numbers = vec![0, 0, 0, 0, 0, 0, 0, 1];
            // The stray, the damaged one, and the reply itself.
            numbers.extend([13, 0, 0, 0, 3, 0, 0, 0, 0, 0, 0, 1]);
            numbers.extend([3, 1, 32, 49, 7, 0, 0]);
            numbers.extend(second);
            numbers.extend([1, 1]);
            numbers.extend([0; 5 * 14]);
            numbers.extend(cell.map(u64::from));
            numbers.extend([0xee; 357]);
            numbers.push(1);
            numbers.extend([0xeeee_eeee; 7]);
            // One E of the letter P, which has row 12.
            numbers.extend([0; 12 * 3 + 1]);
            numbers.push(1);
            numbers.extend([0; 1 + 20 * 3]);
            assert_eq!(pair.play(b"", b"E"), (1, digest_of(&numbers)));
        }
    }

    /// The outcome of each of a seat's replies, and the records that the seat holds at the end.
    type Service = (Vec<Result<usize, Refusal>>, Vec<Vec<u8>>);

    /// Opens both requests and then takes these frames. Returns how each side was served.
    fn served(pair: &Pair, frames: &[Vec<u8>]) -> [Service; 2] {
        let mut desk = lend();
        for side in [&pair.first, &pair.second] {
            assert!(desk.open(&side.request()).is_ok());
        }
        let outcomes: Vec<_> = frames.iter().map(|frame| desk.reply(frame)).collect();
        [(&pair.first, 0), (&pair.second, 1)].map(|(side, seat)| {
            let key = (side.address, side.requester);
            let own = frames.iter().zip(&outcomes);
            let own = own.filter(|(frame, _)| (frame[2], frame[6]) == key && frame[50] == b'\r');
            let cells =
                (0..desk.marks.len()).filter(|&cell| desk.next_held(seat, cell) == Some(cell));
            (
                own.map(|(_, &outcome)| outcome).collect(),
                cells
                    .map(|cell| desk.cells[cell * CELL..][..CELL].to_vec())
                    .collect(),
            )
        })
    }

    /// Whatever frames come in between, a request is served as if only its own replies had come.
    #[test]
    fn a_mix_serves_each_request_as_its_replies_alone() {
        let words: [&[u8]; 8] = [b"", b"RE", b"RRR", b"RRE", b"Z", b"RZE", b"ZR", b"ERZ"];
        for pair in [BY_REQUESTER, BY_ADDRESS] {
            for first in words {
                for second in words {
                    check_served_as_alone(&pair, first, second);
                }
            }
        }
    }

    fn check_served_as_alone(pair: &Pair, first: &[u8], second: &[u8]) {
        let [alone, _] = served(pair, &pair.first.replies(first));
        let [_, other_alone] = served(pair, &pair.second.replies(second));
        let expected = [alone, other_alone];
        for mix in pair.mixes(first, second) {
            let disturbed: Vec<Vec<u8>> = mix.iter().flat_map(|reply| pair.heard(reply)).collect();
            assert_eq!(served(pair, &disturbed), expected);
        }
    }

    #[test]
    fn replies_alone() {
        let [(outcomes, records), _] = served(&BY_REQUESTER, &A.replies(b"RZRE"));
        let taken = [Ok(0), Err(Refusal::OutOfPlace), Ok(0), Ok(0)];
        assert_eq!(outcomes, taken);
        assert_eq!(
            records,
            [A.reply(0, b'R'), A.reply(2, b'R'), A.reply(3, b'E')]
        );
    }
}
