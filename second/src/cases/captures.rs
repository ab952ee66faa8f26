//! The captures that are listed. First come those that every seed has, then the random ones.

mod addresses;
pub mod bulk;
mod counts;
mod cuts;
mod full;
mod mixes;
mod noise;
mod random;
mod refused;
mod seats;
mod short;
mod signs;
mod sizes;
#[cfg(test)]
mod tests;

use super::desk::frames::{reply_with_bib, request, Key};
use crate::random::Random;

pub type Capture = Vec<u8>;

/// Frames in the order in which they are heard.
type Frames = Vec<Vec<u8>>;

/// The captures of one seed. The first is the scope paper's example.
pub fn all(seed: u64) -> Vec<Capture> {
    let random = random::captures(&mut Random::new(seed, "captures"));
    [of_every_seed(), random].concat()
}

fn of_every_seed() -> Vec<Capture> {
    [
        short::captures(),
        mixes::captures(),
        refused::captures(),
        cuts::captures(),
        noise::captures(),
        seats::captures(),
        addresses::captures(),
        counts::captures(),
        full::captures(),
        sizes::captures(),
        signs::captures(),
    ]
    .concat()
}

/// The keys of two requests that many of the captures use. They have only the address in common.
const ONE: Key = (b' ', b'1', 7);
const OTHER: Key = (b' ', b'A', 12);

/// A row of keys, all different. The keys of each group of three differ in the address alone. Four
/// groups share a number, and every fourth group has the same requester.
fn key(place: usize) -> Key {
    let group = place / 3;
    (
        b" 03"[place % 3],
        b"1Aaz"[group % 4],
        7 * (group / 4) as u32,
    )
}

fn keys(count: usize) -> Vec<Key> {
    (0..count).map(key).collect()
}

fn requests(keys: &[Key]) -> Frames {
    keys.iter().map(|&key| request(key)).collect()
}

/// A reply to this key for each letter of the word. Their bibs decrease, so sorting rows by bib
/// would change their order.
fn replies(key: Key, word: &str) -> Frames {
    word.bytes()
        .enumerate()
        .map(|(number, status)| reply_with_bib(status, key, 40 - number))
        .collect()
}
