//! Scripts in bulk: for each seed a piece with a given number of scripts. Each begins with `lend`,
//! or with `mixes` or `mixes-by-address`, which leave an empty desk. So each script can be asked
//! alone.

mod conversations;
mod full;
mod mixed;
mod nearly;
mod wild;

use super::frames::{
    patched, random_minus_zero, random_reply, random_request, reply_with_bib, Key, E, R,
    REPLY_DAMAGES, REQUEST_DAMAGES, Z,
};
use super::random::tally;
use super::script::Script;
use crate::cases::frames::{befall_at_random, random_address};
use crate::cases::spoiled::{self, change_field};
use crate::cases::{reply, request, Cases};
use crate::desk::{Seat, CELL};
use crate::random::Random;

/// The scripts of one piece, each with all its lines.
pub fn piece(seed: u64, scripts: u64) -> Vec<Vec<String>> {
    let mut random = Random::new(seed, "bulk scripts");
    (0..scripts).map(|_| script(&mut random)).collect()
}

fn script(random: &mut Random) -> Vec<String> {
    let mut cases = Cases::default();
    match random.below(64) {
        0..=15 => super::random::add_script(&mut cases, random),
        16..=31 => conversations::add(&mut cases, random),
        32..=49 => nearly::add(&mut cases, random),
        50..=57 => full::add(&mut cases, random),
        58..=61 => wild::add(&mut cases, random),
        _ => mixed::add(&mut cases, random),
    }
    cases.text.lines().map(str::to_string).collect()
}

/// Lends this many whole cells, sometimes with some bytes of one more, and about as many marks.
fn lend<'a>(cases: &'a mut Cases, cells: usize, random: &mut Random) -> Script<'a> {
    let bytes = cells * CELL + random.pick(&[0, 0, 0, 1, 50]);
    let marks = cells + random.pick(&[0, 0, 0, 1, 2]);
    Script::lend(cases, bytes, marks)
}

/// A random key. It often has one or two parts in common with other keys.
fn random_key(random: &mut Random) -> Key {
    let address = random_address(random);
    let requester = random.pick(b"11AAaaz09ZBb");
    let number = match random.below(4) {
        0 => random.below(1_000) as u32,
        _ => random.pick(&[0, 7, 7, 8, 70, 700, 999]),
    };
    (address, requester, number)
}

/// This many keys, all different. About a third differ from another one in the address alone.
fn different_keys(count: usize, random: &mut Random) -> Vec<Key> {
    let mut keys = Vec::new();
    while keys.len() < count {
        let key = match random.below(3) {
            0 if !keys.is_empty() => {
                let other = random.pick(&keys);
                under_any_address(random, other)
            }
            _ => random_key(random),
        };
        if !keys.contains(&key) {
            keys.push(key);
        }
    }
    keys
}

/// The same requester and number under any address.
fn under_any_address(random: &mut Random, (_, requester, number): Key) -> Key {
    (random_address(random), requester, number)
}

/// The keys of the seats in use, if frames can have them.
fn open_keys(script: &Script) -> Vec<Key> {
    let desk = script.desk();
    let seats = desk.seats.iter().enumerate();
    seats
        .filter(|&(place, _)| (desk.bits >> place) & 1 == 1)
        .filter_map(|(_, seat)| key_of(seat))
        .collect()
}

fn key_of(seat: &Seat) -> Option<Key> {
    let address = u8::try_from(seat.address).ok()?;
    let requester = u8::try_from(seat.requester).ok()?;
    (seat.number < 1_000).then_some((address, requester, seat.number))
}

/// An opening or a reply, with one of these keys or with another key. Sometimes the frame is wrong.
fn add_call(script: &mut Script, keys: &[Key], random: &mut Random) {
    let own = if keys.is_empty() || random.once_in(12) {
        random_key(random)
    } else {
        random.pick(keys)
    };
    match random.below(16) {
        0 if random.once_in(2) => script.open(&wrong_request(random, own)),
        0..=3 => script.open(&random_request(random, own)),
        4 => script.reply(&stray(random, own)),
        5 => script.reply(&wrong_reply(random, own)),
        6 => script.reply(&random_minus_zero(random, own)),
        _ => {
            let status = random.pick(&[R, R, R, R, R, R, E, Z]);
            script.reply(&random_reply(random, status, own));
        }
    }
}

/// A request with something wrong. Sometimes it is still good.
fn wrong_request(random: &mut Random, own: Key) -> Vec<u8> {
    let mut frame = random_request(random, own);
    match random.below(3) {
        0 => return patched(&frame, random.pick(&REQUEST_DAMAGES)),
        1 => change_field(&mut frame, &spoiled::request::FIELDS, random),
        _ => befall_at_random(&mut frame, &request::NUMBERS, random),
    }
    frame
}

/// A reply with something wrong. Sometimes it is still good.
fn wrong_reply(random: &mut Random, own: Key) -> Vec<u8> {
    let mut frame = random_reply(random, R, own);
    match random.below(3) {
        0 => {
            let frame = reply_with_bib(R, own, random.place(60_000));
            return patched(&frame, random.pick(&REPLY_DAMAGES));
        }
        1 => change_field(&mut frame, &spoiled::reply::FIELDS, random),
        _ => befall_at_random(&mut frame, &reply::NUMBERS, random),
    }
    frame
}

/// A reply with any address, or with a different number, sometimes one that no request can have.
fn stray(random: &mut Random, key: Key) -> Vec<u8> {
    let other = match random.below(3) {
        0 => under_any_address(random, key),
        _ => with_another_number(random, key),
    };
    random_reply(random, R, other)
}

fn with_another_number(random: &mut Random, (address, requester, number): Key) -> Key {
    let number = (number + random.pick(&[1, 10, 1_000, 10_000, 65_536])) % 100_000;
    (address, requester, number)
}

/// Asks for the seats in use, for a number of the tally, or for the next held cell. Sometimes asks
/// for the whole tally.
fn add_look(script: &mut Script, random: &mut Random) {
    match random.below(40) {
        0 => script.looks(),
        1..=12 => {
            let (letter, status) = tally::look(script.desk(), random);
            script.look(letter, status);
        }
        13..=19 => script.used(),
        _ => add_look_for_a_cell(script, random),
    }
}

/// Asks for the next held cell of some seat from some place on.
fn add_look_for_a_cell(script: &mut Script, random: &mut Random) {
    let seat = match random.below(8) {
        0 => random.pick(&[16, 17, 256, 0xeeee_eeee, u32::MAX]),
        _ => random.below(6) as u32,
    };
    let place = match random.below(12) {
        0 => random.pick(&[255, 256, 257, u32::MAX as usize]),
        _ => random.place(script.desk().marks.len() + 2),
    };
    script.held(seat, place);
}

/// Asks for all records of a seat, one after the other, and then once more, which finds none.
fn add_all_looks(script: &mut Script, seat: u32) {
    let mut place = 0;
    while let Some(cell) = script.desk().next_held(seat, place) {
        script.held(seat, place);
        place = cell + 1;
    }
    script.held(seat, place);
}

#[cfg(test)]
mod tests {
    use super::*;
    use crate::answers;
    use crate::bulk::tally::Tally;
    use crate::cases::tests::{words, SCRIPT_WORDS};

    #[test]
    fn a_seed_gives_the_same_piece() {
        assert_eq!(piece(1, 40), piece(1, 40));
        assert_ne!(piece(1, 40), piece(2, 40));
    }

    #[test]
    fn a_piece_has_the_scripts_it_says() {
        for scripts in [0, 1, 100] {
            assert_eq!(piece(1, scripts).len() as u64, scripts);
        }
    }

    /// Each script can be asked alone, because nothing is left of the script before it.
    #[test]
    fn every_script_begins_with_an_empty_desk() {
        for script in piece(1, 300) {
            let first = script.first().expect("a line");
            let begins = ["lend ", "mixes ", "mixes-by-address "];
            assert!(
                begins.iter().any(|begin| first.starts_with(begin)),
                "{first}"
            );
            assert!(!script[1..].iter().any(|line| line.starts_with("lend ")));
        }
    }

    #[test]
    fn every_word_of_the_scripts_comes_and_no_other() {
        let scripts = piece(1, 300);
        let lines = scripts.iter().flatten().map(String::as_str);
        assert_eq!(words(lines), SCRIPT_WORDS.into());
    }

    #[test]
    fn every_line_is_a_case_and_every_refusal_comes() {
        let mut tally = Tally::default();
        let scripts = piece(1, 300);
        let lines: Vec<&String> = scripts
            .iter()
            .flatten()
            .filter(|line| !line.starts_with("mixes"))
            .collect();
        let text: String = lines.iter().map(|line| format!("{line}\n")).collect();
        let answers = answers::by_case(text.as_bytes()).expect("cases");
        for (line, answer) in lines.iter().zip(&answers) {
            tally.take_case(line, answer);
        }
        let calls: u64 = tally.calls.iter().sum();
        assert!(tally.calls[0] > calls / 5, "{:?}", tally.calls);
        for number in [1, 2, 3, 4, 5, 9, 10, 11, 12, 13, 14, 15, 16] {
            assert!(tally.calls[number] > 3, "{number} {:?}", tally.calls);
        }
        assert_eq!([6, 7, 8, 17].map(|number| tally.calls[number]), [0; 4]);
        let looks = lines.iter().zip(&answers);
        let looks = looks.filter(|(line, _)| line.starts_with("look "));
        let (found, refused): (Vec<_>, Vec<_>) =
            looks.partition(|(_, answer)| answer[0].starts_with("0 0 0 "));
        let not_zero = found.iter().filter(|(_, answer)| answer[0] != "0 0 0 0");
        assert!(not_zero.count() > 20);
        assert!(refused.len() > 20);
        assert!(refused.iter().all(|(_, answer)| answer[0] == "17 0 0 0"));
    }

    #[test]
    fn keys_are_different() {
        let keys = different_keys(20, &mut Random::new(1, "test"));
        assert_eq!(keys.len(), 20);
        assert!((1..20).all(|place| !keys[..place].contains(&keys[place])));
    }

    /// How many of these keys differ from another one in the address alone.
    fn differing_in_the_address(keys: &[Key]) -> usize {
        let is_near = |key: &Key, other: &Key| key != other && (key.1, key.2) == (other.1, other.2);
        keys.iter()
            .filter(|key| keys.iter().any(|other| is_near(key, other)))
            .count()
    }

    #[test]
    fn keys_often_differ_in_the_address_alone() {
        let mut random = Random::new(1, "test");
        let mut near = 0;
        for _ in 0..100 {
            near += differing_in_the_address(&different_keys(4, &mut random));
        }
        assert!((100..300).contains(&near), "{near}");
    }
}
