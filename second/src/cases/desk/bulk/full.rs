//! Desks that are filled to their last cell or nearly, and what is asked of them then. Most have
//! many seats in use.

use super::{add_call, add_look, different_keys, lend, random_key};
use crate::cases::desk::frames::{random_reply, random_request, request, Key, E, R, Z};
use crate::cases::desk::script::Script;
use crate::cases::Cases;
use crate::desk::{MOST_CELLS, SEATS};
use crate::random::Random;

/// One desk in this many has about as many cells as a desk can have.
const LARGE_ONE_IN: u64 = 60;

pub fn add(cases: &mut Cases, random: &mut Random) {
    let cells = if random.once_in(LARGE_ONE_IN) {
        MOST_CELLS - 3 + random.place(40)
    } else {
        random.place(21)
    };
    let number_of_keys = random.pick(&[1, 2, 4, 8, 14, SEATS - 1, SEATS, SEATS, SEATS + 1]);
    let keys = different_keys(number_of_keys, random);
    let mut script = lend(cases, cells, random);
    script.open_all(&keys);
    fill(&mut script, &keys, random);
    for _ in 0..4 + random.place(12) {
        add_step(&mut script, &keys, random);
    }
    if random.once_in(3) {
        script.reset();
        add_call(&mut script, &keys, random);
        script.open(&request(keys[0]));
        script.reply(&random_reply(random, R, keys[0]));
    }
}

/// Replies to the keys up to the last free cell or nearly. Except for the last four, few of them
/// are an E or a Z.
fn fill(script: &mut Script, keys: &[Key], random: &mut Random) {
    let free = random.pick(&[0, 0, 0, 1, 2]);
    let replies = script.desk().capacity().saturating_sub(free);
    for number in 0..replies {
        let status = match replies - number {
            1..=4 => random.pick(&[R, E, E, Z]),
            _ if random.once_in(40) => random.pick(&[E, Z]),
            _ => R,
        };
        let key = random.pick(keys);
        script.reply(&random_reply(random, status, key));
    }
}

fn add_step(script: &mut Script, keys: &[Key], random: &mut Random) {
    match random.below(8) {
        0 => add_look(script, random),
        1 => {
            let other = random_key(random);
            script.open(&random_request(random, other));
        }
        _ => add_call(script, keys, random),
    }
}

#[cfg(test)]
mod tests {
    use super::*;
    use crate::cases::desk::script::tests::outcomes;

    fn often(number: &str, answers: &[String]) -> bool {
        let refused = answers.iter().filter(|answer| answer.starts_with(number));
        refused.count() > 10
    }

    #[test]
    fn desks_are_full_and_seats_are_few() {
        let mut random = Random::new(1, "test");
        let answers = outcomes(|cases| (0..60).for_each(|_| add(cases, &mut random)));
        assert!(often("12 0 0 ", &answers), "NO SEAT");
        assert!(often("16 0 0 ", &answers), "FULL");
    }

    /// About ten large ones are drawn.
    #[test]
    fn some_desks_are_large() {
        let mut random = Random::new(1, "test");
        let mut cases = Cases::default();
        for _ in 0..10 * LARGE_ONE_IN {
            add(&mut cases, &mut random);
        }
        let large = cases.text.lines().filter(|line| {
            let bytes = line
                .strip_prefix("lend ")
                .and_then(|words| words.split(' ').next());
            bytes.is_some_and(|bytes| bytes.len() == 5)
        });
        let large = large.count();
        assert!((3..30).contains(&large), "{large}");
    }
}
