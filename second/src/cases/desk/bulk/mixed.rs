//! Every mix of two answers, with words that may end more than once, and calls on the desk that is
//! left.

use super::{add_call, add_look};
use crate::cases::desk::frames::Key;
use crate::cases::desk::script::Script;
use crate::cases::Cases;
use crate::random::Random;
use crate::script;

pub fn add(cases: &mut Cases, random: &mut Random) {
    const KEYS: [Key; 3] = [(b' ', b'1', 7), (b' ', b'A', 7), (b'0', b'1', 7)];
    let mixes = random.pick(&["mixes", "mixes-by-address"]);
    let (first, second) = (word(random), word(random));
    cases.add_to_script(&format!("{mixes} {first} {second}"));
    let mut script = Script::go_on(cases, script::lend(408, 8));
    for _ in 0..random.below(6) {
        add_look(&mut script, random);
        add_call(&mut script, &KEYS, random);
    }
}

/// A word of up to four letters, or `-` for none.
fn word(random: &mut Random) -> String {
    let length = random.place(5);
    if length == 0 {
        return "-".to_string();
    }
    (0..length)
        .map(|_| char::from(random.pick(b"RRREZ")))
        .collect()
}

#[cfg(test)]
mod tests {
    use super::*;

    #[test]
    fn words_have_up_to_four_letters() {
        let mut random = Random::new(1, "test");
        let words: Vec<String> = (0..200).map(|_| word(&mut random)).collect();
        assert!(words.iter().all(|word| (1..=4).contains(&word.len())));
        assert!(words.contains(&"-".to_string()));
        assert!(words
            .iter()
            .any(|word| word.matches(['E', 'Z']).count() > 1));
    }
}
