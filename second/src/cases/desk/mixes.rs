//! Every pair of words that is mixed, and the desk that is left afterwards.

use super::frames::{reply, request, Key, R};
use super::script::Script;
use crate::cases::Cases;
use crate::script::{self, Change};

/// The most letters a word has.
const LONGEST: usize = 4;

pub fn add_all(cases: &mut Cases) {
    for mixes in ["mixes", "mixes-by-address"] {
        add_pairs(cases, mixes);
        add_desk_afterwards(cases);
    }
}

/// Every pair of words in cases that begin with this word.
fn add_pairs(cases: &mut Cases, mixes: &str) {
    let words = words();
    for first in &words {
        for second in &words {
            cases.add_to_script(&format!("{mixes} {first} {second}"));
        }
    }
}

/// The desk is empty and has eight cells. Nothing was written to them.
fn add_desk_afterwards(cases: &mut Cases) {
    const KEY: Key = (b' ', b'z', 9);
    const LENT_MARK: u32 = 4_008_636_142;
    let mut script = Script::go_on(cases, script::lend(408, 8));
    script.used();
    script.look(b'P', R);
    script.open(&request(KEY));
    script.reply(&reply(R, KEY));
    script.look(b'P', R);
    script.change(&Change::Count(9));
    for place in [0, 7, 8] {
        script.held(LENT_MARK, place);
    }
    script.reset();
}

/// All words with at most one E and at most one Z, including the empty one.
fn words() -> Vec<String> {
    let mut words = vec!["-".to_string()];
    let mut longest = vec![String::new()];
    for _ in 0..LONGEST {
        longest = longest
            .iter()
            .flat_map(|word| ["R", "E", "Z"].map(|letter| format!("{word}{letter}")))
            .filter(|word| ["E", "Z"].iter().all(|end| word.matches(end).count() <= 1))
            .collect();
        words.extend_from_slice(&longest);
    }
    words
}

#[cfg(test)]
mod tests {
    use super::*;
    use crate::cases::desk::script::tests::outcomes;

    #[test]
    fn there_are_45_words() {
        let words = words();
        assert_eq!(words.len(), 45);
        for word in ["-", "R", "Z", "ZE", "RRRR", "EZRR", "RRZE"] {
            assert!(words.contains(&word.to_string()), "{word}");
        }
        assert!(!words.contains(&"EE".to_string()));
    }

    #[test]
    fn every_pair_is_mixed() {
        for mixes in ["mixes", "mixes-by-address"] {
            let mut cases = Cases::default();
            add_pairs(&mut cases, mixes);
            assert_eq!(cases.text.lines().count(), 2_025);
            let first = format!("{mixes} - -\n{mixes} - R\n");
            assert!(cases.text.starts_with(&first));
        }
    }

    #[test]
    fn every_word_can_be_mixed() {
        for word in words() {
            let script = format!(
                "mixes {word} -\nmixes - {word}\nmixes-by-address {word} -\n\
                 mixes-by-address - {word}\n"
            );
            let answers = crate::answers::file(script.as_bytes()).expect("cases");
            assert!(answers.lines().all(|line| line.starts_with("1 ")), "{word}");
        }
    }

    #[test]
    fn the_desk_afterwards_is_empty() {
        for mixes in ["mixes R E", "mixes-by-address R E"] {
            let answers = outcomes(|cases| {
                cases.add_to_script("bits 7");
                cases.add_to_script(mixes);
                add_desk_afterwards(cases);
            });
            let expected = [
                "0", "0 0 0 0", "0 0 0 0", "0 0 0 0", "0 0 0 1", "set", "1", "7", "none", "0 0 0 0",
            ];
            assert_eq!(answers[2..], expected);
        }
    }

    #[test]
    fn short_words_are_played() {
        let script = "mixes - -\nmixes R E\nmixes-by-address R E\nmixes RR ZE\n";
        let answers = crate::answers::file(script.as_bytes()).expect("cases");
        let played = |line: &str| line.split(' ').next().map(str::to_string);
        let counts: Vec<_> = answers.lines().filter_map(played).collect();
        assert_eq!(counts, ["1", "2", "2", "6"]);
    }
}
