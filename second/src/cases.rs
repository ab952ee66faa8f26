//! Makes the two files of cases: the single cases and the scripts. Each subject adds its own cases.
//! The same seed always makes the same file. The captures to be listed are made separately, each as
//! one item.

pub mod bulk;
pub mod captures;
pub mod desk;
mod digits;
mod dynamic;
mod finder;
mod frames;
mod reply;
mod request;
mod spoiled;
mod times;

use std::collections::BTreeSet;

/// A file of cases in the making.
#[derive(Default)]
pub struct Cases {
    text: String,
    asked: BTreeSet<String>,
}

impl Cases {
    /// Adds one case, given without its LF, unless the file has it already.
    fn add(&mut self, case: String) {
        if !self.asked.contains(&case) {
            self.text.push_str(&case);
            self.text.push('\n');
            self.asked.insert(case);
        }
    }

    /// Adds a line of a script, even if the same line is there already. Its answer depends on the
    /// lines before it.
    fn add_to_script(&mut self, line: &str) {
        self.text.push_str(line);
        self.text.push('\n');
    }
}

/// The file of single cases. The answer to each does not depend on the others.
pub fn single_cases(seed: u64) -> String {
    let mut cases = Cases::default();
    digits::add_all(&mut cases, seed);
    times::add_all(&mut cases, seed);
    request::add_all(&mut cases, seed);
    reply::add_all(&mut cases, seed);
    dynamic::add_all(&mut cases, seed);
    finder::add_all(&mut cases, seed);
    spoiled::add_all(&mut cases, seed);
    cases.text
}

/// The file of scripts. All of them work on one desk, from the first line to the last.
pub fn scripts(seed: u64) -> String {
    let mut cases = Cases::default();
    desk::add_all(&mut cases, seed);
    cases.text
}

/// `text` with the bytes from `place` on replaced by `part`.
fn replaced(text: &[u8], place: usize, part: &[u8]) -> Vec<u8> {
    let mut bytes = text.to_vec();
    bytes[place..place + part.len()].copy_from_slice(part);
    bytes
}

#[cfg(test)]
pub mod tests {
    use super::*;
    use crate::answers;

    /// The words of the single cases and those of the scripts.
    const SINGLE_WORDS: [&str; 21] = [
        "number",
        "digits",
        "clock",
        "clock-text",
        "day",
        "net",
        "net-parts",
        "running",
        "read-request",
        "write-request",
        "damage-request",
        "read-reply",
        "write-reply",
        "damage-reply",
        "read-reply-value",
        "write-reply-value",
        "read-dynamic",
        "write-dynamic",
        "damage-dynamic",
        "find",
        "find-from",
    ];
    pub const SCRIPT_WORDS: [&str; 16] = [
        "lend",
        "bits",
        "count",
        "seat",
        "mark",
        "cell",
        "tally",
        "open",
        "reply",
        "reset",
        "used",
        "held",
        "look",
        "looks",
        "mixes",
        "mixes-by-address",
    ];

    /// The files are kept in the repository, and a person looks into them now and then.
    const MOST_BYTES_OF_FILE: usize = 750_000;
    const MOST_BYTES_OF_LINE: usize = 1_000;

    /// The words that lines begin with.
    pub fn words<'a>(lines: impl Iterator<Item = &'a str>) -> BTreeSet<&'a str> {
        lines.filter_map(|line| line.split(' ').next()).collect()
    }

    #[test]
    fn the_files_keep_their_limits() {
        for seed in [0, 1, 2, u64::MAX] {
            for file in [single_cases(seed), scripts(seed)] {
                assert!(file.len() < MOST_BYTES_OF_FILE, "{} bytes", file.len());
                assert!(file.lines().all(|line| line.len() < MOST_BYTES_OF_LINE));
            }
        }
    }

    #[test]
    fn every_line_is_a_case() {
        for seed in 0..20 {
            let answers = answers::file(single_cases(seed).as_bytes());
            assert!(answers.is_ok(), "{answers:?}");
        }
    }

    /// The mixes are left out, because they take long. Another test asks each of their words.
    #[test]
    fn every_line_of_a_script_is_a_case() {
        let scripts = scripts(1);
        let (scripts, _) = scripts.split_once("mixes ").expect("mixes");
        let answers = answers::file(scripts.as_bytes());
        assert!(answers.is_ok(), "{answers:?}");
    }

    /// Each file has all of its own words and none of the other file's.
    #[test]
    fn each_file_has_its_own_words() {
        let (singles, scripted) = (SINGLE_WORDS.into(), BTreeSet::from(SCRIPT_WORDS));
        assert!(scripted.is_disjoint(&singles));
        for seed in [1, 2] {
            assert_eq!(words(single_cases(seed).lines()), singles);
            assert_eq!(words(scripts(seed).lines()), scripted);
        }
    }

    #[test]
    fn a_seed_gives_the_same_files() {
        for file in [single_cases, scripts] {
            assert_eq!(file(1), file(1));
            assert_ne!(file(1), file(2));
        }
    }
}
