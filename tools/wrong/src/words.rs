//! Reads the command line.

use crate::mutants::Where;
use crate::tries::{Plan, Way};
use std::path::PathBuf;
use std::time::Duration;

pub struct Words {
    pub root: PathBuf,
    pub crates: Vec<String>,
    pub only: Vec<String>,
    pub folder: String,
    pub list: bool,
    pub made: Option<Made>,
    pub plan: Plan,
}

/// The mutants that are to be made.
pub struct Made {
    pub n: usize,
    pub seed: u64,
    pub at: Where,
}

const USAGE: &str =
    "usage: wrong ROOT [--crates A,B] [--only A,B] [--folder NAME] [--jobs N] [--wait FILE] [--full | --twice] \
                     [--limit S] [--keep] [--list] [--mutants N [--seed S] [--specs | --both]]";

pub fn read(words: impl Iterator<Item = String>) -> Result<Words, String> {
    let plan = Plan { jobs: 2, way: Way::Warm, wait: None, limit: Duration::from_secs(900), keep: false };
    let mut read = Words {
        root: PathBuf::new(),
        crates: Vec::new(),
        only: Vec::new(),
        folder: "wrong".to_string(),
        list: false,
        made: None,
        plan,
    };
    let (mut roots, mut mutants, mut seed, mut at) = (Vec::new(), None, None, None);
    let mut words = words;
    while let Some(word) = words.next() {
        let mut value = || words.next().ok_or(format!("{word} wants a word after it; {USAGE}"));
        match word.as_str() {
            "--crates" => read.crates = parts(&value()?),
            "--only" => read.only = parts(&value()?),
            "--folder" => read.folder = value()?,
            "--jobs" => read.plan.jobs = number(&word, &value()?)?,
            "--wait" => read.plan.wait = Some(PathBuf::from(value()?)),
            "--full" => read.plan.way = Way::Full,
            "--twice" => read.plan.way = Way::Twice,
            "--limit" => read.plan.limit = Duration::from_secs(number(&word, &value()?)?),
            "--keep" => read.plan.keep = true,
            "--list" => read.list = true,
            "--mutants" => mutants = Some(number(&word, &value()?)?),
            "--seed" => seed = Some(number(&word, &value()?)?),
            "--specs" => at = Some(Where::Definitions),
            "--both" => at = Some(Where::Both),
            _ if word.starts_with('-') => return Err(format!("{word} is not known; {USAGE}")),
            _ => roots.push(word),
        }
    }
    if roots.len() != 1 || read.plan.jobs == 0 || (mutants.is_none() && (seed.is_some() || at.is_some())) {
        return Err(USAGE.to_string());
    }
    read.root = PathBuf::from(roots.remove(0));
    read.made = mutants.map(|n| Made { n, seed: seed.unwrap_or(1), at: at.unwrap_or(Where::Code) });
    Ok(read)
}

fn parts(word: &str) -> Vec<String> {
    word.split(',').map(String::from).collect()
}

fn number<N: std::str::FromStr>(word: &str, value: &str) -> Result<N, String> {
    value.parse().map_err(|_| format!("{word} wants a number; {USAGE}"))
}

#[cfg(test)]
mod tests {
    use super::*;

    fn of(words: &str) -> Result<Words, String> {
        read(words.split_whitespace().map(String::from))
    }

    #[test]
    fn words_are_read() {
        let words = of(". --crates a,b --jobs 3 --wait f --twice").expect("words");
        assert_eq!(words.root, PathBuf::from("."));
        assert_eq!(words.crates, ["a", "b"]);
        assert!(words.plan.jobs == 3 && words.plan.way == Way::Twice && words.plan.wait == Some(PathBuf::from("f")));
        assert!(words.made.is_none());
        let made = of(". --mutants 40 --seed 7 --specs").expect("words").made.expect("mutants");
        assert!(made.n == 40 && made.seed == 7 && made.at == Where::Definitions);
    }

    #[test]
    fn bad_words_are_refused() {
        for words in
            ["", ". .", ". --jobs", ". --jobs x", ". --jobs 0", ". --what", ". --specs", ". --seed 1", ". --mutants x"]
        {
            assert!(of(words).is_err(), "{words}");
        }
    }
}
