//! What the words after `bulk` ask for, and the pieces that the work is cut into.

use super::piece::{Piece, Subject};
use std::path::PathBuf;

pub const USAGE: &str = "second bulk RUN ROOM [--short] [--seed SEED] [--frames N] [--scripts N] \
                         [--captures N]";

/// How much is asked by default, and with `--short`.
const FULL: [u64; 3] = [20_000_000, 100_000, 100_000];
const SHORT: [u64; 3] = [200_000, 1_000, 1_000];

/// The seed of the first pieces if none is given.
const SEED: u64 = 1;

const SUBJECTS: [Subject; 3] = [Subject::Frames, Subject::Scripts, Subject::Captures];

/// How much of each subject is one piece.
const PIECES: [u64; 3] = [200_000, 1_000, 1_000];

#[derive(Debug, PartialEq, Eq)]
pub struct Options {
    /// The command that starts a proved program by its name.
    pub run: PathBuf,
    /// A directory that captures are written to. A file `stop` in it ends the run.
    pub room: PathBuf,
    pub seed: u64,
    /// How many frames, scripts and captures.
    amounts: [u64; 3],
}

impl Options {
    pub fn parse(words: &[&str]) -> Result<Self, String> {
        let [run, room, words @ ..] = words else {
            return Err(format!("usage: {USAGE}"));
        };
        let mut options = Options {
            run: run.into(),
            room: room.into(),
            seed: SEED,
            amounts: FULL,
        };
        options.take(words)?;
        Ok(options)
    }

    /// Takes one option after the other. A later option overrides an earlier one that sets the same
    /// thing.
    fn take(&mut self, words: &[&str]) -> Result<(), String> {
        let rest = match words {
            [] => return Ok(()),
            ["--short", rest @ ..] => {
                self.amounts = SHORT;
                rest
            }
            ["--seed", value, rest @ ..] => {
                self.seed = number(value)?;
                rest
            }
            [name, value, rest @ ..] => {
                let names = ["--frames", "--scripts", "--captures"];
                let place = names.iter().position(|known| known == name);
                let place = place.ok_or(format!("{name} is no option; usage: {USAGE}"))?;
                self.amounts[place] = number(value)?;
                rest
            }
            [word] => return Err(format!("{word} is not understood; usage: {USAGE}")),
        };
        self.take(rest)
    }

    /// The pieces, in rounds. Each round has a seed of its own and one piece of every subject that
    /// is not yet complete. The last piece of a subject has what is left.
    pub fn pieces(&self) -> impl Iterator<Item = Piece> + '_ {
        let rounds = (0..SUBJECTS.len()).map(|place| self.amounts[place].div_ceil(PIECES[place]));
        let rounds = rounds.max().unwrap_or(0);
        (0..rounds).flat_map(move |round| {
            let seed = self.seed.wrapping_add(round);
            (0..SUBJECTS.len()).filter_map(move |place| {
                let left = self.amounts[place].saturating_sub(round * PIECES[place]);
                let size = left.min(PIECES[place]);
                (size > 0).then_some(Piece {
                    subject: SUBJECTS[place],
                    seed,
                    size,
                })
            })
        })
    }
}

fn number(word: &str) -> Result<u64, String> {
    word.parse()
        .map_err(|_| format!("{word} is not a number below 2^64; usage: {USAGE}"))
}

#[cfg(test)]
mod tests {
    use super::*;

    fn options(words: &[&str]) -> Options {
        Options::parse(&[&["run", "room"], words].concat()).expect("options")
    }

    #[test]
    fn what_is_asked_for() {
        let options = options(&[
            "--short",
            "--seed",
            "7",
            "--scripts",
            "5",
            "--captures",
            "0",
        ]);
        assert_eq!(options.run, PathBuf::from("run"));
        assert_eq!(options.room, PathBuf::from("room"));
        assert_eq!((options.seed, options.amounts), (7, [200_000, 5, 0]));
    }

    #[test]
    fn nothing_said_is_all() {
        let options = options(&[]);
        assert_eq!(
            (options.seed, options.amounts),
            (1, [20_000_000, 100_000, 100_000])
        );
    }

    #[test]
    fn words_that_are_not_understood() {
        for words in [
            &[][..],
            &["run"],
            &["run", "room", "--seed"],
            &["run", "room", "--seed", "x"],
            &["run", "room", "--frames", "-1"],
            &["run", "room", "--long", "1"],
            &["run", "room", "7"],
        ] {
            let complaint = Options::parse(words).expect_err("a complaint");
            assert!(complaint.contains(USAGE), "{complaint}");
        }
    }

    #[test]
    fn pieces_add_up() {
        let amounts = [
            "--frames",
            "450000",
            "--scripts",
            "1000",
            "--captures",
            "2001",
        ];
        let options = options(&[&["--seed", "9"], &amounts[..]].concat());
        let pieces: Vec<(Subject, u64, u64)> = options
            .pieces()
            .map(|piece| (piece.subject, piece.seed, piece.size))
            .collect();
        let expected = [
            (Subject::Frames, 9, 200_000),
            (Subject::Scripts, 9, 1_000),
            (Subject::Captures, 9, 1_000),
            (Subject::Frames, 10, 200_000),
            (Subject::Captures, 10, 1_000),
            (Subject::Frames, 11, 50_000),
            (Subject::Captures, 11, 1),
        ];
        assert_eq!(pieces, expected);
    }

    #[test]
    fn nothing_asked_is_no_piece() {
        let options = options(&["--frames", "0", "--scripts", "0", "--captures", "0"]);
        assert_eq!(options.pieces().count(), 0);
    }

    #[test]
    fn the_last_seed_is_followed_by_the_first() {
        let words = [
            "--seed",
            "18446744073709551615",
            "--scripts",
            "2000",
            "--frames",
            "0",
        ];
        let seeds: Vec<u64> = options(&words)
            .pieces()
            .filter(|piece| piece.subject == Subject::Scripts)
            .map(|piece| piece.seed)
            .collect();
        assert_eq!(seeds, [u64::MAX, 0]);
    }
}
