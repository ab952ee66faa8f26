//! One piece: it is made, given to its program, answered here, and compared.

use super::compare::{self, Asked};
use super::program::{Answered, Programs};
use super::tally::Tally;
use crate::answers;
use crate::cases::{bulk, captures, desk};
use crate::listing;
use crate::spelling::bytes_text;

/// What a piece is about.
#[derive(Clone, Copy, Debug, PartialEq, Eq)]
pub enum Subject {
    Frames,
    Scripts,
    Captures,
}

impl Subject {
    pub fn text(self) -> &'static str {
        match self {
            Subject::Frames => "frames",
            Subject::Scripts => "scripts",
            Subject::Captures => "captures",
        }
    }

    /// The name of the program that answers it.
    fn program(self) -> &'static str {
        match self {
            Subject::Frames => "cases",
            Subject::Scripts => "scripts",
            Subject::Captures => "lists",
        }
    }
}

#[derive(Clone, Copy, Debug)]
pub struct Piece {
    pub subject: Subject,
    pub seed: u64,
    /// How many frames, scripts or captures.
    pub size: u64,
}

/// The result of a piece.
pub struct Outcome {
    /// Each difference as it is printed.
    pub differences: Vec<String>,
    pub tally: Tally,
}

impl Piece {
    /// Compares the piece. Returns nothing if the run was stopped.
    pub fn compare(&self, programs: &Programs) -> Result<Option<Outcome>, String> {
        match self.subject {
            Subject::Frames => {
                let cases = bulk::piece(self.seed, self.size);
                self.compare_cases(programs, cases.into_iter().map(|case| vec![case]).collect())
            }
            Subject::Scripts => {
                let scripts = desk::bulk::piece(self.seed, self.size);
                self.compare_cases(programs, scripts)
            }
            Subject::Captures => {
                let captures = captures::bulk::piece(self.seed, self.size);
                self.compare_captures(programs, &captures)
            }
        }
    }

    /// Compares groups of lines. The lines of a group belong together, and at most one difference
    /// is reported for each group.
    fn compare_cases(
        &self,
        programs: &Programs,
        groups: Vec<Vec<String>>,
    ) -> Result<Option<Outcome>, String> {
        let asked = Asked::of_groups(groups);
        let input = asked.text();
        let running = programs.start_reading(self.subject.program(), &input)?;
        // We answer the cases while the program is at work.
        let own = answers::by_case(input.as_bytes())?;
        let mut tally = Tally::default();
        for (case, answer) in asked.lines().zip(&own) {
            tally.take_case(case, answer);
        }
        let Some(answered) = running.finish()? else {
            return Ok(None);
        };
        let lines = compare::lines(&answered.output);
        let given = compare::cut_by_count(&lines, &own);
        Ok(Some(self.outcome(&asked, &own, &given, &answered, tally)))
    }

    fn compare_captures(
        &self,
        programs: &Programs,
        captures: &[Vec<u8>],
    ) -> Result<Option<Outcome>, String> {
        let running = programs.start_listing(self.subject.program(), captures)?;
        let own: Vec<Vec<String>> = captures.iter().map(|capture| list(capture)).collect();
        let mut tally = Tally::default();
        for list in &own {
            tally.take_list(list);
        }
        let Some(answered) = running.finish()? else {
            return Ok(None);
        };
        let hex = captures.iter().map(|capture| vec![bytes_text(capture)]);
        let asked = Asked::of_groups(hex.collect());
        let lines = compare::lines(&answered.output);
        let given = compare::cut_by_end(&lines);
        Ok(Some(self.outcome(&asked, &own, &given, &answered, tally)))
    }

    fn outcome(
        &self,
        asked: &Asked,
        own: &[Vec<String>],
        given: &[&[&[u8]]],
        answered: &Answered,
        tally: Tally,
    ) -> Outcome {
        let mut differences = compare::differences(asked, own, given);
        differences.extend(compare::bad_end(&answered.status));
        let heading = format!("difference: {}, seed {}\n", self.subject.text(), self.seed);
        Outcome {
            differences: differences
                .into_iter()
                .map(|difference| format!("{heading}{difference}"))
                .collect(),
            tally,
        }
    }
}

/// The lines of a capture's list, without their LF.
fn list(capture: &[u8]) -> Vec<String> {
    let list = String::from_utf8(listing::list(capture)).expect("a list is text");
    list.lines().map(str::to_string).collect()
}
