//! What has been compared so far, reported in one line after each piece and in full at the end.

use super::piece::{Outcome, Piece, Subject};
use super::tally::{Outcomes, Tally};
use std::time::Instant;

/// The names of the refusals, by number, from 1 on.
const NAMES: [&str; 17] = [
    "KIND",
    "LENGTH",
    "END",
    "ADDRESS",
    "FIELD",
    "RECORD",
    "ROOM",
    "TIME",
    "DESK",
    "NO ANSWER DUE",
    "IN USE",
    "NO SEAT",
    "STRAY",
    "ENDED",
    "OUT OF PLACE",
    "FULL",
    "NO SUCH",
];

pub struct Report {
    begun: Instant,
    first_seed: u64,
    last_seed: Option<u64>,
    pieces: u64,
    scripts: u64,
    captures: u64,
    tally: Tally,
    differences: u64,
    /// The seed of the piece that was not finished.
    stopped: Option<u64>,
}

impl Report {
    pub fn new(first_seed: u64) -> Self {
        Report {
            begun: Instant::now(),
            first_seed,
            last_seed: None,
            pieces: 0,
            scripts: 0,
            captures: 0,
            tally: Tally::default(),
            differences: 0,
            stopped: None,
        }
    }

    pub fn take(&mut self, piece: &Piece, outcome: Outcome) {
        self.last_seed = Some(piece.seed);
        self.pieces += 1;
        match piece.subject {
            Subject::Frames => {}
            Subject::Scripts => self.scripts += piece.size,
            Subject::Captures => self.captures += piece.size,
        }
        self.tally.add(&outcome.tally);
        self.differences += outcome.differences.len() as u64;
    }

    /// Notes that the run was stopped and that this piece was not finished.
    pub fn stop(&mut self, piece: &Piece) {
        self.stopped = Some(piece.seed);
    }

    pub fn is_stopped(&self) -> bool {
        self.stopped.is_some()
    }

    pub fn differences(&self) -> u64 {
        self.differences
    }

    /// The number of frames that have been answered. It may be less than what was to be asked.
    fn frames(&self) -> u64 {
        self.tally.frames.iter().sum()
    }

    fn seconds(&self) -> u64 {
        self.begun.elapsed().as_secs()
    }

    pub fn progress(&self, piece: &Piece) -> String {
        format!(
            "{} pieces (the last: {} of seed {}), {} frames, {} scripts, {} captures, \
             {} differences, {} s",
            self.pieces,
            piece.subject.text(),
            piece.seed,
            self.frames(),
            self.scripts,
            self.captures,
            self.differences,
            self.seconds()
        )
    }

    pub fn summary(&self) -> String {
        let Tally {
            frames,
            records,
            calls,
            fates: [opened, collected, dynamic, refused],
            too_long,
        } = &self.tally;
        let lines = [
            format!("frames read: {}", outcomes_text(frames, "accepted")),
            format!("records written: {}", outcomes_text(records, "written")),
            format!("scripts: {}", self.scripts),
            format!(
                "openings and replies in them: {}",
                outcomes_text(calls, "done")
            ),
            format!("captures: {}, of which {too_long} too long", self.captures),
            format!(
                "frames found in them: {}; {opened} opened, {collected} collected, \
                 {dynamic} dynamic, {refused} refused",
                opened + collected + dynamic + refused
            ),
            self.seeds_text(),
            format!("{} pieces in {} s", self.pieces, self.seconds()),
            format!("differences: {}", self.differences),
        ];
        lines.map(|line| line + "\n").concat()
    }

    /// Which seeds were used, and which seed is next. If the run was stopped, the next seed is that
    /// of the piece that was not finished.
    fn seeds_text(&self) -> String {
        let next = self
            .stopped
            .or(self.last_seed.map(|last| last.wrapping_add(1)))
            .unwrap_or(self.first_seed);
        let seeds = match self.last_seed {
            Some(last) => format!("{} to {last}", self.first_seed),
            None => "none".to_string(),
        };
        let stopped = if self.is_stopped() { " (stopped)" } else { "" };
        format!("seeds: {seeds}{stopped}; go on with --seed {next}")
    }
}

/// How many there were, how many were done, and how many got each refusal that occurred.
fn outcomes_text(outcomes: &Outcomes, done: &str) -> String {
    let sum: u64 = outcomes.iter().sum();
    let [accepted, refused @ ..] = outcomes;
    let refused: String = (1..)
        .zip(NAMES.iter().zip(refused))
        .filter(|&(_, (_, &count))| count > 0)
        .map(|(number, (name, count))| format!(", {number} {name} {count}"))
        .collect();
    format!("{sum}; {done} {accepted}{refused}")
}

#[cfg(test)]
mod tests {
    use super::*;

    fn outcome(differences: usize) -> Outcome {
        let mut tally = Tally::default();
        tally.frames[0] = 3;
        tally.frames[5] = 4;
        tally.calls[16] = 1;
        tally.fates = [1, 2, 0, 3];
        tally.too_long = 1;
        Outcome {
            differences: vec!["difference".to_string(); differences],
            tally,
        }
    }

    fn piece(subject: Subject, seed: u64, size: u64) -> Piece {
        Piece {
            subject,
            seed,
            size,
        }
    }

    #[test]
    fn what_was_taken_is_told() {
        let mut report = Report::new(5);
        report.take(&piece(Subject::Frames, 5, 7), outcome(0));
        let scripts = piece(Subject::Scripts, 6, 20);
        report.take(&scripts, outcome(2));
        let progress = report.progress(&scripts);
        assert!(progress.starts_with("2 pieces (the last: scripts of seed 6), 14 frames, 20 scripts, 0 captures, 2 differences, "));
        let summary = report.summary();
        for line in [
            "frames read: 14; accepted 6, 5 FIELD 8\n",
            "records written: 0; written 0\n",
            "openings and replies in them: 2; done 0, 16 FULL 2\n",
            "captures: 0, of which 2 too long\n",
            "frames found in them: 12; 2 opened, 4 collected, 0 dynamic, 6 refused\n",
            "seeds: 5 to 6; go on with --seed 7\n",
            "differences: 2\n",
        ] {
            assert!(summary.contains(line), "{line} in {summary}");
        }
    }

    #[test]
    fn a_run_that_was_stopped() {
        let mut report = Report::new(5);
        let left = piece(Subject::Frames, 9, 7);
        let done = piece(Subject::Captures, 8, 7);
        report.stop(&piece(Subject::Frames, 5, 7));
        assert!(report
            .summary()
            .contains("seeds: none (stopped); go on with --seed 5\n"));
        report.take(&done, outcome(0));
        report.stop(&left);
        assert!(report
            .summary()
            .contains("seeds: 5 to 8 (stopped); go on with --seed 9\n"));
    }
}
