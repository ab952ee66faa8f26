//! The comparison in bulk. Cases and captures are made in pieces, each piece from a seed. The
//! proved programs answer each piece, it is answered here too, and the answers are compared.

mod compare;
mod options;
mod piece;
mod program;
mod report;
pub mod tally;

use options::Options;
use program::Programs;
use report::Report;
use std::process::ExitCode;

/// The exit status if answers differed, and if nothing differed but the run was stopped early.
const DIFFERENT: u8 = 1;
const STOPPED: u8 = 3;

/// Gives one piece after the other to the programs. Differences and the summary go to standard
/// output, progress goes to standard error.
pub fn run(words: &[&str]) -> Result<ExitCode, String> {
    let options = Options::parse(words)?;
    let programs = Programs::new(&options.run, &options.room)?;
    let mut report = Report::new(options.seed);
    for piece in options.pieces() {
        let Some(outcome) = piece.compare(&programs)? else {
            report.stop(&piece);
            break;
        };
        for difference in &outcome.differences {
            crate::print(difference.as_bytes())?;
        }
        report.take(&piece, outcome);
        eprintln!("{}", report.progress(&piece));
    }
    crate::print(report.summary().as_bytes())?;
    Ok(ExitCode::from(exit_status(&report)))
}

fn exit_status(report: &Report) -> u8 {
    match (report.differences(), report.is_stopped()) {
        (1.., _) => DIFFERENT,
        (0, true) => STOPPED,
        (0, false) => 0,
    }
}
