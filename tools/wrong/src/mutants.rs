//! Wrong programs, each made from a crate's own sources by one small change.
//!
//! A mutant of the code changes a function's body or a constant. A mutant of the definitions changes the right side of an
//! equation, or a number or letter of a statement. Contracts, comments, signatures and declarations stay as they are. A
//! change is left out if it clearly cannot be compiled or clearly leaves the program the same.

mod both;
mod clauses;
mod code;
mod definitions;
mod edit;
mod items;
mod lexer;
mod names;
mod numeral;
mod region;
mod sample;
mod shape;
mod types;
mod values;
mod world;

pub use sample::{sample, shares};

use std::fmt;
use std::fs;
use std::path::Path;

/// One line of a file as it is, and as it is in the mutant.
#[derive(Clone, Debug, PartialEq, Eq)]
pub struct Change {
    /// The path from the crate's folder, such as `src/lib.rt`.
    pub file: String,
    /// Counted from 1.
    pub line: usize,
    pub old: String,
    pub new: String,
}

/// A wrong program: one or more lines changed.
#[derive(Clone, Debug, PartialEq, Eq)]
pub struct Mutant {
    pub krate: String,
    /// What was changed: "operator", "constant" and so on.
    pub kind: &'static str,
    pub changes: Vec<Change>,
}

/// Where a mutant changes something.
#[derive(Clone, Copy, Debug, PartialEq, Eq)]
pub enum Where {
    Code,
    Definitions,
    Both,
}

/// All mutants of one crate, in a fixed order. `folder` is the crate's folder.
pub fn all(folder: &Path, krate: &str, at: Where) -> Result<Vec<Mutant>, String> {
    match at {
        Where::Code => code::all(folder, krate),
        Where::Definitions => definitions::all(folder, krate),
        Where::Both => both::all(folder, krate),
    }
}

impl Mutant {
    /// A label that can be used as a file name: the place of the first change, its kind, and a number made from all changes.
    pub fn name(&self) -> String {
        let first = self.changes.first();
        let file = first.map_or("", |change| change.file.as_str());
        let line = first.map_or(0, |change| change.line);
        let safe = |c: char| if c.is_ascii_alphanumeric() || c == '.' || c == '_' { c } else { '-' };
        let file: String = file.chars().map(safe).collect();
        format!("{file}-{line}-{}-{:05x}", self.kind, self.mark() & 0xf_ffff)
    }

    /// Makes the changes in a copy of the crate.
    pub fn apply(&self, folder: &Path) -> Result<(), String> {
        for change in &self.changes {
            let path = folder.join(&change.file);
            let text = fs::read_to_string(&path).map_err(|e| format!("{}: {e}", change.file))?;
            let mut lines: Vec<&str> = text.split('\n').collect();
            match lines.get_mut(change.line - 1) {
                Some(line) if *line == change.old => *line = &change.new,
                _ => return Err(format!("{}:{}: the line has changed", change.file, change.line)),
            }
            fs::write(&path, lines.join("\n")).map_err(|e| format!("{}: {e}", change.file))?;
        }
        Ok(())
    }

    /// A hash of the changes.
    fn mark(&self) -> u64 {
        let places = self.changes.iter().map(|change| format!("{}\n{}\n{}\n", change.file, change.line, change.new));
        let bytes = places.collect::<String>().into_bytes();
        let mixed =
            bytes.iter().fold(0xcbf2_9ce4_8422_2325, |h: u64, b| (h ^ u64::from(*b)).wrapping_mul(0x100_0000_01b3));
        mixed ^ (mixed >> 32)
    }
}

impl fmt::Display for Mutant {
    fn fmt(&self, f: &mut fmt::Formatter<'_>) -> fmt::Result {
        for (i, change) in self.changes.iter().enumerate() {
            let gap = if i == 0 { "" } else { "\n" };
            let (old, new) = (change.old.trim(), change.new.trim());
            write!(f, "{gap}{}:{}\n- {old}\n+ {new}", change.file, change.line)?;
        }
        Ok(())
    }
}

#[cfg(test)]
mod tests;
