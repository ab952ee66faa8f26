//! Changes of pieces of lines, and the mutants that they make.

use super::lexer::Token;
use super::{Change, Mutant};

/// A piece of a line, and its replacement. Lines and places count from 0, and places are in bytes.
#[derive(Clone, Debug)]
pub struct Piece {
    pub line: usize,
    pub start: usize,
    pub end: usize,
    pub new: String,
}

/// What a mutant changes in a file.
#[derive(Clone, Debug)]
pub struct Edit {
    pub kind: &'static str,
    pub pieces: Vec<Piece>,
}

impl Piece {
    /// The piece from one token to another on the same line.
    pub fn of(first: &Token, last: &Token, new: &str) -> Piece {
        Piece { line: first.line, start: first.start, end: last.end, new: new.to_string() }
    }
}

impl Edit {
    /// Replaces one token.
    pub fn token(kind: &'static str, token: &Token, new: &str) -> Edit {
        Edit { kind, pieces: vec![Piece::of(token, token, new)] }
    }

    /// Exchanges two runs of tokens, each of one line.
    pub fn exchange(kind: &'static str, lines: &[String], a: &[Token], b: &[Token]) -> Option<Edit> {
        let (old_a, old_b) = (text_of(lines, a)?, text_of(lines, b)?);
        let pieces = vec![Piece::of(a.first()?, a.last()?, &old_b), Piece::of(b.first()?, b.last()?, &old_a)];
        Some(Edit { kind, pieces })
    }

    /// The mutant that the edit makes of a file; none if no line changes.
    pub fn mutant(&self, krate: &str, file: &str, lines: &[String]) -> Option<Mutant> {
        let changes = self.changes(file, lines);
        (!changes.is_empty()).then(|| Mutant { krate: krate.to_string(), kind: self.kind, changes })
    }

    /// The lines that change, in order.
    pub fn changes(&self, file: &str, lines: &[String]) -> Vec<Change> {
        let mut pieces = self.pieces.clone();
        pieces.sort_by_key(|piece| (piece.line, piece.start));
        let mut changes: Vec<Change> = Vec::new();
        for piece in pieces.iter().rev() {
            let old = lines[piece.line].clone();
            let same = changes.last().is_some_and(|change| change.line == piece.line + 1);
            if !same {
                changes.push(Change { file: file.to_string(), line: piece.line + 1, old: old.clone(), new: old });
            }
            if let Some(change) = changes.last_mut() {
                change.new.replace_range(piece.start..piece.end, &piece.new);
            }
        }
        changes.reverse();
        changes.retain(|change| change.new != change.old);
        changes
    }
}

/// The text of tokens as it is in their line; none if they are on more than one line.
pub fn text_of(lines: &[String], tokens: &[Token]) -> Option<String> {
    let (first, last) = (tokens.first()?, tokens.last()?);
    (first.line == last.line).then(|| lines[first.line][first.start..last.end].to_string())
}

/// Do two runs of tokens have the same text?
pub fn same(a: &[Token], b: &[Token]) -> bool {
    a.len() == b.len() && a.iter().zip(b).all(|(x, y)| x.text == y.text)
}

/// The mutants that edits of a file make, in order of their places, each once.
pub fn mutants(mut edits: Vec<Edit>, krate: &str, file: &str, lines: &[String]) -> Vec<Mutant> {
    let place = |edit: &Edit| edit.pieces.iter().map(|piece| (piece.line, piece.start)).min();
    edits.sort_by_key(place);
    let mut found: Vec<Mutant> = Vec::new();
    for mutant in edits.iter().filter_map(|edit| edit.mutant(krate, file, lines)) {
        let line = mutant.changes[0].line;
        let seen =
            found.iter().rev().take_while(|other| other.changes[0].line >= line).any(|o| o.changes == mutant.changes);
        if !seen {
            found.push(mutant);
        }
    }
    found
}

#[cfg(test)]
mod tests {
    use super::*;
    use crate::mutants::lexer;

    #[test]
    fn two_pieces_of_one_line() {
        let lines = vec!["f(a, bcd)".to_string()];
        let tokens = lexer::code(&lines[0]);
        let edit = Edit::exchange("argument", &lines, &tokens[2..3], &tokens[4..5]).expect("one line");
        assert_eq!(edit.changes("x", &lines)[0].new, "f(bcd, a)");
    }

    #[test]
    fn the_same_change_is_made_once() {
        let lines = vec!["a + b".to_string()];
        let tokens = lexer::code(&lines[0]);
        let edits = vec![Edit::token("operator", &tokens[1], "-"), Edit::token("constant", &tokens[1], "-")];
        let none = Edit::token("operator", &tokens[1], "+");
        assert_eq!(mutants(edits, "k", "x", &lines).len(), 1);
        assert_eq!(mutants(vec![none], "k", "x", &lines).len(), 0);
    }
}
