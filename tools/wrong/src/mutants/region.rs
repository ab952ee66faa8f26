//! A part of the code that may be changed: the body of a function, or the value of a constant.

use super::items::{find, Constant, Function};
use super::lexer::{closing, Sort, Token};
use super::world::{File, World};
use std::ops::Range;

pub struct Region<'a> {
    pub world: &'a World,
    pub file: &'a File,
    pub function: Option<&'a Function>,
    pub constant: Option<&'a Constant>,
    pub range: Range<usize>,
    /// For each token of the file: is it in a pattern or a type? These are not changed.
    fixed: Vec<bool>,
}

/// An arm of a `match`: the tokens of its pattern and of its result.
pub struct Arm {
    pub pattern: Range<usize>,
    pub result: Range<usize>,
}

impl<'a> Region<'a> {
    /// The regions of a file.
    pub fn all(world: &'a World, file: &'a File) -> Vec<Region<'a>> {
        let bodies = file.items.functions.iter().map(|f| Region::new(world, file, Some(f), None, f.body.clone()));
        let values = file.items.constants.iter().map(|c| Region::new(world, file, None, Some(c), c.value.clone()));
        bodies.chain(values).collect()
    }

    fn new(
        world: &'a World,
        file: &'a File,
        function: Option<&'a Function>,
        constant: Option<&'a Constant>,
        range: Range<usize>,
    ) -> Region<'a> {
        let mut region = Region { world, file, function, constant, range, fixed: vec![false; file.tokens.len()] };
        let patterns = region.matches().into_iter().flatten().map(|arm| arm.pattern).chain(region.bindings());
        for i in patterns.flatten().collect::<Vec<_>>() {
            region.fixed[i] = true;
        }
        region
    }

    pub fn tokens(&self) -> &'a [Token] {
        &self.file.tokens
    }

    pub fn token(&self, at: usize) -> &'a Token {
        &self.file.tokens[at]
    }

    /// Is the token at `at` in the region, and is it this word or mark?
    pub fn is(&self, at: usize, text: &str) -> bool {
        self.range.contains(&at) && self.token(at).is(text)
    }

    /// May this token be changed?
    pub fn open(&self, at: usize) -> bool {
        self.range.contains(&at) && !self.fixed[at]
    }

    /// The places of the tokens that may be changed.
    pub fn places(&self) -> Vec<usize> {
        self.range.clone().filter(|at| self.open(*at)).collect()
    }

    /// Is it a mark between two operands? Such a mark has a space, or the start or end of the line, on each side.
    pub fn is_binary(&self, at: usize) -> bool {
        let token = self.token(at);
        let line = self.file.lines[token.line].as_bytes();
        let before = token.start == 0 || line[token.start - 1] == b' ';
        let after = line.get(token.end).is_none_or(|b| *b == b' ');
        token.sort == Sort::Mark && before && after && at > self.range.start && !self.is(at - 1, "=>")
    }

    /// The arms of each `match`.
    pub fn matches(&self) -> Vec<Vec<Arm>> {
        let starts = self.range.clone().filter(|at| self.is(*at, "match"));
        starts
            .filter_map(|at| find(self.tokens(), at + 1..self.range.end, &["{"]))
            .map(|open| self.arms(open))
            .collect()
    }

    /// The arms between the braces of a `match`.
    fn arms(&self, open: usize) -> Vec<Arm> {
        let end = closing(self.tokens(), open);
        let mut arms = Vec::new();
        let mut start = open + 1;
        while let Some(arrow) = find(self.tokens(), start..end, &["=>"]) {
            let block = self.is(arrow + 1, "{");
            let stop = match block {
                true => closing(self.tokens(), arrow + 1) + 1,
                false => find(self.tokens(), arrow + 1..end, &[","]).unwrap_or(end),
            };
            arms.push(Arm { pattern: start..arrow, result: arrow + 1..stop });
            start = stop + usize::from(stop < end && self.is(stop, ","));
        }
        arms
    }

    /// What is between each `let` and its `=`: a pattern, and possibly a type.
    fn bindings(&self) -> Vec<Range<usize>> {
        let lets = self.range.clone().filter(|at| self.is(*at, "let"));
        lets.filter_map(|at| Some(at..find(self.tokens(), at..self.range.end, &["=", ";"])?)).collect()
    }
}
