//! Reads numbers out of the definitions of an antt file.

use crate::lex::{self, Language, Token};
use std::fs;
use std::path::Path;

pub struct Spec {
    tokens: Vec<Token>,
}

impl Spec {
    /// Reads `ROOT/FILE`.
    pub fn read(root: &Path, file: &str) -> Result<Spec, String> {
        let path = root.join(file);
        let text = fs::read_to_string(&path).map_err(|e| format!("{}: cannot be read: {e}", path.display()))?;
        let mut tokens = lex::tokens(&text, Language::Antt);
        // a name between these marks is the same as without them
        tokens.retain(|token| token.text != "«" && token.text != "»");
        Ok(Spec { tokens })
    }

    /// The items of the file. An item begins at a line's first column and ends before the next one that does.
    fn items(&self) -> impl Iterator<Item = Vec<&str>> {
        let items = self.tokens.chunk_by(|_, next| !next.first);
        items.map(|item| item.iter().map(|token| token.text.as_str()).collect())
    }

    /// What comes after each `NAME ≡`.
    fn cases<'a>(&'a self, name: &'a str) -> impl Iterator<Item = Vec<&'a str>> {
        let words = self.tokens.windows(2).enumerate();
        let found = words.filter(move |(_, w)| w[0].text == name && w[1].text == "≡");
        found.map(|(i, _)| self.tokens[i + 2..].iter().map(|token| token.text.as_str()).collect())
    }

    /// Each `NAME = NUMBER`.
    pub fn numbers(&self) -> Vec<(String, u64)> {
        let number = |item: Vec<&str>| match item.as_slice() {
            [name, "=", value] => Some((name.to_string(), lex::number(value)?)),
            _ => None,
        };
        self.items().filter_map(number).collect()
    }

    /// The number of the definition `NAME`. With `NAME.FIELD`, the number of a field of the record that is defined. With
    /// `NAME ≡` or `NAME ≡ .FIELD`, the number of a case. None unless there is exactly one.
    pub fn number(&self, of: &str) -> Option<u64> {
        if let Some((name, wanted)) = of.split_once(" ≡ .") {
            let cases = self.cases(name).filter(|case| case.starts_with(&["record", "{"]));
            return single(cases.filter_map(|case| lex::number(field(&case, wanted)?)));
        }
        if let Some((name, wanted)) = of.split_once('.') {
            let records = self.items().filter(|item| item.starts_with(&[name, "=", "record", "{"]));
            return single(records.filter_map(|item| lex::number(field(&item, wanted)?)));
        }
        if let Some(name) = of.strip_suffix(" ≡") {
            return single(self.cases(name).filter_map(|case| lex::number(case.first()?)));
        }
        single(self.numbers().into_iter().filter(|(name, _)| name == of).map(|(_, value)| value))
    }

    /// Each refusal: `NAME = plain NUMBER` without an offset, `NAME = placed NUMBER` with one, or `NAME = spoiled_at NUMBER` with two.
    fn refused(&self) -> Vec<(String, u64)> {
        let number = |item: Vec<&str>| match item.as_slice() {
            [name, "=", "plain" | "placed" | "spoiled_at", value] => Some((name.to_string(), lex::number(value)?)),
            _ => None,
        };
        self.items().filter_map(number).collect()
    }

    /// The names of the refusals.
    pub fn refusals(&self) -> Vec<String> {
        self.refused().into_iter().map(|(name, _)| name).collect()
    }

    /// The number of a refusal; none unless there is exactly one.
    pub fn refusal(&self, of: &str) -> Option<u64> {
        single(self.refused().into_iter().filter(|(name, _)| name == of).map(|(_, value)| value))
    }

    /// The number that a word is, or the number of the definition with this name.
    fn value(&self, word: &str) -> Option<u64> {
        lex::number(word).or_else(|| self.number(word))
    }

    /// For each clause `NAME (CONSTRUCTOR ..) = record { .. }`: the constructor and the number of the field `wanted`. In
    /// `NAME (Some (CONSTRUCTOR ..))` it is the inner one, and `NAME None` is for nothing.
    pub fn clauses(&self, name: &str, wanted: &str) -> Vec<(String, Option<u64>)> {
        let clause = |item: Vec<&str>| {
            let (first, rest) = item.split_first()?;
            let found = rest.iter().find(|word| !["(", "Some"].contains(word)).filter(|_| *first == name)?;
            let constructor = if *found == "None" { "Nothing" } else { found };
            Some((constructor.to_string(), field(&item, wanted).and_then(|word| self.value(word))))
        };
        self.items().filter_map(clause).collect()
    }
}

/// The only number; none if there are more or none.
fn single(mut numbers: impl Iterator<Item = u64>) -> Option<u64> {
    numbers.next().filter(|_| numbers.next().is_none())
}

/// The word of `wanted = WORD` in a record, but not in a record inside it.
fn field<'a>(item: &[&'a str], wanted: &str) -> Option<&'a str> {
    let mut depth = 0;
    let at = item.iter().enumerate().position(|(i, word)| {
        depth += i32::from(*word == "{") - i32::from(*word == "}");
        depth == 1 && item[i..].starts_with(&[wanted, "="])
    })?;
    let ends = matches!(item.get(at + 3), None | Some(&";") | Some(&"}"));
    item.get(at + 2).copied().filter(|_| ends)
}
