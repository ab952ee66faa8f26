//! Mutants that change the code and the definitions in the same way: a number that is 12 in both becomes 13 in both.

use super::definitions::{self, Library};
use super::edit::Edit;
use super::lexer::{Sort, Token};
use super::numeral::Numeral;
use super::region::Region;
use super::values::{self, chosen, letter_of, next_letter, plain_letters};
use super::world::{File, World};
use super::{types, Change, Mutant};
use std::collections::BTreeSet;
use std::path::Path;

/// How many lines of the definitions are tried with one line of the code.
const PARTNERS: usize = 3;

/// From this number on, equal numbers in code and definitions are taken to mean the same thing. A smaller number, or the
/// code of a letter, is taken to only if the same word is beside it.
const TELLING: u128 = 10;

/// The value at a place.
#[derive(Clone, Copy, Debug, PartialEq, Eq)]
enum Value {
    Number(u128),
    Letter(char),
}

#[derive(Clone, Copy, Debug, PartialEq, Eq, PartialOrd, Ord)]
enum Side {
    Before,
    After,
}

/// A number or a letter of a file.
struct Spot {
    value: Value,
    /// "constant" if it is written as a number, "letter" if as a letter.
    kind: &'static str,
    line: usize,
    /// The changed line.
    change: Change,
    /// For a letter in a text: the text, and the place of the letter in it.
    text: Option<(String, usize)>,
    /// The word before it.
    before: Option<String>,
    /// The words beside it, each with its side.
    near: BTreeSet<(Side, String)>,
    /// The words of its line, and the name of the function or statement that it is in.
    words: BTreeSet<String>,
    /// The file's name without folder, ending and `_`, in lower case.
    stem: String,
}

/// All mutants of a crate that change a line of the code and one of the definitions.
pub fn all(folder: &Path, krate: &str) -> Result<Vec<Mutant>, String> {
    let (world, library) = (World::read(folder, krate)?, Library::read(folder, krate)?);
    let defined: Vec<Spot> = library.own().iter().flat_map(spots_of_definitions).collect();
    let mut mutants = Vec::new();
    for file in world.own() {
        let spots = spots_of_code(&world, file);
        let lines: BTreeSet<usize> = spots.iter().map(|spot| spot.line).collect();
        for line in lines {
            let own: Vec<&Spot> = spots.iter().filter(|spot| spot.line == line).collect();
            mutants.extend(with_partners(krate, &own, &defined));
        }
    }
    Ok(mutants)
}

// ---- pairs

/// How well two places match: by the names of their files, the word before them, the words beside them and the words of
/// their lines.
fn rank(code: &Spot, defined: &Spot) -> (bool, bool, usize, usize) {
    let before = code.before.is_some() && code.before == defined.before;
    let near = code.near.intersection(&defined.near).count();
    (code.stem == defined.stem, before, near, code.words.intersection(&defined.words).count())
}

/// May two places be taken to mean the same?
fn fit(code: &Spot, defined: &Spot) -> bool {
    match (code.value, defined.value) {
        (Value::Number(a), Value::Number(b)) if a == b => {
            (a >= TELLING && code.kind == "constant") || !code.near.is_disjoint(&defined.near)
        }
        (a, b) => a == b && holds(code, defined),
    }
}

/// A letter in a text of the code matches a letter in a text of the definitions only if the whole of that text is in the
/// code's text, with the letter at the same place.
fn holds(code: &Spot, defined: &Spot) -> bool {
    let (Some((text, at)), Some((part, inner))) = (&code.text, &defined.text) else { return code.text.is_none() };
    let start = at.checked_sub(*inner);
    part.len() > 1 && start.and_then(|start| text.get(start..)).is_some_and(|rest| rest.starts_with(part.as_str()))
}

/// The mutants of one line of the code with the lines of the definitions that match best.
fn with_partners(krate: &str, own: &[&Spot], defined: &[Spot]) -> Vec<Mutant> {
    let pairs = own.iter().flat_map(|code| defined.iter().filter(|d| fit(code, d)).map(|d| (*code, d)));
    let mut pairs: Vec<(&Spot, &Spot)> = pairs.collect();
    pairs.sort_by_key(|(code, defined)| std::cmp::Reverse(rank(code, defined)));
    let mut partners: Vec<(&str, usize)> = Vec::new();
    let mut mutants: Vec<Mutant> = Vec::new();
    let mut seen: BTreeSet<(String, &str, usize)> = BTreeSet::new();
    for (code, defined) in pairs {
        let partner = (defined.change.file.as_str(), defined.line);
        let known = partners.contains(&partner);
        if (known || partners.len() < PARTNERS) && seen.insert((code.change.new.clone(), partner.0, partner.1)) {
            partners.extend((!known).then_some(partner));
            mutants.push(pair(krate, code, defined));
        }
    }
    mutants
}

fn pair(krate: &str, code: &Spot, defined: &Spot) -> Mutant {
    let kind = if code.kind == defined.kind { code.kind } else { "letter" };
    Mutant { krate: krate.to_string(), kind, changes: vec![code.change.clone(), defined.change.clone()] }
}

// ---- places

/// A file of code or of definitions, in which places are found.
struct Page<'a> {
    name: &'a str,
    lines: &'a [String],
    tokens: &'a [Token],
}

impl Page<'_> {
    /// The place of a token that an edit changes, inside the function or statement `owner`.
    fn spot(&self, value: Value, at: usize, edit: &Edit, owner: &str) -> Option<Spot> {
        let line = self.tokens[at].line;
        let change = edit.changes(self.name, self.lines).into_iter().next()?;
        let base = self.name.rsplit('/').next().unwrap_or("").split('.').next().unwrap_or("");
        let of_line = self.tokens.iter().filter(|token| token.line == line).flat_map(words_of);
        let words = of_line.chain(telling(owner)).collect();
        let (sides, text) = (self.beside(at), in_text(&self.tokens[at], edit));
        let before = sides.first().filter(|(side, _)| *side == Side::Before).map(|(_, word)| word.clone());
        let (kind, near, stem) = (edit.kind, sides.into_iter().collect(), plain(base));
        Some(Spot { value, kind, line, change, text, before, near, words, stem })
    }

    /// The two words before a token, the nearer one first, and the one after it, on its line.
    fn beside(&self, at: usize) -> Vec<(Side, String)> {
        let same = |token: &&Token| token.line == self.tokens[at].line;
        let before =
            self.tokens[..at].iter().rev().take_while(same).flat_map(|token| words_of(token).into_iter().rev()).take(2);
        let after = self.tokens[at + 1..].iter().take_while(same).flat_map(words_of).take(1);
        before.map(|word| (Side::Before, word)).chain(after.map(|word| (Side::After, word))).collect()
    }
}

/// The text between the quotes of a token, and where an edit changes it.
fn in_text(token: &Token, edit: &Edit) -> Option<(String, usize)> {
    let open = token.text.find('"').filter(|_| token.sort == Sort::Text)? + 1;
    let at = edit.pieces.first()?.start.checked_sub(token.start + open)?;
    Some((token.text.get(open..token.text.len() - 1)?.to_string(), at))
}

/// A name in the same form in code and definitions: `StopBib` and `stop_bib` are the same.
fn plain(name: &str) -> String {
    name.chars().filter(|c| c.is_alphanumeric()).flat_map(char::to_lowercase).collect()
}

/// The plain form of a name; none if it is too short or too common to mean something.
fn telling(name: &str) -> Option<String> {
    const COMMON: [&str; 16] = [
        "let", "mut", "if", "else", "return", "while", "as", "record", "cond", "in", "const", "pub", "usize", "match",
        "true", "false",
    ];
    Some(plain(name)).filter(|word| word.chars().count() > 1 && !COMMON.contains(&word.as_str()))
}

/// The words of a token: `head.run` has two.
fn words_of(token: &Token) -> Vec<String> {
    token.text.split('.').filter(|_| token.is_word()).filter_map(telling).collect()
}

fn spots_of_code(world: &World, file: &File) -> Vec<Spot> {
    let page = Page { name: &file.name, lines: &file.lines, tokens: &file.tokens };
    let regions = Region::all(world, file);
    let of_region = |region: &Region| -> Vec<Spot> {
        let owner = region.function.map_or("", |function| function.name.as_str());
        let places = region.places().into_iter();
        let values = places.flat_map(|at| values_in_code(region, at).into_iter().map(move |found| (at, found)));
        values.filter_map(|(at, (value, edit))| page.spot(value, at, &edit, owner)).collect()
    };
    regions.iter().flat_map(of_region).collect()
}

/// The values of a token of the code, each with the edit that changes it.
fn values_in_code(region: &Region, at: usize) -> Vec<(Value, Edit)> {
    let token = region.token(at);
    match token.sort {
        Sort::Number => numbers_in_code(region, at),
        Sort::Letter => letter_in_code(token).unwrap_or_default(),
        Sort::Text if token.text.starts_with("b\"") => letters_in_text(token, &chosen(&plain_letters(token))),
        _ => Vec::new(),
    }
}

/// A number becomes one more. If it can be the code of a letter, it also becomes the code of the next letter.
fn numbers_in_code(region: &Region, at: usize) -> Vec<(Value, Edit)> {
    let token = region.token(at);
    let numeral = Numeral::parse(&token.text).filter(|n| n.is_decimal() && values::is_free(region, at));
    let Some(numeral) = numeral.filter(|n| values::fits(region, at, n, n.value + 1)) else { return Vec::new() };
    let edit = |value: u128| Edit::token("constant", token, &numeral.with(value));
    let letter = u8::try_from(numeral.value).ok().map(char::from);
    let letter = letter.filter(|c| c.is_ascii_alphabetic() && is_letter_code(region, at));
    let next = letter.and_then(|letter| Some((Value::Letter(letter), edit(code_of(next_letter(letter)?)))));
    [(Value::Number(numeral.value), edit(numeral.value + 1))].into_iter().chain(next).collect()
}

fn code_of(letter: char) -> u128 {
    u128::from(u32::from(letter))
}

/// Can a number be a letter's code? It can if it is compared by `==` or `!=`, or passed to a parameter of type `u8`.
fn is_letter_code(region: &Region, at: usize) -> bool {
    let test = |at: usize| region.is(at, "==") || region.is(at, "!=");
    let starts = (region.range.start..at).rev().filter(|i| region.is(*i + 1, "("));
    let handed = starts.filter_map(|i| {
        let params = types::of_params(region, &types::path_at(region, i)?.0)?;
        let place = types::arguments(region, i + 1).iter().position(|range| *range == (at..at + 1))?;
        Some(params.get(place).is_some_and(|kind| kind == "u8"))
    });
    (at > region.range.start && test(at - 1)) || test(at + 1) || handed.into_iter().next().unwrap_or(false)
}

/// A letter as a letter, and as its code.
fn letter_in_code(token: &Token) -> Option<Vec<(Value, Edit)>> {
    let letter = letter_of(token)?;
    let next = next_letter(letter)?;
    let edit = values::with_letter(token, next);
    // A number in the definitions becomes one more, so the letter's code must become one more too.
    let by_code = (code_of(next) == code_of(letter) + 1).then(|| (Value::Number(code_of(letter)), edit.clone()));
    Some([(Value::Letter(letter), edit)].into_iter().chain(by_code).collect())
}

fn letters_in_text(token: &Token, letters: &[(usize, char)]) -> Vec<(Value, Edit)> {
    let changed = letters.iter().filter_map(|(at, c)| Some((*c, values::replaced(token, *at, next_letter(*c)?)?)));
    changed.map(|(c, edit)| (Value::Letter(c), edit)).collect()
}

fn spots_of_definitions(file: &definitions::File) -> Vec<Spot> {
    let page = Page { name: &file.name, lines: &file.lines, tokens: &file.tokens };
    let mut spots = Vec::new();
    for statement in &file.statements {
        for at in definitions::values(file, statement) {
            let values = values_in_definitions(&file.tokens[at]).into_iter();
            spots.extend(values.filter_map(|(value, edit)| page.spot(value, at, &edit, &statement.name)));
        }
    }
    spots
}

/// The values of a token of the definitions, each with the edit that changes it.
fn values_in_definitions(token: &Token) -> Vec<(Value, Edit)> {
    if token.sort == Sort::Text {
        return letters_in_text(token, &plain_letters(token));
    }
    let value = token.text.parse::<u128>().ok().and_then(|value| Some((value, value.checked_add(1)?)));
    let changed = value.map(|(old, new)| (Value::Number(old), Edit::token("constant", token, &new.to_string())));
    changed.into_iter().collect()
}
