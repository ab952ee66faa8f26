//! Replaces an operator, a number, a letter or a truth value by another.

use super::edit::{same, Edit, Piece};
use super::items::find;
use super::lexer::{closing, Sort, Token};
use super::numeral::{leaves_a_type, Numeral};
use super::region::Region;
use super::types;

/// Each mark between two operands, and the mark that replaces it.
const OTHER: [(&str, &str); 19] = [
    ("<=", "<"),
    ("<", "<="),
    (">", ">="),
    (">=", ">"),
    ("==", "!="),
    ("!=", "=="),
    ("+", "-"),
    ("-", "+"),
    ("*", "+"),
    ("/", "%"),
    ("%", "/"),
    ("&", "|"),
    ("|", "&"),
    ("<<", ">>"),
    (">>", "<<"),
    ("&&", "||"),
    ("||", "&&"),
    ("+=", "-="),
    ("-=", "+="),
];

/// The edits of a region.
pub fn edits(region: &Region) -> Vec<Edit> {
    region.places().into_iter().flat_map(|at| at_token(region, at)).collect()
}

fn at_token(region: &Region, at: usize) -> Vec<Edit> {
    let token = region.token(at);
    match token.sort {
        Sort::Mark => operator(region, at),
        Sort::Number => constants(region, at),
        Sort::Letter => letter(token).into_iter().collect(),
        Sort::Text if token.text.starts_with("b\"") => letters(token),
        Sort::Word if token.is("true") => vec![Edit::token("boolean", token, "false")],
        Sort::Word if token.is("false") => vec![Edit::token("boolean", token, "true")],
        _ => Vec::new(),
    }
}

fn operator(region: &Region, at: usize) -> Vec<Edit> {
    let token = region.token(at);
    let mut edits = Vec::new();
    if region.is_binary(at) {
        let other = OTHER.iter().find(|(mark, _)| token.is(mark)).filter(|_| !is_same(region, at));
        edits.extend(other.map(|(_, other)| Edit::token("operator", token, other)));
        edits.extend(dropped(region, at));
    } else if token.is("!") && !is_macro(region, at) {
        edits.push(Edit::token("operator", token, ""));
    }
    edits
}

/// Does a `!` end the name of a macro?
fn is_macro(region: &Region, at: usize) -> bool {
    at > region.range.start && region.token(at - 1).is_word() && region.token(at).touches(region.token(at - 1))
}

/// Would another mark leave the program the same, or give a constant a value that it cannot have?
fn is_same(region: &Region, at: usize) -> bool {
    let difference = region.is(at, "-") || region.is(at, "+");
    is_choice_of_operands(region, at) || (difference && region.constant.is_some())
}

/// `if a < b { a } else { b }` is the same with `<=`.
fn is_choice_of_operands(region: &Region, at: usize) -> bool {
    let tokens = region.tokens();
    let strict = ["<", "<=", ">", ">="].iter().any(|mark| region.is(at, mark));
    let start = (region.range.start..at).rev().find(|i| region.is(*i, "if"));
    let open = find(tokens, at + 1..region.range.end, &["{"]);
    let (Some(start), Some(open)) = (start.filter(|_| strict), open) else { return false };
    let close = closing(tokens, open);
    if !region.is(close + 1, "else") || !region.is(close + 2, "{") {
        return false;
    }
    let (left, right) = (&tokens[start + 1..at], &tokens[at + 1..open]);
    let (then, other) = (&tokens[open + 1..close], &tokens[close + 3..closing(tokens, close + 2)]);
    (same(left, then) && same(right, other)) || (same(left, other) && same(right, then))
}

/// Removes a `+ 1` or `- 1`.
fn dropped(region: &Region, at: usize) -> Option<Edit> {
    let sum = region.is(at, "+") || region.is(at, "-");
    let number = Some(at + 1).filter(|next| sum && region.open(*next)).map(|next| region.token(next))?;
    let before = region.token(at - 1);
    let one = number.sort == Sort::Number && Numeral::parse(&number.text)?.value == 1;
    let piece = Piece { line: before.line, start: before.end, end: number.end, new: String::new() };
    (one && before.line == number.line).then(|| Edit { kind: "operator", pieces: vec![piece] })
}

/// Makes a number one more and one less.
fn constants(region: &Region, at: usize) -> Vec<Edit> {
    let token = region.token(at);
    let Some(numeral) = Numeral::parse(&token.text).filter(|_| is_free(region, at)) else { return Vec::new() };
    let length = is_length(region, at);
    let more = Some(numeral.value + 1).filter(|value| fits(region, at, &numeral, *value));
    let more = more.filter(|_| !length && !is_bound(region, at, true));
    let less = numeral.value.checked_sub(1).filter(|_| numeral.value < u128::from(u64::MAX));
    let less = less.filter(|value| *value > 0 || !(length || is_summand(region, at)));
    let less = less.filter(|_| !is_bound(region, at, false));
    more.into_iter().chain(less).map(|value| Edit::token("constant", token, &numeral.with(value))).collect()
}

/// Is a number a bound for which one more (or one less) does the same as another comparison mark? `a < 11` says the same
/// as `a <= 10`.
fn is_bound(region: &Region, at: usize, more: bool) -> bool {
    let side = |at: usize, marks: [&str; 2]| marks.iter().any(|mark| region.is(at, mark)) && region.is_binary(at);
    let (rising, falling) = if more { (["<", ">="], ["<=", ">"]) } else { (["<=", ">"], ["<", ">="]) };
    (at > region.range.start && side(at - 1, rising)) || side(at + 1, falling)
}

/// May a number be changed? It may not if it names a part of a tuple, if it is the length of an array that must have this
/// length, or if it fills a buffer, because a buffer is overwritten before it is read.
pub fn is_free(region: &Region, at: usize) -> bool {
    let part = at > region.range.start && region.is(at - 1, ".");
    let filling = at > region.range.start && region.is(at - 1, "[") && region.is(at + 1, ";");
    let held = if is_buffer(region, at) { filling } else { is_length(region, at) };
    !part && !held
}

/// Is a number the length of an array `[x; n]`?
fn is_length(region: &Region, at: usize) -> bool {
    at > region.range.start && region.is(at - 1, ";") && region.is(at + 1, "]")
}

/// Does a value fit the type of the number at a token?
pub fn fits(region: &Region, at: usize, numeral: &Numeral, value: u128) -> bool {
    types::most_at(region, at, &numeral.suffix).map_or(!leaves_a_type(value), |most| value <= most)
}

/// Is a number added or subtracted? If it is 1, making it one less is the same as removing it.
fn is_summand(region: &Region, at: usize) -> bool {
    let assigned = at > region.range.start && (region.is(at - 1, "+=") || region.is(at - 1, "-="));
    let summed = at > region.range.start && (region.is(at - 1, "+") || region.is(at - 1, "-"));
    assigned || (summed && region.is_binary(at - 1))
}

/// Is a number in an array that is bound to a name and afterwards only lent or indexed? Such an array may have any length,
/// and one that is longer than needed leaves the program the same.
fn is_buffer(region: &Region, at: usize) -> bool {
    let open = (region.range.start..at).rev().find(|i| region.is(*i, "["));
    let Some(open) = open.filter(|open| *open >= region.range.start + 2 && region.is(open - 1, "=")) else {
        return false;
    };
    let close = closing(region.tokens(), open);
    let text = &region.token(open - 2).text;
    let lent = |i: usize| region.is(i - 1, "&") || (region.is(i - 1, "mut") && region.is(i - 2, "&"));
    let used = |i: &usize| region.is(*i, text) && !region.is(i - 1, ".");
    region.is(close + 1, ";") && (close..region.range.end).filter(used).all(|i| lent(i) || region.is(i + 1, "["))
}

/// The letter that replaces a letter: the next one that needs no escape.
pub fn next_letter(letter: char) -> Option<char> {
    let next = char::from_u32(u32::from(letter) + 1)?;
    match next {
        '\'' | '"' | '\\' => next_letter(next),
        ' '..='~' if (' '..='~').contains(&letter) => Some(next),
        _ => None,
    }
}

/// The letter of a token such as `b'x'`; none if it is escaped.
pub fn letter_of(token: &Token) -> Option<char> {
    let (_, inner) = token.text.split_once('\'')?;
    let mut chars = inner.strip_suffix('\'')?.chars();
    chars.next().filter(|c| chars.next().is_none() && *c != '\\')
}

/// A token such as `b'x'` with another letter.
pub fn with_letter(token: &Token, new: char) -> Edit {
    let prefix = token.text.split('\'').next().unwrap_or("");
    Edit::token("letter", token, &format!("{prefix}'{new}'"))
}

fn letter(token: &Token) -> Option<Edit> {
    Some(with_letter(token, next_letter(letter_of(token)?)?))
}

/// Changes the first, the middle or the last letter of a text.
fn letters(token: &Token) -> Vec<Edit> {
    let places = chosen(&plain_letters(token));
    places.into_iter().filter_map(|(at, letter)| replaced(token, at, next_letter(letter)?)).collect()
}

/// The first, the middle and the last of a list.
pub fn chosen<T: Copy>(list: &[T]) -> Vec<T> {
    let mut places = vec![0, list.len() / 2, list.len().saturating_sub(1)];
    places.dedup();
    places.into_iter().filter_map(|at| list.get(at).copied()).collect()
}

/// The letters of a text that are not escaped, each with its place in the token, in bytes.
pub fn plain_letters(token: &Token) -> Vec<(usize, char)> {
    let open = token.text.find('"').map_or(0, |at| at + 1);
    let mut letters = Vec::new();
    let mut escaped = false;
    for (at, c) in token.text.char_indices().skip(open) {
        if !escaped && c != '\\' && at + 1 < token.text.len() {
            letters.push((at, c));
        }
        escaped = c == '\\' && !escaped;
    }
    letters
}

/// Replaces the letter at a place of a text.
pub fn replaced(token: &Token, at: usize, new: char) -> Option<Edit> {
    let old = token.text[at..].chars().next()?;
    let start = token.start + at;
    let piece = Piece { line: token.line, start, end: start + old.len_utf8(), new: new.to_string() };
    Some(Edit { kind: "letter", pieces: vec![piece] })
}
