//! The types of names and of simple expressions in a function.

use super::items::{find, split};
use super::lexer::{closing, Sort};
use super::region::Region;
use std::ops::Range;

/// The type of a name as seen at a token: from its last binding before the token, or from the parameters.
pub fn of_name(region: &Region, at: usize, name: &str) -> Option<String> {
    let bound = (region.range.start..at).rev().find_map(|i| binding(region, i, name));
    let function = region.function?;
    bound.unwrap_or_else(|| function.params.iter().find(|(n, _)| n == name).map(|(_, kind)| kind.clone()))
}

/// The type that a token gives to a name, if the token binds it: `let name = ..`, or `Variant(name)` in a pattern.
fn binding(region: &Region, at: usize, name: &str) -> Option<Option<String>> {
    let token = region.token(at);
    if !token.is(name) || at == region.range.start || region.open(at) {
        return None;
    }
    if region.is(at - 1, "let") || region.is(at - 1, "mut") {
        return Some(of_let(region, at));
    }
    (region.is(at - 1, "(") && region.is(at + 1, ")")).then(|| held_by(region, at - 2))
}

/// The type of what a `let` binds to the name at a token.
fn of_let(region: &Region, at: usize) -> Option<String> {
    let tokens = region.tokens();
    let equals = find(tokens, at..region.range.end, &["=", ";"])?;
    if region.is(at + 1, ":") {
        return Some(tokens[at + 2..equals].iter().map(|token| token.text.as_str()).collect());
    }
    let end = find(tokens, equals..region.range.end, &[";"])?;
    of_range(region, equals + 1..end, at)
}

/// The type of the value of the variant whose name is at a token.
fn held_by(region: &Region, at: usize) -> Option<String> {
    if at < region.range.start + 2 || !region.is(at - 1, "::") {
        return None;
    }
    let variants = region.world.variants(region.file, &region.token(at - 2).text)?;
    let variant = variants.into_iter().find(|variant| region.is(at, &variant.name))?;
    variant.holds.into_iter().next()
}

/// The type of an expression, if it is simple enough. Its names are those that are bound before a token.
fn of_range(region: &Region, range: Range<usize>, before: usize) -> Option<String> {
    let first = region.token(range.start);
    let as_at = range.clone().rev().find(|at| region.is(*at, "as"));
    if let Some(at) = as_at.filter(|at| at + 2 == range.end) {
        return Some(region.token(at + 1).text.clone());
    }
    if range.len() == 1 && first.is_word() {
        return of_name(region, before, &first.text);
    }
    if range.len() == 3 && region.is(range.start + 1, ".") {
        return of_field(region, range.start, before);
    }
    let (path, open) = path_at(region, range.start)?;
    if open >= range.end || closing(region.tokens(), open) + 1 != range.end {
        return None;
    }
    match region.token(open).text.as_str() {
        "{" => path.last().cloned(),
        "(" => of_call(region, &path),
        "[" => element(&of_name(region, before, path.last()?)?),
        _ => None,
    }
}

/// The type of `name.field`. The name is at one token, and its binding is before another.
fn of_field(region: &Region, at: usize, before: usize) -> Option<String> {
    let kind = of_name(region, before, &region.token(at).text)?;
    let fields = region.world.fields(region.file, &kind)?;
    fields.into_iter().find(|(name, _)| region.is(at + 2, name)).map(|(_, kind)| kind)
}

/// The type that a call of this path returns: the result of a function, or the enum of a variant.
fn of_call(region: &Region, path: &[String]) -> Option<String> {
    let function = region.world.function(region.file, path).map(|(_, function)| function.result.clone());
    let owner = path.len().checked_sub(2).map(|at| path[at].clone());
    function.or_else(|| owner.filter(|name| region.world.variants(region.file, name).is_some()))
}

/// The type of an element of an array or a slice.
fn element(kind: &str) -> Option<String> {
    let inner = kind.trim_start_matches('&').trim_start_matches("mut").strip_prefix('[')?.strip_suffix(']')?;
    Some(inner.split(';').next().unwrap_or(inner).to_string())
}

/// The path that begins at a token, such as `a::b`, and the token after it.
pub fn path_at(region: &Region, at: usize) -> Option<(Vec<String>, usize)> {
    let mut path = Vec::new();
    let mut next = at;
    while region.range.contains(&next) && region.token(next).is_word() {
        path.push(region.token(next).text.clone());
        if !region.is(next + 1, "::") {
            return Some((path, next + 1)).filter(|(_, open)| region.range.contains(open));
        }
        next += 2;
    }
    None
}

/// The types of the parameters of the function or variant that a path names.
pub fn of_params(region: &Region, path: &[String]) -> Option<Vec<String>> {
    if let Some((_, function)) = region.world.function(region.file, path) {
        return Some(function.params.iter().map(|(_, kind)| kind.clone()).collect());
    }
    let owner = &path[path.len().checked_sub(2)?];
    let variants = region.world.variants(region.file, owner)?;
    variants.into_iter().find(|variant| Some(&variant.name) == path.last()).map(|variant| variant.holds)
}

/// The arguments of the call whose bracket opens at a token.
pub fn arguments(region: &Region, open: usize) -> Vec<Range<usize>> {
    split(region.tokens(), open + 1..closing(region.tokens(), open), ",")
}

/// The largest value that the number at a token may have, if its type is known: from its suffix, from the constant that it
/// is in, or from the name or field that it is compared with.
pub fn most_at(region: &Region, at: usize, suffix: &str) -> Option<u128> {
    let own = Some(suffix.to_string()).filter(|suffix| !suffix.is_empty());
    let constant = || region.constant.map(|c| element(&c.kind).unwrap_or_else(|| c.kind.clone()));
    let kind = own.or_else(constant).or_else(|| compared(region, at))?;
    super::numeral::most(&kind)
}

/// The type of what a number is compared with.
fn compared(region: &Region, at: usize) -> Option<String> {
    let is_test = |at: usize| ["<", "<=", ">", ">=", "==", "!="].iter().any(|mark| region.is(at, mark));
    let word = |at: usize| region.range.contains(&at) && region.token(at).sort == Sort::Word;
    let before = at.checked_sub(2).filter(|_| is_test(at - 1));
    let place = before.or_else(|| Some(at + 2).filter(|_| is_test(at + 1))).filter(|place| word(*place))?;
    let dotted = |at: usize| at >= 2 && region.is(at - 1, ".") && word(at - 2);
    match place {
        place if dotted(place) => of_field(region, place - 2, at),
        place if region.is(place + 1, ".") => of_field(region, place, at),
        place => of_name(region, place, &region.token(place).text),
    }
}
