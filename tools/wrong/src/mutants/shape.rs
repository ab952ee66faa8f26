//! Exchanges arguments, negates conditions or exchanges branches, and removes statements.

use super::edit::{same, text_of, Edit, Piece};
use super::items::find;
use super::lexer::{closing, depth_of, Sort, Token};
use super::region::{Arm, Region};
use super::types;
use std::ops::Range;

/// The edits of a region.
pub fn edits(region: &Region) -> Vec<Edit> {
    let places = region.places();
    let mut edits: Vec<Edit> = places.iter().flat_map(|at| exchanged(region, *at)).collect();
    edits.extend(places.iter().filter_map(|at| turned(region, *at)));
    edits.extend(region.matches().iter().flat_map(|arms| arms_exchanged(region, arms)));
    edits.extend(region.range.clone().filter_map(|at| taken_away(region, at)));
    edits
}

// ---- arguments

/// Exchanges two neighbouring arguments of the same type, in the call whose path begins at a token.
fn exchanged(region: &Region, at: usize) -> Vec<Edit> {
    let inner = at > region.range.start && (region.is(at - 1, "::") || region.is(at - 1, "."));
    let call = types::path_at(region, at).filter(|(_, open)| !inner && region.is(*open, "("));
    let Some((path, open)) = call else { return Vec::new() };
    let (arguments, params) = (types::arguments(region, open), types::of_params(region, &path));
    if params.as_ref().is_some_and(|params| params.len() != arguments.len()) {
        return Vec::new();
    }
    let pairs = arguments.windows(2).enumerate().filter(|(k, pair)| {
        let typed = params.as_ref().is_some_and(|params| params[*k] == params[k + 1]);
        (typed || pair.iter().all(|a| is_number(region, a))) && !is_symmetric(region, &path, *k)
    });
    pairs.filter_map(|(_, pair)| exchange(region, "argument", &pair[0], &pair[1])).collect()
}

fn is_number(region: &Region, range: &Range<usize>) -> bool {
    range.len() == 1 && region.token(range.start).sort == Sort::Number
}

/// Exchanges two runs of tokens, if they differ and each is on one line.
fn exchange(region: &Region, kind: &'static str, a: &Range<usize>, b: &Range<usize>) -> Option<Edit> {
    let (a, b) = (&region.tokens()[a.clone()], &region.tokens()[b.clone()]);
    Edit::exchange(kind, &region.file.lines, a, b).filter(|_| !same(a, b))
}

/// Does a function stay the same if a parameter and the next one are exchanged? Two forms are recognised: the smaller of
/// both as `if a < b { a } else { b }`, and a body in which the exchange only turns the sides of each `==`.
fn is_symmetric(region: &Region, path: &[String], k: usize) -> bool {
    let Some((file, function)) = region.world.function(region.file, path) else { return false };
    let (a, b) = (&function.params[k].0, &function.params[k + 1].0);
    let body = &file.tokens[function.body.clone()];
    let other = |text: &String| if text == a { b.clone() } else { a.clone() };
    let swap = |text: &String| if text == a || text == b { other(text) } else { text.clone() };
    let texts: Vec<String> = body.iter().map(|token| token.text.clone()).collect();
    let swapped: Vec<String> = texts.iter().map(swap).collect();
    let choice = format!("if{a}<{b}{{{a}}}else{{{b}}}");
    texts.concat() == choice || equalities_sorted(&texts) == equalities_sorted(&swapped)
}

/// The words of a body with the two sides of each `==` in alphabetical order.
fn equalities_sorted(texts: &[String]) -> Vec<String> {
    let ends = |text: &String| ["(", ")", "&", "|", "{", "}", "=="].contains(&text.as_str());
    let mut words = texts.to_vec();
    for at in (0..texts.len()).filter(|at| texts[*at] == "==") {
        let start = (0..at).rev().find(|i| ends(&texts[*i])).map_or(0, |i| i + 1);
        let end = (at + 1..texts.len()).find(|i| ends(&texts[*i])).unwrap_or(texts.len());
        let mut sides = [texts[start..at].to_vec(), texts[at + 1..end].to_vec()];
        sides.sort();
        words.splice(start..end, [sides[0].clone(), vec!["==".to_string()], sides[1].clone()].concat());
    }
    words
}

// ---- branches

/// Negates the condition of an `if` or `while`. If both branches are on the same line, exchanges them instead.
fn turned(region: &Region, at: usize) -> Option<Edit> {
    let tokens = region.tokens();
    let test = (region.is(at, "if") || region.is(at, "while")) && !region.is(at + 1, "let");
    let open = find(tokens, at + 1..region.range.end, &["{"]).filter(|_| test)?;
    if region.token(at).line != region.token(open).line || is_turned_by_operator(region, at + 1..open) {
        return None;
    }
    let close = closing(tokens, open);
    if region.is(close + 1, "else") && region.is(close + 2, "{") {
        let other = close + 3..closing(tokens, close + 2);
        if region.token(open).line == region.token(other.end).line {
            return exchange(region, "branch", &(open + 1..close), &other);
        }
    }
    let condition = &tokens[at + 1..open];
    let text = text_of(&region.file.lines, condition)?;
    let new = if is_single(condition) { format!("!{text}") } else { format!("!({text})") };
    Some(Edit { kind: "branch", pieces: vec![Piece::of(condition.first()?, condition.last()?, &new)] })
}

/// Can a condition be negated by changing one operator? This is so for `a == b`, `a != b` and `!a`.
fn is_turned_by_operator(region: &Region, range: Range<usize>) -> bool {
    let condition = &region.tokens()[range.clone()];
    let mut depth = 0;
    let mut marks = Vec::new();
    for at in range.clone() {
        if depth == 0 && region.is_binary(at) && depth_of(region.token(at)) == 0 {
            marks.push(region.token(at).text.as_str());
        }
        depth += depth_of(region.token(at));
    }
    marks == ["=="] || marks == ["!="] || (region.is(range.start, "!") && is_single(&condition[1..]))
}

/// Is it a name, a call or a bracket, so that a `!` before it negates all of it?
fn is_single(tokens: &[Token]) -> bool {
    let mut depth = 0;
    let mut closed = false;
    for token in tokens {
        let outer = depth == 0 && depth_of(token) == 0;
        let joint = (token.is_word() && !token.is("as")) || token.is("::") || token.is(".");
        if outer && (closed || !joint) {
            return false;
        }
        depth += depth_of(token);
        closed = closed || depth > 0;
    }
    depth == 0
}

/// Exchanges the results of neighbouring arms, if each arm is on one line and its result uses no name of its pattern.
fn arms_exchanged(region: &Region, arms: &[Arm]) -> Vec<Edit> {
    let pairs = arms.windows(2).filter(|pair| pair.iter().all(|arm| is_plain(region, arm)));
    pairs.filter_map(|pair| exchange(region, "branch", &pair[0].result, &pair[1].result)).collect()
}

fn is_plain(region: &Region, arm: &Arm) -> bool {
    let (first, last) = (region.token(arm.pattern.start), region.token(arm.result.end - 1));
    let pattern = &region.tokens()[arm.pattern.clone()];
    let named = pattern.iter().filter(|t| t.is_word() && t.text.starts_with(|c: char| c.is_lowercase() || c == '_'));
    let names: Vec<&str> = named.map(|token| token.text.as_str()).collect();
    let used = region.tokens()[arm.result.clone()].iter().any(|token| names.contains(&token.text.as_str()));
    first.line == last.line && !used
}

// ---- statements

/// Removes the statement that begins at a token, if it is alone on its line and the rest can do without it.
fn taken_away(region: &Region, at: usize) -> Option<Edit> {
    let end = statement_end(region, at)?;
    let first = region.token(at);
    let removable = match first.text.as_str() {
        "let" => is_shadowing(region, at),
        "return" => is_early(region, end),
        "if" | "while" | "match" | "loop" | "for" | "break" | "continue" => false,
        _ => is_assignment(region, at..end) || (first.is_word() && region.is(end - 1, ")")),
    };
    let length = region.file.lines[first.line].len();
    let piece = Piece { line: first.line, start: 0, end: length, new: String::new() };
    removable.then(|| Edit { kind: "statement", pieces: vec![piece] })
}

/// The `;` of the statement that begins at a token, if the statement is alone on its line.
fn statement_end(region: &Region, at: usize) -> Option<usize> {
    let begins = at == region.range.start || ["{", "}", ";"].iter().any(|mark| region.is(at - 1, mark));
    let end = find(region.tokens(), at..region.range.end, &[";"]).filter(|_| begins)?;
    let line = region.token(at).line;
    let alone = |i: usize| region.tokens().get(i).is_none_or(|token| token.line != line);
    (region.function.is_some() && region.token(end).line == line && alone(at - 1) && alone(end + 1)).then_some(end)
}

fn is_assignment(region: &Region, range: Range<usize>) -> bool {
    let marks = ["=", "+=", "-=", "*=", "/=", "%=", "&=", "|=", "^=", "<<=", ">>="];
    region.token(range.start).is_word() && find(region.tokens(), range, &marks).is_some()
}

/// Is it a return that ends an inner block, after which the function continues?
fn is_early(region: &Region, end: usize) -> bool {
    let after = end + 2;
    region.is(end + 1, "}") && region.range.contains(&after) && !region.is(after, "else") && !region.is(after, "}")
}

/// Does a `let` bind a name again that can be seen here already? The types must be the same, as far as they are known.
fn is_shadowing(region: &Region, at: usize) -> bool {
    let name = &region.token(at + 1).text;
    let mutable = region.is(at + 1, "mut");
    let (before, after) = (types::of_name(region, at, name), types::of_name(region, at + 2, name));
    let differ = before.is_some() && after.is_some() && before != after;
    !mutable && !differ && is_seen(region, at, name)
}

/// Is a name bound before a token, by a parameter or by a `let` in a block that is still open?
fn is_seen(region: &Region, at: usize, name: &str) -> bool {
    let mut depth = 0;
    let mut depths: Vec<i32> = Vec::new();
    for i in region.range.start..at {
        depth += depth_of(region.token(i));
        depths.retain(|bound| *bound <= depth);
        if region.is(i, name) && !region.open(i) && (region.is(i - 1, "let") || region.is(i - 1, "mut")) {
            depths.push(depth);
        }
    }
    let param = region.function.is_some_and(|f| f.params.iter().any(|(param, _)| param == name));
    param || !depths.is_empty()
}
