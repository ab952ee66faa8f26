//! The items of a file of code: functions, constants, structs, enums and imports.

use super::lexer::{closing, depth_of, Token};
use std::ops::Range;

/// A name and its type, as written but without spaces.
pub type Typed = (String, String);

#[derive(Clone, Debug)]
pub struct Function {
    pub name: String,
    pub params: Vec<Typed>,
    /// The type of the result; empty if there is none.
    pub result: String,
    /// The tokens inside its braces.
    pub body: Range<usize>,
}

#[derive(Clone, Debug)]
pub struct Constant {
    pub kind: String,
    /// The tokens of its value.
    pub value: Range<usize>,
}

#[derive(Clone, Debug)]
pub struct Variant {
    pub name: String,
    /// The types of its unnamed values.
    pub holds: Vec<String>,
    /// Does it have no values?
    pub plain: bool,
}

#[derive(Clone, Debug, Default)]
pub struct Items {
    pub functions: Vec<Function>,
    pub constants: Vec<Constant>,
    pub structs: Vec<(String, Vec<Typed>)>,
    pub enums: Vec<(String, Vec<Variant>)>,
    /// The imported paths, each with the name last.
    pub uses: Vec<Vec<String>>,
}

/// The items of the tokens of a file.
pub fn items(tokens: &[Token]) -> Items {
    let mut items = Items::default();
    let mut at = 0;
    while at < tokens.len() {
        at = item(tokens, at, &mut items).max(at + 1);
    }
    items
}

/// Reads what begins at a token, and returns the token after it.
fn item(tokens: &[Token], at: usize, items: &mut Items) -> usize {
    let next_is = |text: &str| tokens.get(at + 1).is_some_and(|token| token.is(text));
    match tokens[at].text.as_str() {
        "#" if next_is("[") => closing(tokens, at + 1) + 1,
        "use" => used(tokens, at, items),
        "struct" => structure(tokens, at, items),
        "enum" => enumeration(tokens, at, items),
        "const" | "static" if !next_is("fn") => constant(tokens, at, items),
        "fn" => function(tokens, at, items),
        _ => at + 1,
    }
}

/// The first token of a range that is one of these marks, outside of brackets that open in the range. None if a bracket
/// closes first that was opened before the range.
pub fn find(tokens: &[Token], range: Range<usize>, marks: &[&str]) -> Option<usize> {
    let mut depth = 0;
    for i in range {
        if depth == 0 && marks.iter().any(|mark| tokens[i].is(mark)) {
            return Some(i);
        }
        depth += depth_of(&tokens[i]);
        if depth < 0 {
            return None;
        }
    }
    None
}

/// The parts of a range between marks outside of brackets. Empty parts are left out.
pub fn split(tokens: &[Token], range: Range<usize>, mark: &str) -> Vec<Range<usize>> {
    let mut parts = Vec::new();
    let mut start = range.start;
    while start < range.end {
        let end = find(tokens, start..range.end, &[mark]).unwrap_or(range.end);
        if start < end {
            parts.push(start..end);
        }
        start = end + 1;
    }
    parts
}

fn joined(tokens: &[Token]) -> String {
    tokens.iter().map(|token| token.text.as_str()).collect()
}

fn used(tokens: &[Token], at: usize, items: &mut Items) -> usize {
    let end = find(tokens, at..tokens.len(), &[";"]).unwrap_or(tokens.len());
    let words = |range: Range<usize>| tokens[range].iter().filter(|t| t.is_word()).map(|t| t.text.clone()).collect();
    let group = find(tokens, at..end, &["{"]);
    let path: Vec<String> = words(at + 1..group.unwrap_or(end));
    match group {
        None => items.uses.push(path),
        Some(open) => {
            for part in split(tokens, open + 1..closing(tokens, open).min(end), ",") {
                items.uses.push([path.clone(), words(part)].concat());
            }
        }
    }
    end + 1
}

/// The names and types of a struct's fields, or of a function's parameters.
fn typed(tokens: &[Token], range: Range<usize>) -> Vec<Typed> {
    let part = |part: Range<usize>| {
        let colon = find(tokens, part.clone(), &[":"])?;
        Some((tokens[colon - 1].text.clone(), joined(&tokens[colon + 1..part.end])))
    };
    split(tokens, range, ",").into_iter().filter_map(part).collect()
}

fn structure(tokens: &[Token], at: usize, items: &mut Items) -> usize {
    let Some(open) = find(tokens, at..tokens.len(), &["{", ";"]) else { return tokens.len() };
    let end = if tokens[open].is("{") { closing(tokens, open) } else { open };
    items.structs.push((tokens[at + 1].text.clone(), typed(tokens, open + 1..end.max(open + 1))));
    end + 1
}

fn enumeration(tokens: &[Token], at: usize, items: &mut Items) -> usize {
    let Some(open) = find(tokens, at..tokens.len(), &["{"]) else { return tokens.len() };
    let end = closing(tokens, open);
    let variant = |part: Range<usize>| {
        let holds = match tokens.get(part.start + 1) {
            Some(next) if next.is("(") => split(tokens, part.start + 2..part.end - 1, ","),
            _ => Vec::new(),
        };
        let holds = holds.into_iter().map(|part| joined(&tokens[part])).collect();
        Variant { name: tokens[part.start].text.clone(), holds, plain: part.len() == 1 }
    };
    let variants = split(tokens, open + 1..end, ",").into_iter().map(variant).collect();
    items.enums.push((tokens[at + 1].text.clone(), variants));
    end + 1
}

fn constant(tokens: &[Token], at: usize, items: &mut Items) -> usize {
    let end = find(tokens, at..tokens.len(), &[";"]).unwrap_or(tokens.len());
    let (colon, equals) = (find(tokens, at..end, &[":"]), find(tokens, at..end, &["="]));
    if let (Some(colon), Some(equals)) = (colon, equals) {
        items.constants.push(Constant { kind: joined(&tokens[colon + 1..equals]), value: equals + 1..end });
    }
    end + 1
}

fn function(tokens: &[Token], at: usize, items: &mut Items) -> usize {
    let Some(open) = find(tokens, at..tokens.len(), &["("]) else { return tokens.len() };
    let close = closing(tokens, open);
    let Some(brace) = find(tokens, close + 1..tokens.len(), &["{", ";"]) else { return tokens.len() };
    if tokens[brace].is(";") {
        return brace + 1;
    }
    let end = closing(tokens, brace);
    let result = match tokens.get(close + 1) {
        Some(arrow) if arrow.is("->") => joined(&tokens[close + 2..brace]),
        _ => String::new(),
    };
    let name = tokens[at + 1].text.clone();
    items.functions.push(Function { name, params: typed(tokens, open + 1..close), result, body: brace + 1..end });
    end + 1
}

#[cfg(test)]
mod tests {
    use super::*;
    use crate::mutants::lexer;

    #[test]
    fn all_sorts_of_items() {
        let text = "use a::b::C;\nuse d::{e, f};\n#[repr(C)]\npub struct S { pub x: u8, pub y: [u8; 2] }\nenum E { A, B(u8, S), C { z: u8 } }\nconst N: [u8; 2] = [1, 2];\npub(crate) fn f(out: &mut [u8], at: usize) -> S\n    ensures { 3 }\n{ g(4) }\nfn h() { }";
        let tokens = lexer::code(text);
        let items = items(&tokens);
        assert_eq!(items.uses, [vec!["a", "b", "C"], vec!["d", "e"], vec!["d", "f"]]);
        assert_eq!(items.structs[0].1, [("x".to_string(), "u8".to_string()), ("y".to_string(), "[u8;2]".to_string())]);
        let plain: Vec<bool> = items.enums[0].1.iter().map(|variant| variant.plain).collect();
        assert_eq!(plain, [true, false, false]);
        assert_eq!(items.enums[0].1[1].holds, ["u8", "S"]);
        assert_eq!(joined(&tokens[items.constants[0].value.clone()]), "[1,2]");
        let first = &items.functions[0];
        assert_eq!((first.name.as_str(), first.params[0].1.as_str(), first.result.as_str()), ("f", "&mut[u8]", "S"));
        assert_eq!(joined(&tokens[first.body.clone()]), "g(4)");
        assert!(items.functions[1].body.is_empty());
    }
}
