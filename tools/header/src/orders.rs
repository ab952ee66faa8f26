//! Compares the strings of the header that have letters in an order with the functions of the sources that give each letter
//! its place. These are read as text, because characters in quotes and preprocessor lines have no tokens.

use std::fs;
use std::path::Path;

/// Each string, and the function whose arms have the same letters in the same order, below the crates.
const ORDERS: [(&str, &str, &str); 2] = [
    ("REI2_LETTER_ORDER", "frames/src/reply.rt", "letter_place"),
    ("REI2_STATUS_ORDER", "frames/src/reply.rt", "status_place"),
];

/// A line for each difference.
pub fn differences(root: &Path, header: &str) -> Result<Vec<String>, String> {
    let mut found = Vec::new();
    for (name, file, function) in ORDERS {
        let path = root.join(file);
        let source = fs::read_to_string(&path).map_err(|e| format!("{}: cannot be read: {e}", path.display()))?;
        let place = format!("{file} ({function})");
        found.extend(difference(name, &place, placed(&source, function), defined(header, name)));
    }
    Ok(found)
}

fn difference(name: &str, place: &str, wanted: Option<String>, had: Option<&str>) -> Option<String> {
    match (wanted, had) {
        (Some(wanted), Some(had)) if wanted == had => None,
        (Some(wanted), Some(had)) => Some(format!("{name}: \"{wanted}\" in {place}, \"{had}\" in the header")),
        (None, _) => Some(format!("{name}: no letters with the places 0, 1, 2 and so on in {place}")),
        (_, None) => Some(format!("{name}: the header defines no such string")),
    }
}

/// The text of `#define NAME "text"`.
fn defined<'a>(header: &'a str, name: &str) -> Option<&'a str> {
    let rest = header.lines().find_map(|line| line.strip_prefix("#define ")?.strip_prefix(name))?;
    rest.strip_prefix(" \"")?.strip_suffix('"')
}

/// The letters of the arms `LETTER => Some(PLACE),` of a function, if their places are 0, 1, 2 and so on. The arm for all others,
/// `_ => ..`, comes after them.
fn placed(source: &str, function: &str) -> Option<String> {
    let (_, rest) = source.split_once(&format!("fn {function}("))?;
    let (body, _) = rest.split_once("\n}")?;
    let arms = body.lines().filter_map(|line| line.trim().strip_suffix(',')?.split_once(" => "));
    let letters: Option<String> = arms
        .take_while(|(pattern, _)| *pattern != "_")
        .enumerate()
        .map(|(i, (pattern, place))| letter(source, pattern).filter(|_| place == format!("Some({i})")))
        .collect();
    letters.filter(|letters| !letters.is_empty())
}

/// The letter of a pattern: `b'A'`, or the name of a constant of the same file with such a value.
fn letter(source: &str, pattern: &str) -> Option<char> {
    let constant = || source.split_once(&format!("const {pattern}: u8 = "))?.1.split(';').next();
    let byte = if pattern.starts_with("b'") { pattern } else { constant()? };
    let mut letters = byte.strip_prefix("b'")?.strip_suffix('\'')?.chars();
    letters.next().filter(|_| letters.next().is_none())
}
