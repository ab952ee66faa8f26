//! How many elements an array has, where the source names a constant.

use crate::lex;
use crate::source::imported;

/// The text of the module of a crate, if there is one: the crate's name, and the module's.
pub type Modules<'a> = &'a dyn Fn(&str, &str) -> Option<String>;

/// How many names are followed from a length to its number.
const NAMES: usize = 8;

/// The number that a length stands for in a module: itself, or the value of the constant of this name. Nothing if the
/// constant is not found, is declared twice, or is not a number or another constant.
pub fn number(modules: Modules, crate_name: &str, module: &str, length: &str) -> Option<String> {
    let mut place = (crate_name.to_string(), module.to_string());
    let mut length = length.to_string();
    for _ in 0..NAMES {
        if length.starts_with(|c: char| c.is_ascii_digit()) {
            let digits = length.replace('_', "");
            return digits.bytes().all(|byte| byte.is_ascii_digit()).then_some(digits);
        }
        let text = modules(&place.0, &place.1)?;
        let tokens = lex::tokens(&text);
        match imported(&tokens, &length) {
            Some(("crate", module)) => place.1 = module.to_string(),
            Some((from, module)) => place = (from.to_string(), module.to_string()),
            None => length = declared(&tokens, &length)?.to_string(),
        }
    }
    None
}

/// The value of the constant of this name, if it is one word and the only constant of this name.
fn declared<'a>(tokens: &[&'a str], name: &str) -> Option<&'a str> {
    let mut found = tokens.windows(2).enumerate().filter(|(_, w)| *w == ["const", name]).map(|(at, _)| at);
    let (only, None) = (found.next()?, found.next()) else { return None };
    match &tokens[only + 2..] {
        [":", "usize", "=", value, ";", ..] if lex::is_word(value) => Some(value),
        _ => None,
    }
}

#[cfg(test)]
mod tests {
    use super::*;

    /// Three modules of two crates.
    fn modules(crate_name: &str, module: &str) -> Option<String> {
        let text = match (crate_name, module) {
            ("a", "here") => {
                "use crate::limits::ROWS;\nuse b::limits::KINDS;\nuse b::limits::NONE;\nconst OWN: usize = 1_000;\n\
                 const TWICE: usize = ROWS;\nconst SUM: usize = ROWS + 1;\nconst SMALL: u32 = 3;\nconst LOOP: usize = LOOP;\n\
                 mod one { const TWO: usize = 2; }\nmod two { const TWO: usize = 2; }\n"
            }
            ("a", "limits") => "pub const ROWS: usize = 33;\n",
            ("b", "limits") => "// const KINDS: usize = 4;\npub const KINDS: usize = 3;\n",
            _ => return None,
        };
        Some(text.to_string())
    }

    fn found(length: &str) -> Option<String> {
        number(&modules, "a", "here", length)
    }

    #[test]
    fn numbers_stand_for_themselves() {
        assert_eq!([found("33").as_deref(), found("1_0").as_deref()], [Some("33"), Some("10")]);
        assert_eq!([found("33usize"), found("0x21")], [None, None]);
    }

    #[test]
    fn constants_stand_for_their_values() {
        let values = ["OWN", "ROWS", "KINDS", "TWICE"].map(|name| found(name).unwrap_or_default());
        assert_eq!(values, ["1000", "33", "3", "33"]);
    }

    #[test]
    fn constants_that_are_not_known() {
        for name in ["NONE", "OTHER", "SUM", "SMALL", "LOOP", "TWO"] {
            assert_eq!(found(name), None, "{name}");
        }
        assert_eq!(number(&modules, "c", "here", "ROWS"), None);
    }
}
