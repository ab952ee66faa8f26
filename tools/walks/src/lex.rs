//! Cuts Rattle code into tokens: words, strings with their quotes, and marks of one character.
//!
//! Comments and single characters in quotes have no tokens.

/// The tokens of a text.
pub fn tokens(text: &str) -> Vec<&str> {
    let mut found = Vec::new();
    let mut rest = text;
    while let Some(first) = rest.chars().next() {
        let (length, kept) = piece(rest, first);
        found.extend(kept.then_some(&rest[..length]));
        rest = &rest[length..];
    }
    found
}

/// Is it a word: a name, a keyword or a number?
pub fn is_word(token: &str) -> bool {
    token.chars().all(in_word)
}

fn in_word(c: char) -> bool {
    c.is_alphanumeric() || c == '_'
}

/// The length of the first piece of `text`, and whether it is a token. `first` is the first character of `text`.
fn piece(text: &str, first: char) -> (usize, bool) {
    if text.starts_with("//") {
        (text.find('\n').unwrap_or(text.len()), false)
    } else if text.starts_with("/*") {
        (comment(text), false)
    } else if let Some(length) = character(text) {
        (length, false)
    } else if first == '"' {
        (string(text), true)
    } else if in_word(first) {
        (text.find(|c| !in_word(c)).unwrap_or(text.len()), true)
    } else {
        (first.len_utf8(), !first.is_whitespace())
    }
}

/// The length of a comment in `/* */`, which may contain other comments.
fn comment(text: &str) -> usize {
    let mut depth = 0;
    let mut at = 0;
    while at < text.len() {
        let change = i32::from(text[at..].starts_with("/*")) - i32::from(text[at..].starts_with("*/"));
        depth += change;
        at += if change == 0 { text[at..].chars().next().map_or(1, char::len_utf8) } else { 2 };
        if depth == 0 {
            break;
        }
    }
    at
}

/// The length of a character in quotes, such as `'"'`, `'\''` or `'\x0d'`, if one begins here.
fn character(text: &str) -> Option<usize> {
    let inside = text.strip_prefix('\'')?;
    let first = inside.chars().next()?.len_utf8();
    if inside.starts_with('\\') {
        return inside.get(2..)?.find('\'').map(|i| i + 4);
    }
    inside[first..].starts_with('\'').then_some(first + 2)
}

/// The length of a string.
fn string(text: &str) -> usize {
    let mut escaped = false;
    for (at, c) in text.char_indices().skip(1) {
        if c == '"' && !escaped {
            return at + 1;
        }
        escaped = c == '\\' && !escaped;
    }
    text.len()
}

#[cfg(test)]
mod tests {
    use super::tokens;

    #[test]
    fn words_strings_and_marks() {
        let text = "pub extern \"C\" fn f_1(s: &mut [Seat]) ensures { λ r. ⌜ r ≡ 0 ⌝ }";
        let shown = "pub extern \"C\" fn f_1 ( s : & mut [ Seat ] ) ensures { λ r . ⌜ r ≡ 0 ⌝ }";
        assert_eq!(tokens(text).join(" "), shown);
    }

    #[test]
    fn what_leaves_no_token() {
        assert_eq!(tokens("a // \" b\nc /* é /* \" */ d */ e"), ["a", "c", "e"]);
        assert_eq!(tokens(r#"f('"', b'\'', '\x22', 'é') 'a x"#).join(" "), "f ( , b , , ) ' a x");
        assert_eq!(tokens(r#""\" //" a "\\" b"#), [r#""\" //""#, "a", r#""\\""#, "b"]);
    }

    #[test]
    fn what_does_not_end_takes_the_rest() {
        assert_eq!(tokens("a \"b c"), ["a", "\"b c"]);
        assert_eq!(tokens("a /* b"), ["a"]);
        assert_eq!(tokens("a '\\"), ["a", "'", "\\"]);
    }
}
