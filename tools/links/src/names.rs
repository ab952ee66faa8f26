//! Names that a page cites from a source file, as in "`real_day`, `leap` and `month_length` in [times/specs/Day](../crates/times/specs/Day.antt)".
//! Each of them must be defined in that file.

use std::fs;
use std::path::Path;

/// A name, and the file that the page says it is in.
#[derive(Debug, PartialEq, Eq)]
pub struct Cited {
    pub name: String,
    pub file: String,
}

/// What may be between two names that belong to the same file.
const BETWEEN: [&str; 6] = [",", " and", " then", " with", " its parts", " which is"];

/// The names that a page cites from Rattle and antt files. Code is skipped.
pub fn cited(text: &str) -> Vec<Cited> {
    let lines: Vec<_> = text.lines().filter(|line| !line.starts_with("    ")).map(str::trim).collect();
    let text = lines.join(" ");
    let mut found = Vec::new();
    for (at, _) in text.match_indices("](") {
        let Some(end) = text[at..].find(')') else { break };
        let file = &text[at + 2..at + end];
        let label = text[..at].rfind('[').unwrap_or(at);
        if !(file.ends_with(".antt") || file.ends_with(".rt")) || file.contains("://") {
            continue;
        }
        if let Some(before) = text[..label].trim_end().strip_suffix(" in") {
            found.extend(names_before(before).into_iter().map(|name| Cited { name, file: file.to_string() }));
        }
    }
    found
}

/// The names at the end of a text, the last one first.
fn names_before(text: &str) -> Vec<String> {
    let (mut rest, mut names) = (text, Vec::new());
    while let Some((name, before)) = last_name(rest) {
        names.push(name.to_string());
        rest = before;
        while let Some(shorter) = BETWEEN.iter().find_map(|word| rest.trim_end().strip_suffix(word)) {
            rest = shorter;
        }
    }
    names
}

/// The name in backticks at the end of a text, which may have a remark in brackets after it; and the text before it.
fn last_name(text: &str) -> Option<(&str, &str)> {
    let mut text = text.trim_end();
    if text.ends_with(')') {
        text = text[..text.rfind('(')?].trim_end();
    }
    let inner = text.strip_suffix('`')?;
    let start = inner.rfind('`')?;
    Some((&inner[start + 1..], &inner[..start]))
}

/// Says why the page is wrong about a name, if it is.
pub fn look_up(page: &Path, cited: &Cited) -> Result<(), String> {
    let path = page.parent().unwrap_or(Path::new(".")).join(&cited.file);
    let text = fs::read_to_string(path).map_err(|e| e.to_string())?;
    if text.lines().any(|line| defines(line, &cited.name)) {
        Ok(())
    } else {
        Err("not defined there".into())
    }
}

/// Whether a line begins the definition of a name.
fn defines(line: &str, name: &str) -> bool {
    const WORDS: [&str; 11] = [
        "abbrev ",
        "unfoldable ",
        "pub ",
        "extern ",
        "\"C\" ",
        "record ",
        "data ",
        "fn ",
        "struct ",
        "enum ",
        "const ",
    ];
    let mut rest = line.trim_start();
    while let Some(shorter) = WORDS.iter().find_map(|word| rest.strip_prefix(word)) {
        rest = shorter;
    }
    let Some(after) = rest.strip_prefix(name) else { return false };
    // A definition goes on with its type, its parameters or its fields.
    rest.len() < line.trim_start().len() && !after.starts_with(|c: char| c.is_alphanumeric() || "_-'′".contains(c))
        || after.starts_with(" :")
}

#[cfg(test)]
mod tests {
    use super::*;

    fn of(text: &str) -> Vec<String> {
        cited(text).into_iter().map(|one| format!("{} {}", one.name, one.file)).collect()
    }

    #[test]
    fn a_name_belongs_to_the_file_after_it() {
        assert_eq!(of("The rule is `leap` in [Day](../Day.antt)."), ["leap ../Day.antt"]);
    }

    #[test]
    fn several_names_may_share_a_file() {
        let text = "`a`, `b` (the second), `c` and\n`d` in [A](A.antt); `e`, with `f` and its parts `g`,\nin [B](B.rt)";
        assert_eq!(of(text), ["d A.antt", "c A.antt", "b A.antt", "a A.antt"]);
        assert_eq!(of("`e`, with its parts `f` and `g` in [B](B.rt)"), ["g B.rt", "f B.rt", "e B.rt"]);
    }

    #[test]
    fn names_of_another_sentence_are_not_meant() {
        assert_eq!(of("See `a`. The rule: `b` in [A](A.antt)."), ["b A.antt"]);
        assert_eq!(of("`a` in [A](A.antt), `b` in [B](B.antt)"), ["a A.antt", "b B.antt"]);
    }

    #[test]
    fn links_without_a_name_and_code_are_passed_over() {
        assert_eq!(of("[A](A.antt) and in [B](B.antt), `c` of [C](C.antt), `d` in [D](D.md)"), Vec::<String>::new());
        assert_eq!(of("    `a` in [A](A.antt)\n"), Vec::<String>::new());
    }

    #[test]
    fn definitions_are_known_by_how_their_line_begins() {
        for line in
            ["abbrev pub leap : ℕ → Bool", "pub record leap (s : ℕ) : Type 0 where", "  pub leap : A ≡ B", "leap : ℕ"]
        {
            assert!(defines(line, "leap"), "{line}");
        }
        for line in
            ["pub fn leap(y: u32) -> bool", "pub extern \"C\" fn leap() {", "pub struct leap {", "const leap: u8 = 1;"]
        {
            assert!(defines(line, "leap"), "{line}");
        }
        for line in [
            "leap y = y",
            "pub leapYear : A",
            "pub leap_year : A",
            "pub leap-day : A",
            "pub leap' : A",
            "-- leap",
            "use A.{leap}",
            "    leap(y)",
        ] {
            assert!(!defines(line, "leap"), "{line}");
        }
    }
}
