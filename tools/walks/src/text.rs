//! Small functions that build text.

/// `(a, (b, .. (z, tt)))`
pub fn nest<T>(items: &[T], text: impl Fn(&T) -> String) -> String {
    items.iter().rev().fold("tt".to_string(), |rest, item| format!("({}, {rest})", text(item)))
}

/// `a × (b × .. (z × Unit {0}))`
pub fn product<T>(items: &[T], text: impl Fn(&T) -> String) -> String {
    let product = |rest: Option<String>, item| {
        let rest = rest.map_or("Unit {0}".to_string(), |rest| format!("({rest})"));
        Some(format!("{} × {rest}", text(item)))
    };
    items.iter().rev().fold(None, product).unwrap_or("Unit {0}".to_string())
}

/// The projections that lead to part `i` of nested pairs.
pub fn step(i: usize) -> String {
    format!("{} .0", " .1".repeat(i))
}

/// The texts, separated by blanks.
pub fn spaced<T>(items: &[T], text: impl Fn(&T) -> String) -> String {
    joined(items, " ", text)
}

/// `a ∷ b ∷ .. z ∷ []`
pub fn list<T>(items: &[T], text: impl Fn(&T) -> String) -> String {
    format!("{} ∷ []", joined(items, " ∷ ", text))
}

/// The texts, separated by `mark`.
pub fn joined<T>(items: &[T], mark: &str, text: impl Fn(&T) -> String) -> String {
    items.iter().map(text).collect::<Vec<_>>().join(mark)
}

/// A name of Rattle as a name of antt.
pub fn dash(name: &str) -> String {
    name.replace('_', "-")
}

/// A name with its first letter in upper case.
pub fn capital(name: &str) -> String {
    let mut letters = name.chars();
    letters.next().map_or(String::new(), |first| first.to_uppercase().chain(letters).collect())
}

/// An `abbrev` definition. `left` is its name and its parameters.
pub fn abbrev(left: &str, kind: &str, value: &str) -> String {
    let name = left.split(' ').next().unwrap_or(left);
    format!("abbrev {name} : {kind}\n{left} = {value}")
}

/// The text with `blanks` before each line.
pub fn indented(text: &str, blanks: &str) -> String {
    joined(&text.lines().collect::<Vec<_>>(), "\n", |line| format!("{blanks}{line}"))
}

/// The text with one blank in place of several between two words, and no blanks at the end of a line.
pub fn tidy(text: &str) -> String {
    let tidy = |line: &str| {
        let words: Vec<&str> = line.split(' ').filter(|word| !word.is_empty()).collect();
        let indent = if words.is_empty() { 0 } else { line.len() - line.trim_start_matches(' ').len() };
        format!("{}{}", " ".repeat(indent), words.join(" "))
    };
    joined(&text.split('\n').collect::<Vec<_>>(), "\n", |line| tidy(line))
}

#[cfg(test)]
mod tests {
    use super::*;

    const NONE: [&str; 0] = [];

    fn same(text: &&str) -> String {
        text.to_string()
    }

    #[test]
    fn nests() {
        assert_eq!(nest(&NONE, same), "tt");
        assert_eq!(nest(&["a"], same), "(a, tt)");
        assert_eq!(nest(&["a", "b", "c"], same), "(a, (b, (c, tt)))");
    }

    #[test]
    fn products() {
        assert_eq!(product(&NONE, same), "Unit {0}");
        assert_eq!(product(&["A"], same), "A × Unit {0}");
        assert_eq!(product(&["A", "B", "C"], same), "A × (B × (C × Unit {0}))");
    }

    #[test]
    fn steps_lead_to_parts() {
        assert_eq!([step(0), step(1), step(3)], [" .0", " .1 .0", " .1 .1 .1 .0"]);
    }

    #[test]
    fn texts_in_a_row() {
        assert_eq!(spaced(&NONE, same), "");
        assert_eq!(spaced(&["a", "b"], same), "a b");
        assert_eq!(list(&["a", "b"], same), "a ∷ b ∷ []");
        assert_eq!(list(&[2, 0], usize::to_string), "2 ∷ 0 ∷ []");
    }

    #[test]
    fn names() {
        assert_eq!(dash("rei2_open_row"), "rei2-open-row");
        assert_eq!([capital("load"), capital("é"), capital("")], ["Load", "É", ""]);
    }

    #[test]
    fn definitions() {
        assert_eq!(abbrev("a", "Arg", "tt"), "abbrev a : Arg\na = tt");
        assert_eq!(abbrev("x l", "A → B", "l"), "abbrev x : A → B\nx l = l");
    }

    #[test]
    fn lines() {
        assert_eq!(indented("a\n  b", "  "), "  a\n    b");
        assert_eq!(tidy("  a   b c  \n    \n\n x"), "  a b c\n\n\n x");
        assert_eq!(tidy("a\n"), "a\n");
    }
}
