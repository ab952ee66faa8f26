//! Cuts the text of a file into tokens with their places.
//!
//! Comments have no tokens. In code, contracts and anything `ghost` have none either. What has no token is never changed.

/// What a token is.
#[derive(Clone, Copy, Debug, PartialEq, Eq)]
pub enum Sort {
    Word,
    Number,
    /// One character in quotes, such as `b'x'`.
    Letter,
    /// A text in quotes.
    Text,
    Mark,
}

/// A token with its line, counted from 0, and its place in the line in bytes.
#[derive(Clone, Debug)]
pub struct Token {
    pub sort: Sort,
    pub text: String,
    pub line: usize,
    pub start: usize,
    pub end: usize,
}

impl Token {
    /// Is it this word or mark?
    pub fn is(&self, text: &str) -> bool {
        matches!(self.sort, Sort::Word | Sort::Mark) && self.text == text
    }

    pub fn is_word(&self) -> bool {
        self.sort == Sort::Word
    }

    /// Does it come directly after the other, with nothing between them?
    pub fn touches(&self, before: &Token) -> bool {
        self.line == before.line && self.start == before.end
    }
}

/// The tokens of a file of code.
pub fn code(text: &str) -> Vec<Token> {
    let mut scanner = Scanner::new(text);
    while !scanner.rest().is_empty() {
        scanner.code();
    }
    scanner.tokens
}

/// The tokens of a file of definitions.
pub fn definitions(text: &str) -> Vec<Token> {
    let mut scanner = Scanner::new(text);
    while !scanner.rest().is_empty() {
        scanner.definition();
    }
    scanner.tokens
}

/// The index of the bracket that closes the one at `open`; the number of tokens if none does.
pub fn closing(tokens: &[Token], open: usize) -> usize {
    let mut depth = 0;
    for (i, token) in tokens.iter().enumerate().skip(open) {
        depth += depth_of(token);
        if depth == 0 {
            return i;
        }
    }
    tokens.len()
}

/// How a token changes the depth of brackets.
pub fn depth_of(token: &Token) -> i32 {
    match token.text.as_str() {
        "(" | "[" | "{" if token.sort == Sort::Mark => 1,
        ")" | "]" | "}" if token.sort == Sort::Mark => -1,
        _ => 0,
    }
}

/// Marks of more than one character, the longer ones first.
const MARKS: [&str; 23] = [
    "..=", "<<=", ">>=", "=>", "->", "::", "==", "!=", "<=", ">=", "&&", "||", "<<", ">>", "+=", "-=", "*=", "/=",
    "%=", "&=", "|=", "^=", "..",
];

/// Characters that cannot be part of a name in a definition.
const SPECIAL: &str = "(){}.;,@\"«»⟦⟧";

fn in_word(c: char) -> bool {
    c.is_alphanumeric() || c == '_'
}

fn in_name(c: char) -> bool {
    !c.is_whitespace() && !SPECIAL.contains(c)
}

struct Scanner<'a> {
    text: &'a str,
    at: usize,
    line: usize,
    line_start: usize,
    tokens: Vec<Token>,
}

impl<'a> Scanner<'a> {
    fn new(text: &'a str) -> Self {
        Scanner { text, at: 0, line: 0, line_start: 0, tokens: Vec::new() }
    }

    fn rest(&self) -> &'a str {
        &self.text[self.at..]
    }

    fn sees(&self, text: &str) -> bool {
        self.rest().starts_with(text)
    }

    /// Steps over `length` bytes.
    fn step(&mut self, length: usize) {
        let end = (self.at + length).min(self.text.len());
        for at in self.at..end {
            if self.text.as_bytes()[at] == b'\n' {
                self.line += 1;
                self.line_start = at + 1;
            }
        }
        self.at = end;
    }

    /// Makes a token of `length` bytes, unless they are on more than one line.
    fn take(&mut self, sort: Sort, length: usize) {
        let (line, start, from) = (self.line, self.at - self.line_start, self.at);
        self.step(length);
        if self.line == line {
            let text = self.text[from..self.at].to_string();
            self.tokens.push(Token { sort, text, line, start, end: start + self.at - from });
        }
    }

    /// The number of bytes from here on up to the first character that `keep` does not accept.
    fn run(&self, keep: fn(char) -> bool) -> usize {
        self.rest().find(|c| !keep(c)).unwrap_or(self.rest().len())
    }

    /// Steps over a comment between two marks. It may contain other comments.
    fn nested(&mut self, open: &str, close: &str) {
        let mut depth = 0;
        while !self.rest().is_empty() {
            if self.sees(open) {
                depth += 1;
                self.step(open.len());
            } else if self.sees(close) {
                depth -= 1;
                self.step(close.len());
                if depth == 0 {
                    return;
                }
            } else {
                self.step(first_len(self.rest()));
            }
        }
    }

    /// Steps to the end of the line.
    fn skip_line(&mut self) {
        self.step(self.run(|c| c != '\n'));
    }

    fn skip_space(&mut self) {
        self.step(self.run(char::is_whitespace));
    }

    /// One step in code.
    fn code(&mut self) {
        let c = self.rest().chars().next().unwrap_or(' ');
        if c.is_whitespace() {
            self.skip_space();
        } else if self.sees("//") {
            self.skip_line();
        } else if self.sees("/*") {
            self.nested("/*", "*/");
        } else if let Some((sort, length)) = literal(self.rest()) {
            self.take(sort, length);
        } else if c.is_ascii_digit() {
            self.take(Sort::Number, self.run(in_word));
        } else if in_word(c) {
            self.word();
        } else {
            let length = MARKS.iter().find(|mark| self.sees(mark)).map_or(c.len_utf8(), |mark| mark.len());
            self.take(Sort::Mark, length);
        }
    }

    /// Reads a word of code. A contract or anything `ghost` is skipped as a whole.
    fn word(&mut self) {
        let length = self.run(in_word);
        let clause = ["requires", "ensures", "ghost"].contains(&&self.rest()[..length]);
        if !clause {
            return self.take(Sort::Word, length);
        }
        let named = &self.rest()[..length] != "ghost";
        self.step(length);
        self.skip_space();
        if named && !self.sees("{") {
            // the name of a clause
            self.step(self.run(|c| in_word(c) || c == '*'));
            self.skip_space();
        }
        if self.sees("{") {
            self.clause();
        } else {
            self.step(self.run(|c| c != ';') + 1);
        }
    }

    /// Steps over the braces of a clause. The text in them is in the language of definitions.
    fn clause(&mut self) {
        let mut depth = 0;
        while !self.rest().is_empty() {
            let c = self.rest().chars().next().unwrap_or(' ');
            if c == '"' {
                self.step(quoted(self.rest()));
            } else if self.comment() {
                continue;
            } else {
                depth += i32::from(c == '{') - i32::from(c == '}');
                self.step(c.len_utf8());
                if depth == 0 {
                    return;
                }
            }
        }
    }

    /// Steps over a comment of a definition, if one begins here.
    fn comment(&mut self) -> bool {
        let before = self.text[..self.at].chars().next_back().unwrap_or(' ');
        if self.sees("{-") {
            self.nested("{-", "-}");
        } else if self.sees("--") && !in_name(before) {
            self.skip_line();
        } else {
            return false;
        }
        true
    }

    /// One step in a definition.
    fn definition(&mut self) {
        let c = self.rest().chars().next().unwrap_or(' ');
        if c.is_whitespace() {
            self.skip_space();
        } else if self.comment() {
        } else if c == '"' {
            self.take(Sort::Text, quoted(self.rest()));
        } else if c == '«' {
            let end = self.rest().find('»').map_or(c.len_utf8(), |at| at + '»'.len_utf8());
            self.take(Sort::Word, end);
        } else if in_name(c) {
            let length = name_len(self.rest());
            self.take(name_sort(&self.rest()[..length]), length);
        } else {
            self.take(Sort::Mark, c.len_utf8());
        }
    }
}

fn first_len(text: &str) -> usize {
    text.chars().next().map_or(0, char::len_utf8)
}

/// The length in bytes of a name in a definition. A dot inside it belongs to it, as in `A.b`.
fn name_len(text: &str) -> usize {
    let mut length = 0;
    loop {
        length += text[length..].find(|c| !in_name(c)).unwrap_or(text.len() - length);
        let mut after = text[length..].chars();
        let inner = after.next() == Some('.') && after.next().is_some_and(in_name);
        if !inner {
            return length;
        }
        length += 1;
    }
}

/// A name in a definition is a number, an operator or a word.
fn name_sort(name: &str) -> Sort {
    let first = name.chars().next().unwrap_or(' ');
    if name.chars().all(|c| c.is_ascii_digit()) {
        Sort::Number
    } else if first.is_alphanumeric() || "◌_[⊥".contains(first) {
        Sort::Word
    } else {
        Sort::Mark
    }
}

/// The length in bytes of a text in quotes, including both quotes.
fn quoted(text: &str) -> usize {
    let quote = text.as_bytes()[0];
    let mut escaped = false;
    for (i, b) in text.bytes().enumerate().skip(1) {
        if !escaped && b == quote {
            return i + 1;
        }
        escaped = b == b'\\' && !escaped;
    }
    text.len()
}

/// The sort and the length in bytes of the quoted literal at the start of a text of code, if there is one.
fn literal(text: &str) -> Option<(Sort, usize)> {
    if let Some(length) = raw(text) {
        return Some((Sort::Text, length));
    }
    let prefix = usize::from(text.starts_with("b'") || text.starts_with("b\""));
    let body = &text[prefix..];
    if body.starts_with('"') {
        return Some((Sort::Text, prefix + quoted(body)));
    }
    let mut chars = body.chars().skip(1);
    let (first, second) = (chars.next(), chars.next());
    let letter = body.starts_with('\'') && (first == Some('\\') || second == Some('\''));
    letter.then(|| (Sort::Letter, prefix + quoted(body)))
}

/// The length in bytes of a raw text such as `r".."` or `br#".."#`.
fn raw(text: &str) -> Option<usize> {
    let prefix = usize::from(text.starts_with('b'));
    let body = text[prefix..].strip_prefix('r')?;
    let hashes = body.len() - body.trim_start_matches('#').len();
    let inner = body[hashes..].strip_prefix('"')?;
    let close = format!("\"{}", "#".repeat(hashes));
    let end = inner.find(&close)? + close.len();
    Some(prefix + 1 + hashes + 1 + end)
}

#[cfg(test)]
mod tests {
    use super::*;

    fn texts(tokens: &[Token]) -> Vec<&str> {
        tokens.iter().map(|token| token.text.as_str()).collect()
    }

    #[test]
    fn comments_leave_no_token() {
        assert_eq!(texts(&code("a /* b /* c */ d */ e // f\ng")), ["a", "e", "g"]);
        assert_eq!(texts(&definitions("a {- b {- c -} d -} e -- f\ng")), ["a", "e", "g"]);
    }

    #[test]
    fn quotes_hide_comments_and_brackets() {
        assert_eq!(texts(&code("f(b\"// {\", b'\\'', 'x')")), ["f", "(", "b\"// {\"", ",", "b'\\''", ",", "'x'", ")"]);
        assert_eq!(texts(&definitions("codes \"-- \\\" {\" x")), ["codes", "\"-- \\\" {\"", "x"]);
        assert_eq!(texts(&code("r#\"a\"b\"# 'a c")), ["r#\"a\"b\"#", "'", "a", "c"]);
    }

    #[test]
    fn contracts_leave_no_token() {
        let text =
            "fn f() -> u8\n    requires { ({A = ℕ} \"}\" ≡ b' -- }\n) }\n    ensures low { x }\n{ 1 }\nghost use a.{b};\nc";
        assert_eq!(texts(&code(text)), ["fn", "f", "(", ")", "->", "u8", "{", "1", "}", "c"]);
    }

    #[test]
    fn places_are_those_of_the_line() {
        let tokens = code("λ\n  a <= 0x1f_u8;");
        let last: Vec<_> = tokens.iter().skip(1).map(|t| (t.line, t.start, t.end)).collect();
        assert_eq!(last, [(1, 2, 3), (1, 4, 6), (1, 7, 14), (1, 14, 15)]);
    }

    #[test]
    fn names_of_definitions() {
        let tokens = definitions("r .«a_b» R.x λ s. n+n 12 *ℤ [] ∷");
        let sorts: String = tokens.iter().map(|t| format!("{:?} ", t.sort).chars().next().unwrap_or(' ')).collect();
        assert_eq!(texts(&tokens), ["r", ".", "«a_b»", "R.x", "λ", "s", ".", "n+n", "12", "*ℤ", "[]", "∷"]);
        assert_eq!(sorts, "WMWWWWMWNMWM");
    }
}
