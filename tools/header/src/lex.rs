//! Cuts the text of a Rattle file, of an antt file or of a C header into tokens: words, strings, and marks of one
//! character.
//!
//! Comments, single characters in quotes and the preprocessor lines of a C header have no tokens.

/// Which language a text is in.
#[derive(Clone, Copy, PartialEq)]
pub enum Language {
    Rattle,
    Antt,
    C,
}

#[derive(Clone)]
pub struct Token {
    /// The word or mark; for a string, its text with the quotes.
    pub text: String,
    pub line: usize,
    /// Is it at the very beginning of its line?
    pub first: bool,
}

/// The tokens of a text.
pub fn tokens(text: &str, language: Language) -> Vec<Token> {
    let kept = if language == Language::C { without_directives(text) } else { text.to_string() };
    let mut lexer = Lexer { chars: kept.chars().collect(), at: 0, line: 1, tokens: Vec::new() };
    while lexer.at < lexer.chars.len() {
        if language == Language::Antt {
            lexer.step_antt();
        } else {
            lexer.step();
        }
    }
    lexer.tokens
}

/// Is it a word: a name, a keyword or a number?
pub fn is_word(text: &str) -> bool {
    text.chars().all(in_word)
}

/// The number that a word is: decimal, or hexadecimal after `0x`.
pub fn number(word: &str) -> Option<u64> {
    let digits = word.replace('_', "");
    match digits.strip_prefix("0x") {
        Some(digits) => u64::from_str_radix(digits, 16).ok(),
        None => digits.parse().ok(),
    }
}

/// The last of these marks that is outside of all groups.
pub fn last_mark(tokens: &[Token], marks: &[&str]) -> Option<usize> {
    let mut depth = 0;
    tokens.iter().rposition(|token| {
        depth += nesting(&token.text);
        depth == 0 && marks.contains(&token.text.as_str())
    })
}

/// The tokens inside the group that the first token opens.
pub fn group(tokens: &[Token]) -> &[Token] {
    let mut depth = 0;
    let end = tokens.iter().position(|token| {
        depth += nesting(&token.text);
        depth == 0
    });
    &tokens[1..end.unwrap_or(tokens.len())]
}

/// Splits a list at its commas.
pub fn parted(list: &[Token]) -> Vec<&[Token]> {
    let mut depth = 0;
    let parts = list.split(|token| {
        depth += nesting(&token.text);
        depth == 0 && token.text == ","
    });
    parts.filter(|part| !part.is_empty()).collect()
}

/// 1 if a token opens a group, -1 if it closes one, and otherwise 0.
fn nesting(text: &str) -> i32 {
    match text {
        "(" | "[" | "{" => 1,
        ")" | "]" | "}" => -1,
        _ => 0,
    }
}

/// The texts of tokens, separated by blanks.
pub fn shown(tokens: &[Token]) -> String {
    tokens.iter().map(|token| token.text.as_str()).collect::<Vec<_>>().join(" ")
}

fn in_word(c: char) -> bool {
    c.is_alphanumeric() || c == '_'
}

/// May `c` be part of a name of antt? `n+n` is one name, and so is `b'`.
fn in_name(c: char) -> bool {
    !c.is_whitespace() && !"(){}.;,@\"«»".contains(c)
}

/// The text with an empty line in place of each line of a directive, including lines that a backslash joins to it.
fn without_directives(text: &str) -> String {
    let mut inside = false;
    let mut kept = String::new();
    for line in text.lines() {
        inside |= line.trim_start().starts_with('#');
        if !inside {
            kept.push_str(line);
        }
        inside &= line.ends_with('\\');
        kept.push('\n');
    }
    kept
}

struct Lexer {
    chars: Vec<char>,
    at: usize,
    line: usize,
    tokens: Vec<Token>,
}

impl Lexer {
    fn peek(&self, ahead: usize) -> char {
        self.chars.get(self.at + ahead).copied().unwrap_or('\0')
    }

    /// Steps over `count` characters.
    fn pass(&mut self, count: usize) {
        let end = (self.at + count).min(self.chars.len());
        self.line += self.chars[self.at..end].iter().filter(|c| **c == '\n').count();
        self.at = end;
    }

    /// How many characters there are up to and including `end`; all characters if there is no `end`.
    fn up_to(&self, end: &str) -> usize {
        let end: Vec<char> = end.chars().collect();
        let rest = &self.chars[self.at..];
        let found = rest.windows(end.len()).position(|w| w == end);
        found.map_or(rest.len(), |i| i + end.len())
    }

    /// Steps over one comment, literal, word, mark or blank.
    fn step(&mut self) {
        let c = self.peek(0);
        match (c, self.peek(1)) {
            ('/', '/') => self.pass(self.up_to("\n")),
            ('/', '*') => self.pass(self.up_to("*/")),
            ('"', _) => self.take(self.string_length()),
            ('\'', '\\') => self.pass(self.escape_length()),
            ('\'', _) if self.peek(2) == '\'' => self.pass(3),
            _ if c.is_whitespace() => self.pass(1),
            _ => self.take(self.word_length(in_word).max(1)),
        }
    }

    /// The same in antt.
    fn step_antt(&mut self) {
        let c = self.peek(0);
        match (c, self.peek(1)) {
            ('-', '-') => self.pass(self.up_to("\n")),
            ('{', '-') => self.pass(self.comment_length()),
            ('"', _) => self.take(self.string_length()),
            _ if c.is_whitespace() => self.pass(1),
            _ => self.take(self.word_length(in_name).max(1)),
        }
    }

    /// Makes a token of `count` characters.
    fn take(&mut self, count: usize) {
        let end = (self.at + count).min(self.chars.len());
        let text = self.chars[self.at..end].iter().collect();
        let first = self.at == 0 || self.chars[self.at - 1] == '\n';
        self.tokens.push(Token { text, line: self.line, first });
        self.pass(count);
    }

    fn word_length(&self, within: fn(char) -> bool) -> usize {
        self.chars[self.at..].iter().take_while(|c| within(**c)).count()
    }

    /// The length of a comment `{- .. -}`, which may contain other comments.
    fn comment_length(&self) -> usize {
        let (mut depth, mut i) = (1, 2);
        while depth > 0 && self.at + i < self.chars.len() {
            let change = match (self.peek(i), self.peek(i + 1)) {
                ('{', '-') => 1,
                ('-', '}') => -1,
                _ => 0,
            };
            depth += change;
            i += if change == 0 { 1 } else { 2 };
        }
        i
    }

    /// The length of a character in quotes that begins with a backslash, such as `'\''` or `'\x0d'`.
    fn escape_length(&self) -> usize {
        let rest = self.chars.get(self.at + 3..).unwrap_or_default();
        rest.iter().position(|c| *c == '\'').map_or(1, |i| i + 4)
    }

    fn string_length(&self) -> usize {
        let mut i = 1;
        while self.peek(i) != '"' && self.at + i < self.chars.len() {
            i += if self.peek(i) == '\\' { 2 } else { 1 };
        }
        i + 1
    }
}
