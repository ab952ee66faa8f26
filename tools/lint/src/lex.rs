//! Cuts the text of a Rattle file into tokens.
//!
//! Comments, literals and lifetimes have no tokens, so that a brace or a word in them cannot mislead. A whole clause is one
//! token, because its text is antt, in which `//` is a name and `--` begins a comment.

/// A word, a mark of one character, or a clause.
pub struct Token {
    /// The word or the mark; for a clause, its keyword.
    pub text: String,
    pub line: usize,
    /// For a clause, the names and marks in its braces, without comments, quoted texts and brackets `⟦ .. ⟧`. A clause with a
    /// star, `ensures* { .. }`, has a `*` before them.
    pub clause: Option<Vec<String>>,
}

/// The words that begin a clause. They are reserved.
const KEYWORDS: [&str; 3] = ["requires", "ensures", "ghost"];

/// The tokens of `text`, or a line and what is wrong there.
pub fn tokens(text: &str) -> Result<Vec<Token>, (usize, String)> {
    let mut lexer = Lexer { chars: text.chars().collect(), at: 0, line: 1, tokens: Vec::new() };
    match lexer.code() {
        Ok(()) => Ok(lexer.tokens),
        Err(what) => Err((lexer.line, what)),
    }
}

/// The text of an antt file with a blank in place of each comment and each quoted text, or a line and what is wrong there.
/// The line breaks stay.
pub fn uncommented(text: &str) -> Result<String, (usize, String)> {
    let mut lexer = Lexer { chars: text.chars().collect(), at: 0, line: 1, tokens: Vec::new() };
    let mut kept = String::new();
    while lexer.at < lexer.chars.len() {
        let start = lexer.at;
        let passed = lexer.pass_comment().map_err(|what| (lexer.line, what))?;
        if passed {
            kept.push(' ');
            kept.extend(lexer.chars[start..lexer.at].iter().filter(|c| **c == '\n'));
        } else if in_name(lexer.peek(0)) {
            kept += &lexer.run(in_name);
        } else {
            kept.push(lexer.step().map_err(|what| (lexer.line, what))?);
        }
    }
    Ok(kept)
}

/// May `c` be part of a word of Rattle?
pub fn in_word(c: char) -> bool {
    c.is_alphanumeric() || c == '_'
}

/// May `c` be part of a name of antt? `n+n` is one name, and so is `b'`.
pub fn in_name(c: char) -> bool {
    !c.is_whitespace() && !"(){}.;,@\"«»⟦⟧\0".contains(c)
}

struct Lexer {
    chars: Vec<char>,
    at: usize,
    line: usize,
    tokens: Vec<Token>,
}

impl Lexer {
    /// The character `ahead` places further on; NUL past the end.
    fn peek(&self, ahead: usize) -> char {
        self.chars.get(self.at + ahead).copied().unwrap_or('\0')
    }

    /// Is `text` what comes next?
    fn sees(&self, text: &str) -> bool {
        text.chars().enumerate().all(|(i, c)| self.peek(i) == c)
    }

    /// Steps over one character.
    fn step(&mut self) -> Result<char, String> {
        let c = *self.chars.get(self.at).ok_or("the file ends too early")?;
        self.at += 1;
        self.line += usize::from(c == '\n');
        Ok(c)
    }

    /// Steps over the characters that `keep` accepts and returns them. `keep` must not accept a line break.
    fn run(&mut self, keep: fn(char) -> bool) -> String {
        let text: String = self.chars[self.at..].iter().take_while(|c| keep(**c)).collect();
        self.at += text.chars().count();
        text
    }

    /// Steps over everything up to and including `end`.
    fn run_to(&mut self, end: char) -> Result<(), String> {
        while self.step()? != end {}
        Ok(())
    }

    /// Steps over a comment between two marks of two characters. It may contain other comments.
    fn comment(&mut self, open: &str, close: &str) -> Result<(), String> {
        let mut depth = 0;
        loop {
            let change = i32::from(self.sees(open)) - i32::from(self.sees(close));
            depth += change;
            self.step()?;
            if change != 0 {
                self.step()?;
            }
            if depth == 0 {
                return Ok(());
            }
        }
    }

    /// Steps over a literal, if one begins here: `".."` and `'.'`, with or without a `b` before them; `r".."`, `br#".."#`.
    fn literal(&mut self) -> Result<bool, String> {
        let start = self.at;
        self.at += usize::from(self.peek(0) == 'b');
        let raw = self.peek(0) == 'r';
        self.at += usize::from(raw);
        let hashes = if raw { self.run(|c| c == '#') } else { String::new() };
        let quote = self.peek(0);
        let lifetime = quote == '\'' && self.peek(1) != '\\' && self.peek(2) != '\'';
        if quote != '"' && (quote != '\'' || raw || lifetime) {
            self.at = start;
            return Ok(false);
        }
        self.step()?;
        let close = format!("{quote}{hashes}");
        while !self.sees(&close) {
            if self.step()? == '\\' && !raw {
                self.step()?;
            }
        }
        self.at += close.len();
        Ok(true)
    }

    /// Reads Rattle, to the end of the file.
    fn code(&mut self) -> Result<(), String> {
        while self.at < self.chars.len() {
            let (c, line) = (self.peek(0), self.line);
            if self.sees("//") {
                self.run(|c| c != '\n');
            } else if self.sees("/*") {
                self.comment("/*", "*/")?;
            } else if !self.literal()? {
                let mut text = self.run(in_word);
                if text.is_empty() {
                    text.push(self.step()?);
                }
                if c == '\'' {
                    self.run(in_word); // a lifetime
                } else if let Some((end, star)) = self.clause_end(&text) {
                    self.clause(end, star)?;
                } else if !c.is_whitespace() {
                    self.tokens.push(Token { text, line, clause: None });
                }
            }
        }
        Ok(())
    }

    /// If `text` opens a clause, or is the `use` of a `ghost use`, returns the mark that ends it, and whether it has a star. Its
    /// keyword is then the last token.
    fn clause_end(&mut self, text: &str) -> Option<(char, bool)> {
        let is_head = |t: &Token| t.clause.is_none() && KEYWORDS.contains(&t.text.as_str());
        let back = self.tokens.iter().rev().take(3).position(is_head)?;
        let (before, after) = self.tokens.split_at(self.tokens.len() - back);
        let ghost = before.last().is_some_and(|keyword| keyword.text == "ghost");
        let after: Vec<&str> = after.iter().map(|t| t.text.as_str()).collect();
        let star = after.first() == Some(&"*");
        let end = match (text, ghost, after.as_slice()) {
            ("use", true, []) => ';',
            ("{", true, [_, ":" | "="]) | ("{", false, [] | [_] | ["*", _]) => '}',
            _ => return None,
        };
        self.tokens.truncate(self.tokens.len() - back); // drops a clause's star and name
        Some((end, star))
    }

    /// Steps over a comment or a quoted text of antt, if one begins here.
    fn pass_comment(&mut self) -> Result<bool, String> {
        if self.sees("--") {
            self.run(|c| c != '\n');
        } else if self.sees("{-") {
            self.comment("{-", "-}")?;
        } else {
            return Ok(self.peek(0) == '"' && self.literal()?);
        }
        Ok(true)
    }

    /// Reads antt into the last token, up to an `end` outside all braces.
    fn clause(&mut self, end: char, star: bool) -> Result<(), String> {
        let mut names = Vec::new();
        if star {
            names.push("*".to_string());
        }
        let mut depth = 0;
        loop {
            let c = self.peek(0);
            if self.pass_comment()? {
                continue;
            }
            if c == '⟦' {
                self.run_to('⟧')?; // Rattle, without comments
            } else if in_name(c) {
                names.push(self.run(in_name));
            } else {
                self.step()?;
                if depth == 0 && c == end {
                    break;
                }
                depth += i32::from(c == '{') - i32::from(c == '}');
                if !c.is_whitespace() && c != '«' && c != '»' {
                    names.push(c.to_string());
                }
            }
        }
        if let Some(keyword) = self.tokens.last_mut() {
            keyword.clause = Some(names);
        }
        Ok(())
    }
}
