//! A source file of a crate: its tokens, its constants, and where the names that it uses are declared.

use crate::lex::{self, Language, Token};
use std::fs;
use std::path::{Path, PathBuf};

pub struct Source {
    /// The folder of the crates.
    root: PathBuf,
    pub crate_name: String,
    /// Its path below the crate's `src`, without `.rt`; `lib` is the root.
    pub module: String,
    pub tokens: Vec<Token>,
}

impl Source {
    /// Reads `ROOT/CRATE/src/MODULE.rt`.
    pub fn read(root: &Path, crate_name: &str, module: &str) -> Result<Source, String> {
        let path = folder(root, crate_name).join(format!("{module}.rt"));
        let text = fs::read_to_string(&path).map_err(|e| format!("{}: cannot be read: {e}", path.display()))?;
        let tokens = lex::tokens(&text, Language::Rattle);
        let (crate_name, module) = (crate_name.to_string(), module.to_string());
        Ok(Source { root: root.to_path_buf(), crate_name, module, tokens })
    }

    /// Reads `ROOT/FILE`, where FILE is `CRATE/src/MODULE.rt`.
    pub fn at(root: &Path, file: &str) -> Result<Source, String> {
        let (crate_name, module) = file.split_once("/src/").unwrap_or(("", file));
        Source::read(root, crate_name, module.trim_end_matches(".rt"))
    }

    /// The crate and module in which a type or a constant is declared that this file names, and its name there: where a `use`
    /// imports it from, or this file itself.
    pub fn home(&self, name: &str) -> (String, String, String) {
        let path = self.used(name).unwrap_or_default();
        let Some((declared, path)) = path.split_last().filter(|(_, path)| !path.is_empty()) else {
            return (self.crate_name.clone(), self.module.clone(), name.to_string());
        };
        let (crate_name, module) = self.place(path);
        (crate_name, module, declared.clone())
    }

    /// The crate and module that a path leads to. The path begins with `crate`, with a module below this one, or with a crate.
    fn place(&self, path: &[String]) -> (String, String) {
        let (first, rest) = path.split_first().expect("a path has a word");
        let below = if self.module == "lib" { first.clone() } else { format!("{}/{first}", self.module) };
        if folder(&self.root, &self.crate_name).join(format!("{below}.rt")).exists() {
            return (self.crate_name.clone(), [&[below], rest].concat().join("/"));
        }
        let crate_name = if first == "crate" { &self.crate_name } else { first };
        let module = if rest.is_empty() { "lib".to_string() } else { rest.join("/") };
        (crate_name.clone(), module)
    }

    /// The names of all constants.
    pub fn constants(&self) -> Vec<String> {
        let named = self.tokens.windows(3).filter(|w| w[0].text == "const" && w[2].text == ":");
        named.map(|w| w[1].text.clone()).collect()
    }

    /// The number of `const name: type = ..;`, if it is in this file exactly once.
    pub fn constant(&self, name: &str) -> Option<u64> {
        let items = self.tokens.split(|token| token.text == ";");
        let values = items.filter_map(|item| {
            let at = item.windows(3).position(|w| w[0].text == "const" && w[1].text == name && w[2].text == ":")?;
            let equals = item[at..].iter().position(|token| token.text == "=")?;
            Some(&item[at + equals + 1..])
        });
        match values.collect::<Vec<_>>().as_slice() {
            [value] => self.value(value),
            _ => None,
        }
    }

    /// The value of a sum or difference of products. The factors are numbers, constants and expressions in brackets.
    pub fn value(&self, tokens: &[Token]) -> Option<u64> {
        let Some(at) = lex::last_mark(tokens, &["+", "-"]) else { return self.product(tokens) };
        let (left, right) = (self.value(&tokens[..at])?, self.product(&tokens[at + 1..])?);
        if tokens[at].text == "+" {
            left.checked_add(right)
        } else {
            left.checked_sub(right)
        }
    }

    fn product(&self, tokens: &[Token]) -> Option<u64> {
        match lex::last_mark(tokens, &["*"]) {
            Some(at) => self.product(&tokens[..at])?.checked_mul(self.factor(&tokens[at + 1..])?),
            None => self.factor(tokens),
        }
    }

    /// The value of an expression in brackets, a number, or a constant, which has a name or a path.
    fn factor(&self, tokens: &[Token]) -> Option<u64> {
        if tokens.first()?.text == "(" {
            let inside = lex::group(tokens);
            return if inside.len() + 2 == tokens.len() { self.value(inside) } else { None };
        }
        let words: Vec<String> = tokens.iter().map(|t| t.text.clone()).filter(|text| text != ":").collect();
        let (name, path) = words.split_last()?;
        let (crate_name, module, name) = match path {
            [] if lex::number(name).is_some() => return lex::number(name),
            [] => self.home(name),
            // the module at the start of the path may be imported by a `use`
            [first, rest @ ..] => {
                let first = self.used(first).unwrap_or_else(|| vec![first.clone()]);
                let (crate_name, module) = self.place(&[&first, rest].concat());
                (crate_name, module, name.clone())
            }
        };
        Source::found(&self.root, &crate_name, &module)?.constant(&name)
    }

    /// Reads a module that is a file, or that is inside another module: `mod NAME { .. }`.
    fn found(root: &Path, crate_name: &str, module: &str) -> Option<Source> {
        if let Ok(source) = Source::read(root, crate_name, module) {
            return Some(source);
        }
        let (outer, inner) = module.rsplit_once('/').or((module != "lib").then_some(("lib", module)))?;
        let source = Source::found(root, crate_name, outer)?;
        let at = source.tokens.windows(3).position(|w| [&w[0].text, &w[1].text, &w[2].text] == ["mod", inner, "{"])?;
        let tokens = lex::group(&source.tokens[at + 2..]).to_vec();
        Some(Source { module: module.to_string(), tokens, ..source })
    }

    /// The lengths of the arrays that `let name = [..; length]` makes. A length that cannot be read is none.
    pub fn lengths(&self, name: &str) -> Vec<Option<u64>> {
        let plain: Vec<Token> = self.tokens.iter().filter(|token| token.text != "mut").cloned().collect();
        let made = (1..plain.len()).filter(|i| plain[*i].text == name && plain[i - 1].text == "let");
        made.map(|i| self.value(length(&plain[i..])?)).collect()
    }

    /// The path that a `use` imports by this name: `a::b` is `["a", "b"]`.
    fn used(&self, name: &str) -> Option<Vec<String>> {
        let items = self.tokens.split(|token| token.text == ";");
        items.flat_map(imports).find(|(imported, _)| imported == name).map(|(_, path)| path)
    }
}

/// The length in `name = [..; length]`. There may be a type after the name.
fn length(tokens: &[Token]) -> Option<&[Token]> {
    let equals = tokens.iter().position(|token| token.text == "=")?;
    let array = &tokens[equals + 1..];
    let inside = array.first().filter(|token| token.text == "[").map(|_| lex::group(array))?;
    let end = inside.iter().rposition(|token| token.text == ";")?;
    Some(&inside[end + 1..])
}

/// What the `use` at the end of an item imports: names, each with its path. A `ghost use` imports nothing.
fn imports(item: &[Token]) -> Vec<(String, Vec<String>)> {
    let at = item.iter().rposition(|token| token.text == "use").filter(|at| *at == 0 || item[at - 1].text != "ghost");
    let tree = at.map(|at| &item[at + 1..]).unwrap_or_default();
    let plain = |token: &Token| lex::is_word(&token.text) || [":", "{", "}", ",", "*"].contains(&token.text.as_str());
    if tree.iter().all(plain) {
        imported(tree, &[])
    } else {
        Vec::new()
    }
}

/// What the tree of a `use` imports below the path `prefix`. A `*` is the name of all.
fn imported(tree: &[Token], prefix: &[String]) -> Vec<(String, Vec<String>)> {
    let mut path = prefix.to_vec();
    for (i, token) in tree.iter().enumerate() {
        match token.text.as_str() {
            "{" => {
                return lex::parted(lex::group(&tree[i..])).into_iter().flat_map(|part| imported(part, &path)).collect()
            }
            "as" => return tree.get(i + 1).map(|name| (name.text.clone(), path)).into_iter().collect(),
            "self" if !path.is_empty() => {} // `a::{self}` is `a`
            ":" => {}
            word => path.push(word.to_string()),
        }
    }
    path.last().cloned().map(|name| (name, path)).into_iter().collect()
}

/// The folder of a crate's sources.
fn folder(root: &Path, crate_name: &str) -> PathBuf {
    root.join(crate_name).join("src")
}

/// The modules of a crate, sorted by name.
pub fn modules(root: &Path, crate_name: &str) -> Result<Vec<String>, String> {
    let mut found = Vec::new();
    collect(&folder(root, crate_name), "", &mut found)?;
    found.sort();
    Ok(found)
}

fn collect(folder: &Path, prefix: &str, found: &mut Vec<String>) -> Result<(), String> {
    let unreadable = |e| format!("{}: cannot be read: {e}", folder.display());
    for entry in folder.read_dir().map_err(unreadable)? {
        let path = entry.map_err(unreadable)?.path();
        let stem = path.file_stem().unwrap_or_default().to_string_lossy().into_owned();
        if path.is_dir() {
            collect(&path, &format!("{prefix}{stem}/"), found)?;
        } else if path.extension().is_some_and(|e| e == "rt") {
            found.push(format!("{prefix}{stem}"));
        }
    }
    Ok(())
}
