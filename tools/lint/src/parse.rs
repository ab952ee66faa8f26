//! Reads the items of a crate.
//!
//! What it cannot read is an error and is never skipped, because a function that is not seen would not be checked.

use crate::lex::{self, Token};
use std::path::{Path, PathBuf};
use std::{fs, mem};

/// A path as it is written in code: `a::b` is `["a", "b"]`.
pub type Names = Vec<String>;

/// A library crate.
#[derive(Default)]
pub struct Crate {
    /// The root module comes first.
    pub modules: Vec<Module>,
    pub items: Vec<Item>,
}

pub struct Module {
    /// The file that contains it, as a path from the repository's root.
    pub file: PathBuf,
    /// The module around it; the root has none.
    pub parent: Option<usize>,
}

pub struct Item {
    /// Its name; for a method `Type::name`, for a glob `*`.
    pub name: String,
    /// The module that it is in.
    pub module: usize,
    pub line: usize,
    /// Is it `pub`? `pub(crate)` and the like are not.
    pub public: bool,
    /// Is it the declaration of a trait?
    pub declares_trait: bool,
    pub kind: Kind,
    /// The paths in its signature or declaration. Among them are the types of the values that it returns or contains.
    pub mentions: Vec<Names>,
}

pub enum Kind {
    Module(usize),
    /// A `use` of a path, or a `type` that stands for it.
    Use(Names),
    /// A struct, an enum, a trait or a constant.
    Data,
    Function(Function),
}

pub struct Function {
    /// The type whose `impl` block it is in, or the trait that it is declared in.
    pub owner: Option<Names>,
    /// The trait whose `impl` block it is in.
    pub implements: Option<Implements>,
    /// The parameters that are `&mut ..`.
    pub lent: Vec<String>,
    /// Does it return a value?
    pub gives: bool,
    /// Its clauses: each one's keyword, and the names and marks of its text.
    pub clauses: Vec<(String, Vec<String>)>,
}

/// An `impl` of a trait for a type. Its functions have the contracts of the trait.
#[derive(Clone)]
pub struct Implements {
    /// The trait's name, without its path.
    pub name: String,
    /// The texts of the block's ghost members. If the trait is one of std's, they say what its functions do.
    pub says: Vec<Vec<String>>,
}

impl Crate {
    /// The names of the traits that it declares.
    pub fn traits(&self) -> impl Iterator<Item = &str> {
        self.items.iter().filter(|item| item.declares_trait).map(|item| item.name.as_str())
    }

    /// Reads the module in the file `root/file`. The files of its own modules are in `folder`. Returns its number.
    pub fn read(&mut self, root: &Path, file: &Path, folder: &Path, parent: Option<usize>) -> Result<usize, String> {
        let shown = file.display();
        let text = fs::read_to_string(root.join(file)).map_err(|e| format!("{shown}: cannot be read: {e}"))?;
        let tokens = lex::tokens(&text).map_err(|(line, what)| format!("{shown}:{line}: {what}"))?;
        let module = self.modules.len();
        self.modules.push(Module { file: file.to_path_buf(), parent });
        let around = Around::default();
        let mut parser = Parser { found: self, root, file, folder, tokens, at: 0, module, around, ghosts: Vec::new() };
        while parser.at < parser.tokens.len() {
            parser.item()?;
        }
        Ok(module)
    }
}

/// Reads one file.
struct Parser<'a> {
    /// Where the items go.
    found: &'a mut Crate,
    root: &'a Path,
    file: &'a Path,
    /// Where the files of its modules are.
    folder: &'a Path,
    tokens: Vec<Token>,
    /// The number of tokens that were read.
    at: usize,
    /// The module that is being read.
    module: usize,
    around: Around,
    /// The texts of the ghost members that were read.
    ghosts: Vec<Vec<String>>,
}

/// What an item is in, beside its module.
#[derive(Clone, Default)]
struct Around {
    /// The type whose `impl` block is being read, or the trait whose declaration is.
    owner: Option<Names>,
    /// The trait whose `impl` block is being read.
    implements: Option<Implements>,
    /// In a trait or an `impl` of one no function has a `pub`: are they public?
    public: bool,
}

impl Parser<'_> {
    /// The line of the token that was read last.
    fn line(&self) -> usize {
        self.tokens.get(self.at.saturating_sub(1)).map_or(1, |t| t.line)
    }

    /// An error at that line.
    fn error<T>(&self, what: &str) -> Result<T, String> {
        Err(format!("{}:{}: {what}", self.file.display(), self.line()))
    }

    /// The next token's text; empty at the end.
    fn peek(&self) -> &str {
        self.tokens.get(self.at).map_or("", |t| &t.text)
    }

    /// Reads a token, and returns its text.
    fn next(&mut self) -> Result<String, String> {
        let Some(token) = self.tokens.get(self.at) else {
            return self.error("the file ends inside an item");
        };
        self.at += 1;
        Ok(token.text.clone())
    }

    /// Reads `text`, if it comes next.
    fn take(&mut self, text: &str) -> bool {
        let here = self.peek() == text;
        self.at += usize::from(here);
        here
    }

    /// Reads a token and, if it opens a group, the whole group. Returns what is inside.
    fn group(&mut self) -> Result<&[Token], String> {
        let start = self.at + 1;
        let mut depth = 0;
        loop {
            depth += nesting(&self.next()?);
            if depth < 0 {
                return self.error("nothing opens what closes here");
            }
            if depth == 0 {
                return Ok(&self.tokens[start..start.max(self.at - 1)]);
            }
        }
    }

    /// Reads up to one of `ends`, outside all groups. Returns what is before it.
    fn until(&mut self, ends: &[&str]) -> Result<&[Token], String> {
        let start = self.at;
        while !ends.contains(&self.peek()) {
            self.group()?;
        }
        Ok(&self.tokens[start..self.at])
    }

    /// Reads the parameters of a generic item, `<T: A, const N: usize>`, if they come next. Returns what is inside.
    fn generics(&mut self) -> Result<&[Token], String> {
        let start = self.at;
        let mut depth = 0;
        loop {
            match self.peek() {
                "<" => depth += 1,
                ">" if self.tokens[self.at - 1].text != "-" => depth -= 1, // `->` closes nothing
                _ => {}
            }
            if depth > 0 {
                self.group()?;
            } else if start == self.at {
                return Ok(&[]);
            } else {
                self.at += 1;
                return Ok(&self.tokens[start + 1..self.at - 1]);
            }
        }
    }

    /// Reads an item, or an attribute of what it is in, `#![..]`.
    fn item(&mut self) -> Result<(), String> {
        while self.take("#") {
            let inner = self.take("!");
            self.group()?;
            if inner {
                return Ok(());
            }
        }
        let mut public = self.take("pub") || self.around.public;
        if self.tokens[self.at.saturating_sub(1)].text == "pub" && self.peek() == "(" {
            self.group()?;
            public = false;
        }
        loop {
            match self.next()?.as_str() {
                "fn" => return self.function(public),
                "mod" => return self.submodule(public),
                "use" => return self.imports(public),
                "impl" => return self.methods(),
                "struct" | "enum" => return self.data(public, &["{", ";"]),
                "trait" => return self.declaration(public),
                "const" if !["fn", "extern"].contains(&self.peek()) => return self.data(public, &[";"]),
                "type" => return self.alias(public),
                "extern" if self.peek() == "{" => return self.block(self.module, Around::default()),
                "const" | "extern" => {}
                "ghost" if self.tokens[self.at - 1].clause.is_some() => {
                    let text = self.tokens[self.at - 1].clause.clone();
                    // after a `ghost use` the `;` is part of the clause
                    if self.take(";") {
                        self.ghosts.extend(text);
                    }
                    return Ok(());
                }
                other => return self.error(&format!("the lint cannot read an item that begins with `{other}`")),
            }
        }
    }

    /// Reads the items of a block in braces, which are in `module` and in what is `around` them.
    fn block(&mut self, module: usize, around: Around) -> Result<(), String> {
        let outer = (mem::replace(&mut self.module, module), mem::replace(&mut self.around, around));
        if !self.take("{") {
            return self.error("expected a `{` after this");
        }
        while !self.take("}") {
            self.item()?;
        }
        (self.module, self.around) = outer;
        Ok(())
    }

    /// Adds an item to the module that is being read.
    fn push(&mut self, name: String, line: usize, public: bool, kind: Kind, mentions: Vec<Names>) {
        let declares_trait = false;
        self.found.items.push(Item { name, module: self.module, line, public, declares_trait, kind, mentions });
    }

    /// Reads a function, from its name on.
    fn function(&mut self, public: bool) -> Result<(), String> {
        let (mut name, line) = (self.next()?, self.line());
        if let Some(owner) = &self.around.owner {
            name = format!("{}::{name}", owner.join("::"));
        }
        let mut mentions = paths(self.generics()?);
        self.until(&["("])?;
        let parameters = self.group()?;
        let lent = split(parameters).into_iter().filter_map(lent).collect();
        mentions.extend(paths(parameters));
        let rest = self.until(&["{", ";"])?;
        mentions.extend(paths(rest));
        let gives = rest.first().is_some_and(|t| t.text == "-"); // the arrow
        let clauses = rest.iter().filter_map(|t| Some((t.text.clone(), t.clause.clone()?))).collect();
        self.group()?;
        let Around { owner, implements, .. } = self.around.clone();
        let function = Function { owner, implements, lent, gives, clauses };
        self.push(name, line, public, Kind::Function(function), mentions);
        Ok(())
    }

    /// Reads `mod NAME;` and its file, or `mod NAME { .. }`.
    fn submodule(&mut self, public: bool) -> Result<(), String> {
        let (name, line) = (self.next()?, self.line());
        let parent = Some(self.module);
        let module = if self.take(";") {
            let file = self.folder.join(format!("{name}.rt"));
            self.found.read(self.root, &file, &self.folder.join(&name), parent)?
        } else {
            self.found.modules.push(Module { file: self.file.to_path_buf(), parent });
            let module = self.found.modules.len() - 1;
            self.block(module, Around::default())?;
            module
        };
        self.push(name, line, public, Kind::Module(module), Vec::new());
        Ok(())
    }

    /// Reads a `use`, from its path on.
    fn imports(&mut self, public: bool) -> Result<(), String> {
        for (name, path) in imported(self.until(&[";"])?, &[]) {
            if public && name == "*" {
                return self.error("a glob in a `pub use`: name what it passes on");
            }
            self.push(name, self.line(), public, Kind::Use(path), Vec::new());
        }
        self.group().map(|_| ())
    }

    /// Reads an `impl` block, from its parameters or its type on.
    fn methods(&mut self) -> Result<(), String> {
        self.generics()?;
        let head = self.until(&["{"])?;
        let of_trait = head.iter().position(|t| t.text == "for");
        let owner = paths(&head[of_trait.map_or(0, |at| at + 1)..]).into_iter().next();
        let Some(at) = of_trait else {
            return self.block(self.module, Around { owner, ..Around::default() });
        };
        let name = paths(&head[..at]).first().and_then(|path| path.last()).cloned().unwrap_or_default();
        let implements = Some(Implements { name, says: Vec::new() });
        let (first, ghosts) = (self.found.items.len(), self.ghosts.len());
        self.block(self.module, Around { owner, implements, public: true })?;
        // Its ghost members may stand after its functions.
        let says = &self.ghosts[ghosts..];
        for item in &mut self.found.items[first..] {
            if let Kind::Function(Function { implements: Some(implements), .. }) = &mut item.kind {
                implements.says = says.to_vec();
            }
        }
        Ok(())
    }

    /// Reads the declaration of a trait, from its name on.
    fn declaration(&mut self, public: bool) -> Result<(), String> {
        let (name, line) = (self.next()?, self.line());
        let mut mentions = paths(self.generics()?);
        mentions.extend(paths(self.until(&["{"])?));
        self.push(name.clone(), line, public, Kind::Data, mentions);
        self.found.items.last_mut().into_iter().for_each(|item| item.declares_trait = true);
        self.block(self.module, Around { owner: Some(vec![name]), implements: None, public })
    }

    /// Reads a struct, an enum or a constant, from its name on. One of `ends` is its last token or opens its last group.
    fn data(&mut self, public: bool, ends: &[&str]) -> Result<(), String> {
        let (name, line) = (self.next()?, self.line());
        let mut mentions = paths(self.generics()?);
        mentions.extend(paths(self.until(ends)?));
        mentions.extend(paths(self.group()?));
        self.push(name, line, public, Kind::Data, mentions);
        Ok(())
    }

    /// Reads a `type`, from its name on.
    fn alias(&mut self, public: bool) -> Result<(), String> {
        let (name, line) = (self.next()?, self.line());
        let aliased = self.until(&[";"])?;
        let (mentions, lends) = (paths(aliased), aliased.iter().any(|t| t.text == "mut"));
        if lends {
            return self.error("a `type` with a `mut` in it would hide a `&mut` parameter: write the type out");
        }
        self.push(name, line, public, Kind::Use(mentions.first().cloned().unwrap_or_default()), mentions);
        self.group().map(|_| ())
    }
}

/// 1 if a token opens a group, -1 if it closes one, and otherwise 0.
fn nesting(text: &str) -> i32 {
    i32::from("([{".contains(text)) - i32::from(")]}".contains(text))
}

/// Splits a list at its commas.
fn split(list: &[Token]) -> Vec<&[Token]> {
    let mut depth = 0;
    let parts = list.split(|t| {
        depth += nesting(&t.text);
        depth == 0 && t.text == ","
    });
    parts.filter(|part| !part.is_empty()).collect()
}

/// The name of a parameter `name: &mut ..` or `&mut self`; none for any other parameter. `lex` has dropped its lifetime,
/// and a parenthesis around its type is dropped here.
fn lent(parameter: &[Token]) -> Option<String> {
    let texts: Vec<&str> = parameter.iter().map(|t| t.text.as_str()).filter(|t| *t != "(").collect();
    if texts == ["&", "mut", "self"] {
        return Some("self".to_string());
    }
    let found = texts.windows(4).find(|w| w[1..] == [":", "&", "mut"])?;
    Some(found[0].to_string())
}

/// The paths in `tokens`, from left to right: each word, with those that `::` joins to it.
fn paths(tokens: &[Token]) -> Vec<Names> {
    let mut found: Vec<Names> = Vec::new();
    for (i, token) in tokens.iter().enumerate() {
        let joined = i >= 2 && tokens[i - 2..i].iter().all(|t| t.text == ":");
        match found.last_mut() {
            _ if token.clause.is_some() || !token.text.chars().all(lex::in_word) => {}
            Some(path) if joined => path.push(token.text.clone()),
            _ => found.push(vec![token.text.clone()]),
        }
    }
    found
}

/// What the tree of a `use` imports below the path `prefix`: names, each with its path.
fn imported(tree: &[Token], prefix: &[String]) -> Vec<(String, Names)> {
    let mut path = prefix.to_vec();
    for (i, token) in tree.iter().enumerate() {
        match token.text.as_str() {
            "{" => {
                let parts = split(tree.get(i + 1..tree.len() - 1).unwrap_or_default());
                return parts.into_iter().flat_map(|part| imported(part, &path)).collect();
            }
            "as" => return tree.get(i + 1).map(|name| (name.text.clone(), path)).into_iter().collect(),
            "*" => return vec![("*".to_string(), path)],
            "self" if !path.is_empty() => {} // `a::{self}` is `a`
            ":" => {}
            word => path.push(word.to_string()),
        }
    }
    path.last().cloned().map(|name| (name, path)).into_iter().collect()
}
