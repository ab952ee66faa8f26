//! Mutants of the definitions.

use super::clauses::{applications, statements, taken, Application, Form, Statement};
use super::edit::{self, same, Edit, Piece};
use super::items::{find, split};
use super::lexer::{self, closing, depth_of, Sort, Token};
use super::values::{chosen, next_letter, plain_letters, replaced};
use super::world::{files_in, text_and_name};
use super::Mutant;
use std::collections::BTreeSet;
use std::ops::Range;
use std::path::Path;

/// A name that a file imports, and the name that it has in this file.
struct Import {
    /// The crate of the repository that it comes from, if it comes from one.
    krate: Option<String>,
    /// The last part of the path: the name of the file.
    file: String,
    name: String,
    here: String,
}

/// A file of definitions.
pub struct File {
    krate: String,
    /// The path from the crate's folder.
    pub name: String,
    pub lines: Vec<String>,
    pub tokens: Vec<Token>,
    pub statements: Vec<Statement>,
    imports: Vec<Import>,
}

/// A crate's own files first, and then those of the crates from which it imports names.
pub struct Library {
    files: Vec<File>,
    own: usize,
}

/// All mutants of the definitions of a crate, by file and place.
pub fn all(folder: &Path, krate: &str) -> Result<Vec<Mutant>, String> {
    let library = Library::read(folder, krate)?;
    let of_file = |file: &File| edit::mutants(edits(&library, file), krate, &file.name, &file.lines);
    Ok(library.own().iter().flat_map(of_file).collect())
}

// ---- files

impl File {
    fn read_all(folder: &Path, krate: &str) -> Result<Vec<File>, String> {
        let specs = folder.join("specs");
        if !specs.is_dir() {
            return Ok(Vec::new());
        }
        files_in(&specs, "antt")?.iter().map(|path| File::read(folder, krate, path)).collect()
    }

    fn read(folder: &Path, krate: &str, path: &Path) -> Result<File, String> {
        let (text, name) = text_and_name(folder, path)?;
        let tokens = lexer::definitions(&text);
        let statements = statements(&tokens);
        let imports = imports(&tokens);
        let lines = text.lines().map(String::from).collect();
        Ok(File { krate: krate.to_string(), name, lines, tokens, statements, imports })
    }

    /// The file's name without its folder and ending.
    pub fn stem(&self) -> &str {
        let name = self.name.rsplit('/').next().unwrap_or("");
        name.strip_suffix(".antt").unwrap_or(name)
    }

    /// Can this name be used in this file? An operator is given without its `◌`.
    fn names(&self, name: &str) -> bool {
        let operator = format!("◌{name}◌");
        let imported = self.imports.iter().any(|import| import.here == name || import.here == operator);
        imported || self.statements.iter().any(|s| s.form == Form::Signature && (s.name == name || s.name == operator))
    }

    /// The types that a name of this file takes, as seen from a statement of the same file, or from another file.
    fn signature(&self, name: &str, from: Option<&Statement>) -> Option<Vec<String>> {
        let found = self.statements.iter().find(|s| s.form == Form::Signature && s.name == name)?;
        let inside = |module| from.is_some_and(|from| from.modules.contains(module));
        let outer = found.modules.iter().filter(|module| !inside(*module)).flat_map(|module| module.params.clone());
        Some(outer.chain(taken(&self.tokens, found.body.clone())).collect())
    }
}

/// The names that a file imports by `use path.{..}`.
fn imports(tokens: &[Token]) -> Vec<Import> {
    let mut imports = Vec::new();
    for at in (0..tokens.len()).filter(|at| tokens[*at].is("use")) {
        let open = at + 3;
        if !tokens.get(open).is_some_and(|token| token.is("{")) {
            continue;
        }
        let path: Vec<&str> = tokens[at + 1].text.split('.').collect();
        // a library of the kit has such a path too, and counts as the base library
        let krate = path.get(1).filter(|_| path[0] == "Rattle").map(|krate| krate.to_string());
        let file = path[path.len() - 1].to_string();
        for part in split(tokens, open + 1..closing(tokens, open), ",") {
            let (name, here) = (tokens[part.start].text.clone(), tokens[part.end - 1].text.clone());
            imports.push(Import { krate: krate.clone(), file: file.clone(), name, here });
        }
    }
    imports
}

impl Library {
    pub fn read(folder: &Path, krate: &str) -> Result<Library, String> {
        let mut files = File::read_all(folder, krate)?;
        let own = files.len();
        let mut others: BTreeSet<String> =
            files.iter().flat_map(|file| &file.imports).filter_map(|import| import.krate.clone()).collect();
        others.remove(krate);
        for other in others {
            if let Some(crates) = folder.parent().filter(|crates| crates.join(&other).is_dir()) {
                files.extend(File::read_all(&crates.join(&other), &other)?);
            }
        }
        Ok(Library { files, own })
    }

    pub fn own(&self) -> &[File] {
        &self.files[..self.own]
    }

    /// The types that a name takes, as seen from a statement of a file.
    fn signature(&self, file: &File, from: &Statement, name: &str) -> Option<Vec<String>> {
        let import = || file.imports.iter().find(|import| import.here == name);
        file.signature(name, Some(from)).or_else(|| {
            let import = import()?;
            let krate = import.krate.as_ref().filter(|krate| self.files.iter().any(|f| f.krate == **krate));
            match krate {
                None => of_base(&import.name),
                Some(krate) => {
                    let there = self.files.iter().find(|f| f.krate == *krate && f.stem() == import.file)?;
                    there.signature(&import.name, None)
                }
            }
        })
    }
}

/// The types that names of the base library take, as far as they are needed. Functions for which the order of the
/// arguments does not matter are left out.
fn of_base(name: &str) -> Option<Vec<String>> {
    let types: &[&str] = match name {
        "leb" | "ltb" | "nat_le" | "nat_lt" => &["ℕ", "ℕ"],
        "slice" => &["ℕ", "ℕ", "List"],
        "cond" => &["Bool", "A", "A"],
        _ => return None,
    };
    Some(types.iter().map(|name| name.to_string()).collect())
}

// ---- edits

fn edits(library: &Library, file: &File) -> Vec<Edit> {
    let mut edits = Vec::new();
    for statement in &file.statements {
        edits.extend(values(file, statement).into_iter().flat_map(|at| number_or_letter(file, statement, at)));
        if statement.form == Form::Equation {
            edits.extend(statement.body.clone().filter_map(|at| other_name(file, statement, at)));
            for application in applications(&file.tokens, statement.body.clone()) {
                edits.extend(arguments(library, file, statement, &application));
                edits.extend(branches(file, &application));
            }
        }
    }
    edits.extend(file.statements.windows(2).filter_map(|pair| clauses(file, &pair[0], &pair[1])));
    edits
}

/// The numbers and texts that may be changed in a statement: those in the body of an equation or a field.
pub fn values(file: &File, statement: &Statement) -> Vec<usize> {
    if statement.form != Form::Equation && statement.form != Form::Field {
        return Vec::new();
    }
    let unmet = past_the_end(file, statement);
    statement.body.clone().filter(|at| is_value(&file.tokens, *at) && !unmet.contains(at)).collect()
}

/// Is it a text, or a number that is not the level of a type?
fn is_value(tokens: &[Token], at: usize) -> bool {
    let braced = |at: usize| tokens[at - 1].is("{") && tokens.get(at + 1).is_some_and(|token| token.is("}"));
    let level = at > 0 && (tokens[at - 1].is("Type") || braced(at));
    tokens[at].sort == Sort::Text || (tokens[at].sort == Sort::Number && !level)
}

/// The third arguments of `get_or`: the values for an element past the end. They are almost never used.
fn past_the_end(file: &File, statement: &Statement) -> Vec<usize> {
    let found = applications(&file.tokens, statement.body.clone()).into_iter();
    let last = found.filter(|a| file.tokens[a.head].is("get_or")).filter_map(|a| a.arguments.get(2).cloned());
    last.filter(|range| range.len() == 1).map(|range| range.start).collect()
}

fn number_or_letter(file: &File, statement: &Statement, at: usize) -> Vec<Edit> {
    let token = &file.tokens[at];
    if token.sort == Sort::Text {
        return letters(token);
    }
    let Ok(value) = token.text.parse::<u128>() else { return Vec::new() };
    let more = value.checked_add(1).filter(|_| !is_weaker(file, statement, at, true));
    let less = value.checked_sub(1).filter(|_| !is_weaker(file, statement, at, false));
    more.into_iter().chain(less).map(|value| Edit::token("constant", token, &value.to_string())).collect()
}

/// Would a statement only say less with the bound one more or one less? It does if the bound of a conclusion becomes wider,
/// or the bound of a premise narrower.
fn is_weaker(file: &File, statement: &Statement, at: usize, more: bool) -> bool {
    let is_mark = |at: usize| file.tokens[at].is("≤") || file.tokens[at].is("<");
    let (above, below) = (is_mark(at - 1), at + 1 < statement.body.end && is_mark(at + 1));
    (above || below) && (more == above) != is_premise(file, statement, at)
}

/// Does an arrow follow a token within the same brackets?
fn is_premise(file: &File, statement: &Statement, at: usize) -> bool {
    find(&file.tokens, at..statement.body.end, &["→"]).is_some()
}

/// Changes a letter of a text, or drops its last one.
fn letters(token: &Token) -> Vec<Edit> {
    let plain = plain_letters(token);
    let changed = chosen(&plain).into_iter().filter_map(|(at, c)| replaced(token, at, next_letter(c)?));
    let dropped = plain.last().map(|(at, c)| {
        let start = token.start + at;
        let piece = Piece { line: token.line, start, end: start + c.len_utf8(), new: String::new() };
        Edit { kind: "letter", pieces: vec![piece] }
    });
    changed.chain(dropped).collect()
}

/// The kind of the edit, a name or an operator, and what replaces it if the file can name that.
const OTHER: [(&str, &str, &str); 15] = [
    ("operator", "leb", "ltb"),
    ("operator", "ltb", "leb"),
    ("operator", "nat_le", "nat_lt"),
    ("operator", "nat_lt", "nat_le"),
    ("operator", "&&", "||"),
    ("operator", "||", "&&"),
    ("operator", "≤", "<"),
    ("operator", "<", "≤"),
    ("operator", "+", "-"),
    ("operator", "-", "+"),
    ("operator", "*", "+"),
    ("operator", "/", "%"),
    ("operator", "%", "/"),
    ("boolean", "true", "false"),
    ("boolean", "false", "true"),
];

fn other_name(file: &File, statement: &Statement, at: usize) -> Option<Edit> {
    let token = &file.tokens[at];
    let (kind, _, other) = OTHER.iter().find(|(_, name, _)| token.is(name))?;
    let weaker = (*other == "≤" || *other == "<") && (*other == "<") == is_premise(file, statement, at);
    (file.names(other) && !weaker).then(|| Edit::token(kind, token, other))
}

/// Exchanges two neighbouring arguments of the same type, if each is a name or a number.
fn arguments(library: &Library, file: &File, from: &Statement, application: &Application) -> Vec<Edit> {
    let head = &file.tokens[application.head];
    let Some(types) = library.signature(file, from, &head.text).filter(|_| !head.is("cond")) else { return Vec::new() };
    let simple = |range: &Range<usize>| range.len() == 1 && file.tokens[range.start].sort != Sort::Text;
    let pairs = application.arguments.windows(2).enumerate().filter(|(k, pair)| {
        let typed = types.get(*k).is_some() && types.get(*k) == types.get(k + 1);
        typed && pair.iter().all(simple) && !pair.iter().all(|range| is_used_once(file, from, range.start))
    });
    pairs.filter_map(|(_, pair)| exchange(file, "argument", &pair[0], &pair[1])).collect()
}

/// Is a name bound on the statement's own right side, as in `(a b : T) →`, and used only here? If two such names are
/// exchanged, the statement stays the same.
fn is_used_once(file: &File, statement: &Statement, at: usize) -> bool {
    let name = &file.tokens[at].text;
    let count = file.tokens[statement.body.clone()].iter().filter(|token| token.is(name)).count();
    let first = statement.body.clone().find(|i| file.tokens[*i].is(name)).unwrap_or(at);
    count == 2 && find(&file.tokens, first..statement.body.end, &[":"]).is_some()
}

/// Exchanges the two branches of a `cond`.
fn branches(file: &File, application: &Application) -> Option<Edit> {
    let two = application.arguments.get(1..3).filter(|_| file.tokens[application.head].is("cond"))?;
    exchange(file, "branch", &two[0], &two[1])
}

fn exchange(file: &File, kind: &'static str, a: &Range<usize>, b: &Range<usize>) -> Option<Edit> {
    let (a, b) = (&file.tokens[a.clone()], &file.tokens[b.clone()]);
    Edit::exchange(kind, &file.lines, a, b).filter(|_| !same(a, b))
}

/// Exchanges the right sides of two neighbouring clauses, if each clause is on one line and has the names that the other
/// uses.
fn clauses(file: &File, a: &Statement, b: &Statement) -> Option<Edit> {
    let both = a.form == Form::Equation && b.form == Form::Equation && a.name == b.name && a.modules == b.modules;
    let one_line = |s: &Statement| file.tokens[s.patterns.start].line == file.tokens[s.body.end - 1].line;
    let alike = both && count(&file.tokens, &a.patterns) == count(&file.tokens, &b.patterns);
    let fits = alike && one_line(a) && one_line(b) && knows(file, a, b) && knows(file, b, a);
    exchange(file, "branch", &a.body, &b.body).filter(|_| fits)
}

/// How many patterns there are: a bracket counts as one.
fn count(tokens: &[Token], range: &Range<usize>) -> usize {
    let mut depth = 0;
    let mut count = 0;
    for token in &tokens[range.clone()] {
        count += usize::from(depth == 0);
        depth += depth_of(token);
    }
    count
}

/// Does a clause have all the names that another one's right side takes from its own patterns?
fn knows(file: &File, clause: &Statement, other: &Statement) -> bool {
    let has = |range: &Range<usize>, text: &str| file.tokens[range.clone()].iter().any(|token| token.is(text));
    let words = file.tokens[other.body.clone()].iter().filter(|token| token.is_word());
    let mut bound = words.filter(|word| has(&other.patterns, &word.text) && !file.names(&word.text));
    bound.all(|word| has(&clause.patterns, &word.text))
}
