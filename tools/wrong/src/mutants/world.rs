//! The code of a crate and of the crates beside it whose names it uses. Finds what a name means and which type it has.

use super::items::{self, Function, Items, Typed, Variant};
use super::lexer::{self, Token};
use std::collections::BTreeSet;
use std::fs;
use std::path::{Path, PathBuf};

/// A file of code.
pub struct File {
    pub krate: String,
    /// The path from the crate's folder.
    pub name: String,
    module: Vec<String>,
    pub lines: Vec<String>,
    pub tokens: Vec<Token>,
    pub items: Items,
}

/// A crate's own files first, and then those of the other crates.
pub struct World {
    files: Vec<File>,
    own: usize,
}

/// The files of a folder with this ending, including those in folders below it, sorted by path.
pub fn files_in(folder: &Path, ending: &str) -> Result<Vec<PathBuf>, String> {
    let mut found = Vec::new();
    let entries = fs::read_dir(folder).map_err(|e| format!("{}: {e}", folder.display()))?;
    for entry in entries {
        let path = entry.map_err(|e| format!("{}: {e}", folder.display()))?.path();
        if path.is_dir() {
            found.extend(files_in(&path, ending)?);
        } else if path.extension().is_some_and(|e| e == ending) {
            found.push(path);
        }
    }
    found.sort();
    Ok(found)
}

/// The text of a file, and its path from a folder, with `/` between the names.
pub fn text_and_name(folder: &Path, path: &Path) -> Result<(String, String), String> {
    let text = fs::read_to_string(path).map_err(|e| format!("{}: {e}", path.display()))?;
    let inner = path.strip_prefix(folder).unwrap_or(path);
    let names: Vec<String> = inner.iter().map(|part| part.to_string_lossy().into_owned()).collect();
    Ok((text, names.join("/")))
}

impl File {
    fn read(folder: &Path, krate: &str, path: &Path) -> Result<File, String> {
        let (text, name) = text_and_name(folder, path)?;
        let stem = name.trim_start_matches("src/").trim_end_matches(".rt");
        let module = stem.split('/').filter(|part| !["lib", "main", "mod"].contains(part)).map(String::from).collect();
        let tokens = lexer::code(&text);
        let items = items::items(&tokens);
        let lines = text.lines().map(String::from).collect();
        Ok(File { krate: krate.to_string(), name, module, lines, tokens, items })
    }

    /// All code files of a crate.
    fn read_all(folder: &Path, krate: &str) -> Result<Vec<File>, String> {
        files_in(&folder.join("src"), "rt")?.iter().map(|path| File::read(folder, krate, path)).collect()
    }
}

impl World {
    pub fn read(folder: &Path, krate: &str) -> Result<World, String> {
        let mut files = File::read_all(folder, krate)?;
        let own = files.len();
        let firsts = files.iter().flat_map(|file| &file.items.uses).filter_map(|path| path.first().cloned());
        let mut others: BTreeSet<String> = firsts.collect();
        others.remove(krate);
        for other in others {
            let beside = folder.parent().map(|crates| crates.join(&other));
            if let Some(beside) = beside.filter(|beside| beside.join("src").is_dir()) {
                files.extend(File::read_all(&beside, &other)?);
            }
        }
        Ok(World { files, own })
    }

    pub fn own(&self) -> &[File] {
        &self.files[..self.own]
    }

    /// The file that a path to an item leads to.
    fn file_of(&self, from: &File, path: &[String]) -> Option<&File> {
        let (first, rest) = path.split_first()?;
        let at = |krate: &str, module: &[String]| self.files.iter().find(|f| f.krate == krate && f.module == module);
        let inner = &rest[..rest.len().saturating_sub(1)];
        match first.as_str() {
            "crate" => at(&from.krate, inner),
            _ => at(&from.krate, &path[..path.len() - 1]).filter(|_| path.len() > 1).or_else(|| at(first, inner)),
        }
    }

    /// Finds an item by its path: in the file itself, or where a `use` or the path leads.
    fn look<'a, T>(&'a self, from: &'a File, path: &[String], get: impl Fn(&'a File) -> Option<T>) -> Option<T> {
        if path.len() > 1 {
            return get(self.file_of(from, path)?);
        }
        let used = from.items.uses.iter().find(|used| used.last() == path.last());
        get(from).or_else(|| get(self.file_of(from, used?)?))
    }

    /// The function that a path names, and the file that it is in.
    pub fn function<'a>(&'a self, from: &'a File, path: &[String]) -> Option<(&'a File, &'a Function)> {
        let name = path.last()?;
        self.look(from, path, |file| Some((file, file.items.functions.iter().find(|f| f.name == *name)?)))
    }

    /// The fields of a struct.
    pub fn fields(&self, from: &File, name: &str) -> Option<Vec<Typed>> {
        let get = |file: &File| file.items.structs.iter().find(|(n, _)| n == name).map(|(_, fields)| fields.clone());
        self.look(from, &[name.to_string()], get).or_else(|| self.files.iter().find_map(get))
    }

    /// The variants of an enum.
    pub fn variants(&self, from: &File, name: &str) -> Option<Vec<Variant>> {
        let get = |file: &File| file.items.enums.iter().find(|(n, _)| n == name).map(|(_, variants)| variants.clone());
        self.look(from, &[name.to_string()], get).or_else(|| self.files.iter().find_map(get))
    }
}
