//! The crates of a repository, as crates.txt lists them.

use std::fs;
use std::path::{Path, PathBuf};

pub struct Repo {
    root: PathBuf,
    crates: Vec<(String, Vec<String>)>,
}

impl Repo {
    pub fn read(root: &Path) -> Result<Repo, String> {
        let root = fs::canonicalize(root).map_err(|e| format!("{}: {e}", root.display()))?;
        let list = root.join("crates.txt");
        let text = fs::read_to_string(&list).map_err(|e| format!("{}: {e}", list.display()))?;
        Ok(Repo { root, crates: listed(&text)? })
    }

    pub fn has(&self, name: &str) -> bool {
        self.crates.iter().any(|(listed, _)| listed == name)
    }

    /// What a crate depends on, including libraries of the kit.
    pub fn dependencies(&self, name: &str) -> &[String] {
        self.crates.iter().find(|(listed, _)| listed == name).map_or(&[], |(_, on)| on)
    }

    /// All crates, each after those that it depends on.
    pub fn in_order(&self) -> Vec<&str> {
        let mut names: Vec<&str> = self.crates.iter().map(|(name, _)| name.as_str()).collect();
        names.sort_by_key(|name| self.level(name, self.crates.len()));
        names
    }

    /// The length of the longest chain of dependencies below this crate. `most` ends the search if the chain is a circle.
    fn level(&self, name: &str, most: usize) -> usize {
        if most == 0 {
            return 0;
        }
        let below = self.dependencies(name).iter().filter(|on| self.has(on));
        below.map(|on| self.level(on, most - 1) + 1).max().unwrap_or(0)
    }

    pub fn folder(&self, name: &str) -> PathBuf {
        self.root.join("crates").join(name)
    }

    /// The crates of the repository below a crate, each once.
    pub fn below(&self, name: &str) -> Vec<&str> {
        let mut found: Vec<&str> = Vec::new();
        let mut left: Vec<&String> = self.dependencies(name).iter().collect();
        while let Some(on) = left.pop() {
            if self.has(on) && !found.contains(&on.as_str()) {
                found.push(on);
                left.extend(self.dependencies(on));
            }
        }
        found.sort();
        found
    }

    /// Where rt writes a crate's proved library.
    pub fn rlibs(&self, name: &str) -> PathBuf {
        self.folder(name).join("out/rlib")
    }

    /// The checked modules of a crate, as `rt check` keeps them.
    pub fn checked(&self, name: &str) -> PathBuf {
        self.folder(name).join("out/incremental")
    }

    /// The file that rt writes once a crate's library is proved and built.
    pub fn stamp(&self, name: &str) -> PathBuf {
        self.rlibs(name).join("stamp")
    }

    /// Where the output of the checks is kept.
    pub fn logs(&self) -> PathBuf {
        self.root.join("target/wrong-logs")
    }

    /// Where wrong programs are tried: outside the repository, since rt ci refuses sources in other places than the crates.
    pub fn room(&self) -> PathBuf {
        let name = format!("wrong{}", self.root.display().to_string().replace('/', "-"));
        std::env::temp_dir().join(format!("{name}.{}", std::process::id()))
    }
}

/// The lines `NAME: DEP DEP ..`; '#' starts a comment.
fn listed(text: &str) -> Result<Vec<(String, Vec<String>)>, String> {
    let mut crates = Vec::new();
    for line in text.lines() {
        let line = line.split('#').next().unwrap_or("").trim();
        if line.is_empty() {
            continue;
        }
        let (name, on) = line.split_once(':').ok_or(format!("crates.txt: no colon in `{line}`"))?;
        // words may stand after the name, as `staticlib`
        let name = name.split_whitespace().next().unwrap_or("").to_string();
        crates.push((name, on.split_whitespace().map(String::from).collect()));
    }
    Ok(crates)
}

#[cfg(test)]
mod tests {
    use super::*;

    fn repo(text: &str) -> Repo {
        Repo { root: PathBuf::new(), crates: listed(text).expect("a list") }
    }

    #[test]
    fn crates_come_after_what_they_stand_on() {
        let repo = repo("# all\nc staticlib: b io\nb: a # on a\n\na:\nd: a\n");
        assert_eq!(repo.in_order(), ["a", "b", "d", "c"]);
        assert_eq!(repo.dependencies("c"), ["b", "io"]);
        assert_eq!(repo.below("c"), ["a", "b"]);
        assert!(repo.has("d") && !repo.has("io"));
    }

    #[test]
    fn a_circle_ends() {
        assert_eq!(repo("a: b\nb: a\n").in_order().len(), 2);
    }

    #[test]
    fn a_line_without_colon_is_refused() {
        assert!(listed("a\n").is_err());
    }
}
