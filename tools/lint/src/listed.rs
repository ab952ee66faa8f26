//! Reads crates.txt, and finds what is wrong in it with the crates that are only for tests.

use std::fs;
use std::path::Path;

/// A crate's line: `NAME: DEP DEP ..`. Words after its name say how it is built, as in `NAME staticlib: DEP DEP ..`.
struct Listed {
    line: usize,
    name: String,
    needs: Vec<String>,
}

/// A line for each crate of `tests` that is not listed or is not a library, and for each other library that depends on one.
pub fn faults(root: &Path, tests: &[String]) -> Result<Vec<String>, String> {
    if tests.is_empty() {
        return Ok(Vec::new());
    }
    let crates = read(root)?;
    let is_library = |name: &str| root.join("crates").join(name).join("src/lib.rt").exists();
    let mut found = Vec::new();
    for name in tests {
        match crates.iter().find(|listed| listed.name == *name) {
            None => found.push(format!("crates.txt: {name}: is named by `--tests`, and not listed")),
            Some(at) if !is_library(name) => {
                found.push(format!("crates.txt:{}: {name}: is named by `--tests`, and not a library", at.line));
            }
            Some(_) => {}
        }
    }
    for Listed { line, name, needs } in crates.iter().filter(|at| is_library(&at.name) && !tests.contains(&at.name)) {
        for need in needs.iter().filter(|need| tests.contains(need)) {
            found.push(format!("crates.txt:{line}: {name}: depends on `{need}`, which is for tests alone"));
        }
    }
    Ok(found)
}

/// The crates that crates.txt lists. `#` begins a comment.
fn read(root: &Path) -> Result<Vec<Listed>, String> {
    let text = fs::read_to_string(root.join("crates.txt")).map_err(|e| format!("crates.txt: cannot be read: {e}"))?;
    let mut found = Vec::new();
    for (at, text) in text.lines().enumerate() {
        let text = text.split('#').next().unwrap_or_default().trim();
        if text.is_empty() {
            continue;
        }
        let sides = text.split_once(':').and_then(|(head, needs)| Some((head.split_whitespace().next()?, needs)));
        let (name, needs) = sides.ok_or(format!("crates.txt:{}: expected NAME: DEP DEP ..", at + 1))?;
        let needs = needs.split_whitespace().map(String::from).collect();
        found.push(Listed { line: at + 1, name: name.to_string(), needs });
    }
    Ok(found)
}
