//! Names that follow the code. rattle names a goal or a step after the condition, the call or the variable that it belongs to: after
//! `if 57 < b` there is a step `if-b-gt57`. An edit that turns 57 into 58 changes this name, and the proof cites one that is gone. So that the
//! edit is refused for what it says, the names in the copy's proofs are changed as the code's are, and the copy is checked again.

use std::fs;
use std::path::Path;

/// The new names of one function's proof.
#[derive(Debug, PartialEq, Eq)]
pub struct Renamed {
    /// The folder of the proof below proofs/.
    folder: String,
    names: Vec<(String, String)>,
}

/// What is called otherwise in the second of two lists that rattle wrote. Each list has a part for each function. If both parts have as many
/// strings, the code has the same shape, and each string stands for the same thing.
pub fn renamed(was: &str, now: &str) -> Vec<Renamed> {
    let (was, now) = (parts(was), parts(now));
    let mut found = Vec::new();
    for (folder, old) in &was {
        let Some((_, new)) = now.iter().find(|(name, _)| name == folder) else { continue };
        if old.len() != new.len() {
            continue;
        }
        let mut names: Vec<(String, String)> = Vec::new();
        let mut clear = true;
        for (a, b) in old.iter().zip(new) {
            match names.iter().find(|(name, _)| name == a) {
                Some((_, to)) => clear &= to == b,
                None => names.push((a.clone(), b.clone())),
            }
        }
        names.retain(|(a, b)| a != b);
        if clear && !names.is_empty() {
            found.push(Renamed { folder: folder.clone(), names });
        }
    }
    found
}

/// The strings of each function's part. A part begins with the name of a module, as `Rattle-a-proofs.inner.f.Lts`.
fn parts(list: &str) -> Vec<(String, Vec<String>)> {
    let mut found: Vec<(String, Vec<String>)> = Vec::new();
    let mut open = false;
    for string in strings(list) {
        let function = string.split_once("-proofs.").and_then(|(head, rest)| {
            let rest = rest.strip_suffix(".Lts")?;
            head.starts_with("Rattle-").then(|| rest.replace('.', "/"))
        });
        match (function, found.last_mut()) {
            (Some(folder), _) => {
                found.push((folder, Vec::new()));
                open = true;
            }
            // what follows the functions' parts is of the whole crate
            (None, _) if string.starts_with("off:") || string.starts_with("over:") => open = false,
            (None, Some((_, strings))) if open => strings.push(string),
            _ => {}
        }
    }
    found
}

/// The strings of a JSON text, in order. Names hold no escapes.
fn strings(text: &str) -> Vec<String> {
    text.split('"').skip(1).step_by(2).map(String::from).collect()
}

/// Changes the names in the proofs of the copy of a crate. Returns whether a proof cites one.
pub fn apply(copy: &Path, renamed: &[Renamed]) -> Result<bool, String> {
    let mut cited = false;
    for one in renamed {
        let folder = copy.join("proofs").join(&one.folder);
        if !folder.is_dir() {
            continue;
        }
        let fails = |e: std::io::Error| format!("{}: {e}", folder.display());
        for entry in fs::read_dir(&folder).map_err(fails)? {
            let path = entry.map_err(fails)?.path();
            if path.extension().is_some_and(|extension| extension == "antt") {
                let text = fs::read_to_string(&path).map_err(fails)?;
                let new = turned(&text, &one.names);
                if new != text {
                    fs::write(&path, new).map_err(fails)?;
                    cited = true;
                }
            }
        }
    }
    Ok(cited)
}

/// The text with its names changed, all at once.
fn turned(text: &str, names: &[(String, String)]) -> String {
    let mut turned = String::with_capacity(text.len());
    let mut word = String::new();
    for c in text.chars().chain(std::iter::once(' ')) {
        if c.is_whitespace() || "(){}.,;:\"=".contains(c) {
            turned.push_str(names.iter().find(|(name, _)| *name == word).map_or(&word, |(_, to)| to));
            word.clear();
            turned.push(c);
        } else {
            word.push(c);
        }
    }
    turned.pop();
    turned
}

#[cfg(test)]
mod tests {
    use super::*;

    const WAS: &str = r#"{"Rattle-a-proofs.f.Lts": {"needs": [["returns", "returns-then-b-gt57"]], "places": [["if1", "if-b-gt57"]]},
        "Rattle-a-proofs.inner.g.Lts": {"needs": [["returns", "returns"]]}, "off:a": {"a::f": [["returns-then-b-gt57", 1]]}}"#;

    #[test]
    fn names_follow_the_code() {
        let now = WAS.replace("57", "58");
        let pair = |a: &str, b: &str| (a.to_string(), b.to_string());
        let names = vec![pair("returns-then-b-gt57", "returns-then-b-gt58"), pair("if-b-gt57", "if-b-gt58")];
        let wanted = Renamed { folder: "f".to_string(), names };
        assert_eq!(renamed(WAS, &now), [wanted]);
        assert!(renamed(WAS, WAS).is_empty());
        assert!(renamed(WAS, &now.replace("[[\"if1\"", "[[\"one more\", \"if1\"")).is_empty());
    }

    #[test]
    fn names_are_whole_words() {
        let pair = |a: &str, b: &str| (a.to_string(), b.to_string());
        let names = [pair("x", "y"), pair("y", "x")];
        assert_eq!(turned("x y x-y (c.x.true) x", &names), "y x x-y (c.y.true) y");
    }
}
