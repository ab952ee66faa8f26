//! Wrong programs in the form of rt's must-fail edits: lines `file: `, `old: ` and `new: `. Any other line is a comment.
//!
//! A `file:` line applies to the pairs after it. The old text must occur in its file exactly once.

use std::fs;
use std::path::Path;

#[derive(Debug, PartialEq, Eq)]
pub struct Replacement {
    file: String,
    old: String,
    new: String,
}

/// The replacements of an edit, in order.
pub fn read(text: &str) -> Result<Vec<Replacement>, String> {
    let (mut file, mut old, mut found) = ("", None, Vec::new());
    for line in text.lines() {
        if let Some(name) = line.strip_prefix("file: ") {
            file = name;
        } else if let Some(text) = line.strip_prefix("old: ") {
            old = Some(text);
        } else if let Some(text) = line.strip_prefix("new:") {
            let old = old.take().ok_or("a `new:` line has no `old:` line before it")?;
            if !is_of_crate(file) {
                return Err(format!("`{file}` is no file under src/ or specs/"));
            }
            let new = text.strip_prefix(' ').unwrap_or(text);
            found.push(Replacement { file: file.to_string(), old: old.to_string(), new: new.to_string() });
        }
    }
    if found.is_empty() {
        return Err("it has no pair of `old:` and `new:`".to_string());
    }
    Ok(found)
}

/// Is it a file under src/ or specs/? Proofs are not edited: an edited proof that fails says nothing about what it proves.
fn is_of_crate(file: &str) -> bool {
    (file.starts_with("src/") || file.starts_with("specs/")) && !file.split('/').any(|part| part == "..")
}

/// Makes the replacements in the copy of a crate.
pub fn apply(folder: &Path, edit: &[Replacement]) -> Result<(), String> {
    for one in edit {
        let path = folder.join(&one.file);
        let text = fs::read_to_string(&path).map_err(|e| format!("{}: {e}", one.file))?;
        let text = replaced(&text, one).map_err(|why| format!("{}: {why}", one.file))?;
        fs::write(&path, text).map_err(|e| format!("{}: {e}", one.file))?;
    }
    Ok(())
}

fn replaced(text: &str, one: &Replacement) -> Result<String, String> {
    if one.old.is_empty() {
        return Err("the `old:` text is empty".to_string());
    }
    let Some(at) = text.find(&one.old) else {
        return Err(format!("the `old:` text is not there: {}", one.old));
    };
    let rest = &text[at + one.old.len()..];
    if rest.contains(&one.old) {
        return Err(format!("the `old:` text is there more than once: {}", one.old));
    }
    Ok(format!("{}{}{rest}", &text[..at], one.new))
}

#[cfg(test)]
mod tests {
    use super::*;

    #[test]
    fn pairs_of_several_files_are_read() {
        let edit = read("# why\nfile: src/lib.rt\nold: a < b\nnew: a <= b\nfile: specs/A.antt\nold:  x\nnew:\n")
            .expect("an edit");
        let one =
            |file: &str, old: &str, new: &str| Replacement { file: file.into(), old: old.into(), new: new.into() };
        assert_eq!(edit, [one("src/lib.rt", "a < b", "a <= b"), one("specs/A.antt", " x", "")]);
    }

    #[test]
    fn bad_edits_are_refused() {
        for text in [
            "",
            "file: src/lib.rt\nold: a\n",
            "file: src/lib.rt\nnew: a\n",
            "old: a\nnew: b\n",
            "file: proofs/A.antt\nold: a\nnew: b\n",
            "file: src/../../a\nold: a\nnew: b\n",
        ] {
            assert!(read(text).is_err(), "{text}");
        }
    }

    #[test]
    fn an_old_text_stands_once() {
        let one = |old: &str| Replacement { file: String::new(), old: old.into(), new: "z".into() };
        assert_eq!(replaced("a b c", &one("b")), Ok("a z c".to_string()));
        assert_eq!(replaced("a b\nc", &one("b\nc")), Ok("a z".to_string()));
        for (text, old) in [("a b", ""), ("a b", "c"), ("a b a", "a")] {
            assert!(replaced(text, &one(old)).is_err(), "{text}");
        }
    }
}
