//! Reads a crate's statements that no second outcome meets a promise, and finds out whether they are proved.

use crate::lex;
use std::fs;
use std::path::{Path, PathBuf};

/// The record of the statements in specs/Unique.antt. Each field begins on a line of its own, `pub NAME : ..`, indented by
/// two blanks. Its further lines are indented more.
const RECORD: &str = "OneOutcome";

/// What a statement says of a predicate.
const ONCE: &str = "Once";

/// The statements of one crate.
pub struct Unique {
    /// The file, as a path from the repository's root.
    file: PathBuf,
    fields: Vec<Field>,
    /// Is there a proof? Also true if there is no file, because there is then nothing to prove.
    proved: bool,
}

struct Field {
    line: usize,
    /// Its name; the whole line if the line does not begin a field.
    name: String,
    words: Vec<String>,
    /// Has a function asked for it?
    asked: bool,
}

impl Unique {
    /// Reads the statements of the crate at `root/folder`. Without a file there are none.
    pub fn read(root: &Path, folder: &Path) -> Result<Unique, String> {
        let file = folder.join("specs/Unique.antt");
        if !root.join(&file).exists() {
            return Ok(Unique { file, fields: Vec::new(), proved: true });
        }
        let fields = fields(&antt(root, &file)?);
        let proved = is_proved(root, &folder.join("proofs"))?;
        Ok(Unique { file, fields, proved })
    }

    /// What the statement about a function lacks, if the function promises this predicate. Two functions of the same name, in
    /// two modules or of two types, share a statement, which must say `Once` of the predicates of both.
    pub fn asked(&mut self, function: &str, predicate: &str) -> Option<String> {
        let name = function.rsplit("::").next().unwrap_or_default();
        let Some(field) = self.fields.iter_mut().find(|field| field.name == name) else {
            return Some(format!(
                "no statement that no second outcome meets its promise ({name} in specs/Unique.antt)"
            ));
        };
        field.asked = true;
        let says = |wanted: &str| field.words.iter().any(|word| word == wanted);
        let said = says(ONCE) && says(predicate);
        (!said).then(|| format!("its statement {name} does not say {ONCE} of {predicate}"))
    }

    /// A line for each statement that no function asked for, and one more if the statements are not proved.
    pub fn faults(self) -> Vec<String> {
        let file = self.file.display();
        let stale = self.fields.iter().filter(|field| !field.asked);
        let line = |field: &Field| {
            format!("{file}:{}: {}: no public function of this name promises a predicate", field.line, field.name)
        };
        let mut found: Vec<String> = stale.map(line).collect();
        if !self.proved {
            found.push(format!("{file}: no file of proofs has a line `pub NAME : {RECORD}`"));
        }
        found
    }
}

/// The text of an antt file, without comments and quoted texts.
fn antt(root: &Path, file: &Path) -> Result<String, String> {
    let shown = file.display();
    let text = fs::read_to_string(root.join(file)).map_err(|e| format!("{shown}: cannot be read: {e}"))?;
    lex::uncommented(&text).map_err(|(line, what)| format!("{shown}:{line}: {what}"))
}

/// The fields of the record.
fn fields(text: &str) -> Vec<Field> {
    let mut found: Vec<Field> = Vec::new();
    let lines = text.lines().enumerate().map(|(i, line)| (i + 1, line)).filter(|(_, line)| !line.trim().is_empty());
    let inside = |line: &str| line.starts_with(' ');
    let head = |line: &str| words(line).take(3).eq(["pub", "record", RECORD]);
    for (line, text) in lines.skip_while(|(_, line)| !head(line)).skip(1).take_while(|(_, line)| inside(line)) {
        if !text.starts_with("   ") {
            let name = match text.split_whitespace().collect::<Vec<_>>().as_slice() {
                // a name that is also a keyword is written between these marks
                ["pub", name, ":", ..] => name.trim_matches(['«', '»']).to_string(),
                _ => text.trim().to_string(),
            };
            found.push(Field { line, name, words: Vec::new(), asked: false });
        }
        if let Some(field) = found.last_mut() {
            field.words.extend(words(text).map(String::from));
        }
    }
    found
}

/// The names in a text.
fn words(text: &str) -> impl Iterator<Item = &str> {
    text.split(|c| !lex::in_name(c)).filter(|word| !word.is_empty())
}

/// Does a file in the folder `root/folder`, or in a folder below it, have a line `pub NAME : OneOutcome`? The line must not
/// be indented, so that it is not in a module with assumptions.
fn is_proved(root: &Path, folder: &Path) -> Result<bool, String> {
    let unreadable = |e| format!("{}: cannot be read: {e}", folder.display());
    if !root.join(folder).exists() {
        return Ok(false);
    }
    for entry in root.join(folder).read_dir().map_err(unreadable)? {
        let path = folder.join(entry.map_err(unreadable)?.file_name());
        let found = if root.join(&path).is_dir() {
            is_proved(root, &path)?
        } else {
            path.extension().is_some_and(|e| e == "antt") && antt(root, &path)?.lines().any(proves)
        };
        if found {
            return Ok(true);
        }
    }
    Ok(false)
}

/// Is it such a line?
fn proves(line: &str) -> bool {
    let words: Vec<&str> = line.split_whitespace().collect();
    line.starts_with("pub") && matches!(words.as_slice(), ["pub", _, ":", RECORD])
}
