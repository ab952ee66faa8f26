//! Finds the public functions of a repository's Rattle libraries whose contract falls short.
//!
//! `lint ROOT` reads each library crate of ROOT/crates. A function that another crate can reach must ask nothing of its
//! caller (no `requires`). It must say what it does and returns (an `ensures`). It must also say what all memory that it is
//! lent by `&mut` contains at the end (`out.new` in an `ensures`).
//!
//! No second outcome may meet what it promises. For an equation this is clear: `result ≡ ..`, or `out.new ≡ ..`. Any other
//! promise must be one predicate, `P result ..`, and specs/Unique.antt of the crate must say that it has one outcome: in
//! `pub record OneOutcome`, a field with the function's name that says `Once` of `P`. Each field must belong to such a
//! function, and a file of the crate's proofs must prove the record (a line `pub NAME : OneOutcome`).
//!
//! The functions of a public trait are public. An `impl` of a trait of this repository has their contracts; in one of any other
//! trait, as `From`, a ghost member must say what the functions do, by an equation `λ a r. r ≡ ..`.
//!
//! Each fault is printed as a line, and the last line has the counts. `--list` prints each public function first. Exit
//! status: 0 if there are public functions and no fault, 1 otherwise, and 2 if it could not be run.
//!
//! `--tests NAME,..` names libraries that are only for tests. No contract can say what they print or read, so their
//! functions need no `ensures`. No other library may depend on them. ROOT/crates.txt says which crate depends on which.

mod contract;
mod lex;
mod listed;
mod parse;
mod reach;
mod unique;

use contract::Promise;
use parse::{Crate, Function, Kind};
use std::path::{Path, PathBuf};
use std::process::ExitCode;
use unique::Unique;

fn main() -> ExitCode {
    let words = std::env::args_os().skip(1).map(|word| word.to_string_lossy().into_owned());
    let Some(Asked { root, list, tests }) = asked(words) else {
        return refuse("usage: lint ROOT [--list] [--tests NAME,..]");
    };
    let listed = listed::faults(&root, &tests);
    match listed.and_then(|listed| Ok((read(&root, &tests)?, listed))) {
        Ok((read, listed)) => report(&read, &listed, list),
        Err(what) => refuse(&what),
    }
}

/// What the command line asks for.
struct Asked {
    root: PathBuf,
    list: bool,
    /// The libraries that are only for tests.
    tests: Vec<String>,
}

/// Reads the command line, if it is in order.
fn asked(mut words: impl Iterator<Item = String>) -> Option<Asked> {
    let (mut roots, mut list, mut tests) = (Vec::new(), false, Vec::new());
    while let Some(word) = words.next() {
        match word.as_str() {
            "--list" => list = true,
            "--tests" => tests.extend(words.next()?.split(',').map(String::from)),
            flag if flag.starts_with('-') => return None,
            _ => roots.push(word),
        }
    }
    let [root] = roots.as_slice() else { return None };
    Some(Asked { root: PathBuf::from(root), list, tests })
}

/// Prints why the lint could not be run.
fn refuse(what: &str) -> ExitCode {
    eprintln!("lint: {what}");
    ExitCode::from(2)
}

/// A function that another crate can reach.
#[derive(PartialEq, Eq, PartialOrd, Ord)]
struct Public {
    file: PathBuf,
    line: usize,
    name: String,
    faults: Vec<String>,
}

/// What was found in all library crates.
#[derive(Default)]
struct Read {
    /// Sorted by file and line.
    functions: Vec<Public>,
    /// The faults of the files specs/Unique.antt.
    unique: Vec<String>,
}

/// Prints what was found in the functions, in the statements about them, and in crates.txt.
fn report(read: &Read, listed: &[String], list: bool) -> ExitCode {
    let place = |f: &Public| format!("{}:{}: {}", f.file.display(), f.line, f.name);
    for function in read.functions.iter().filter(|_| list) {
        println!("{}", place(function));
    }
    for function in &read.functions {
        function.faults.iter().for_each(|fault| println!("{}: {fault}", place(function)));
    }
    read.unique.iter().chain(listed).for_each(|fault| println!("{fault}"));
    let short = read.functions.iter().filter(|f| !f.faults.is_empty()).count();
    print!("lint: {} public functions, {short} fall short", read.functions.len());
    for (file, faults) in [("specs/Unique.antt", read.unique.as_slice()), ("crates.txt", listed)] {
        if !faults.is_empty() {
            print!("; faults in {file}: {}", faults.len());
        }
    }
    println!();
    let others = !read.unique.is_empty() || !listed.is_empty();
    ExitCode::from(u8::from(short > 0 || read.functions.is_empty() || others))
}

/// Reads all library crates. Those of `tests` are only for tests.
fn read(root: &Path, tests: &[String]) -> Result<Read, String> {
    let mut found = Read::default();
    let mut crates = Vec::new();
    for folder in libraries(root)? {
        let mut krate = Crate::default();
        krate.read(root, &folder.join("src/lib.rt"), &folder.join("src"), None)?;
        crates.push((folder, krate));
    }
    let own: Vec<String> = crates.iter().flat_map(|(_, krate)| krate.traits().map(String::from)).collect();
    for (folder, krate) in crates {
        let for_tests = tests.iter().any(|name| folder == Path::new("crates").join(name));
        let mut unique = if for_tests { None } else { Some(Unique::read(root, &folder)?) };
        for (item, reached) in krate.items.iter().zip(reach::reached(&krate)) {
            if let (Kind::Function(function), true) = (&item.kind, reached) {
                let file = krate.modules[item.module].file.clone();
                let mut faults = contract::faults(function, for_tests, &own);
                faults.extend(unique.as_mut().and_then(|unique| second_outcome(unique, &item.name, function)));
                found.functions.push(Public { file, line: item.line, name: item.name.clone(), faults });
            }
        }
        found.unique.extend(unique.map(Unique::faults).unwrap_or_default());
    }
    found.functions.sort();
    found.unique.sort();
    Ok(found)
}

/// The fault that leaves room for a second outcome of the function, if there is one.
fn second_outcome(unique: &mut Unique, name: &str, function: &Function) -> Option<String> {
    match contract::promise(function)? {
        Promise::Equation => None,
        Promise::Predicate(predicate) => unique.asked(name, &predicate),
        Promise::Neither => Some("its promise is neither an equation nor one predicate".to_string()),
    }
}

/// The folder, as seen from `root`, of each crate that has a `src/lib.rt`.
fn libraries(root: &Path) -> Result<Vec<PathBuf>, String> {
    let unreadable = |e| format!("{}: cannot be read: {e}", root.join("crates").display());
    let mut found = Vec::new();
    for entry in root.join("crates").read_dir().map_err(unreadable)? {
        let folder = Path::new("crates").join(entry.map_err(unreadable)?.file_name());
        if root.join(&folder).join("src/lib.rt").exists() {
            found.push(folder);
        }
    }
    Ok(found)
}
