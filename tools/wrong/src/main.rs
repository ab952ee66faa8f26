//! Tries wrong programs. Each changes a crate's code or definitions, and the prover must refuse it at a fact.
//!
//! `wrong ROOT` tries ROOT/crates/NAME/wrong/*.edit, in the form of rt's must-fail edits. Each is checked with a copy of the crate's
//! checked modules, so that only what it changes is checked again. The crates that it depends on must be proved first (`rt check`). Where a proof
//! cites a name that the edit changes, as a step named after a condition, the names follow the code and the copy is checked again.
//!
//!     --crates A,B     only these crates
//!     --only A,B       only these edits
//!     --folder NAME    takes the edits from this folder; default wrong
//!     --jobs N         tries N at a time; default 2
//!     --wait FILE      waits for each crate until rt has proved it, or until FILE exists
//!     --full           checks from nothing, as rt does
//!     --twice          checks both ways, and fails if the verdicts differ
//!     --limit S        stops a check after S seconds; default 900
//!     --keep           keeps the output of each check in target/wrong-logs
//!
//! `wrong ROOT --mutants N [--seed S] [--specs | --both]` makes N wrong programs by itself and counts their verdicts. They change the
//! crates' code, with --specs the definitions, or with --both code and definition together. `--list` only prints the programs.
//!
//! Exit status: 0 if each edit was refused at a fact, or if no mutant is still proved; 1 otherwise; 2 if it could not be run.

mod edit;
mod folder;
mod follow;
mod kit;
mod mutants;
mod repo;
mod report;
mod tries;
mod verdict;
mod warm;
mod words;

use folder::Room;
use kit::Kit;
use repo::Repo;
use std::path::{Path, PathBuf};
use std::process::ExitCode;
use std::time::Instant;
use tries::{Program, Runner, Try};
use words::{Made, Words};

fn main() -> ExitCode {
    match words::read(std::env::args().skip(1)).and_then(|words| run(&words)) {
        Ok(good) => ExitCode::from(u8::from(!good)),
        Err(why) => {
            eprintln!("wrong: {why}");
            ExitCode::from(2)
        }
    }
}

/// Does what the command line asks for. Returns whether each outcome is as it should be.
fn run(words: &Words) -> Result<bool, String> {
    let repo = Repo::read(&words.root)?;
    let names = chosen(&repo, &words.crates)?;
    let tries = match &words.made {
        None => edits(&repo, &names, words)?,
        Some(made) => mutants(&repo, &names, made)?,
    };
    if tries.is_empty() {
        return Err("there is nothing to try".to_string());
    }
    if words.list {
        tries.iter().for_each(report::list);
        return Ok(true);
    }
    let kit = Kit::found()?;
    let room = Room::made(repo.room())?;
    let began = Instant::now();
    let runner = Runner::new(&kit, &repo, &words.plan, room.path(), tries);
    let outcomes = runner.run(&report::show);
    let seconds = began.elapsed().as_secs_f64();
    Ok(match words.made {
        None => report::edits(&outcomes, seconds),
        Some(_) => report::mutants(&outcomes, seconds),
    })
}

/// The named crates, or all of them if none is named. Each comes after those that it depends on.
fn chosen<'a>(repo: &'a Repo, named: &[String]) -> Result<Vec<&'a str>, String> {
    if let Some(unknown) = named.iter().find(|name| !repo.has(name)) {
        return Err(format!("crates.txt lists no {unknown}"));
    }
    let all = repo.in_order();
    Ok(all.into_iter().filter(|name| named.is_empty() || named.iter().any(|one| one == name)).collect())
}

/// The edits of these crates, by name.
fn edits(repo: &Repo, names: &[&str], words: &Words) -> Result<Vec<Try>, String> {
    let mut found = Vec::new();
    for name in names {
        for file in edit_files(&repo.folder(name).join(&words.folder))? {
            let label = file.file_stem().unwrap_or_default().to_string_lossy().into_owned();
            if words.only.is_empty() || words.only.contains(&label) {
                found.push(Try { krate: name.to_string(), label, program: Program::Edit(file) });
            }
        }
    }
    if let Some(none) = words.only.iter().find(|only| found.iter().all(|one: &Try| one.label != **only)) {
        return Err(format!("there is no edit {none}"));
    }
    Ok(found)
}

/// The edits in a folder; none if there is no such folder.
fn edit_files(folder: &Path) -> Result<Vec<PathBuf>, String> {
    if !folder.exists() {
        return Ok(Vec::new());
    }
    let fails = |e: std::io::Error| format!("{}: {e}", folder.display());
    let mut files = Vec::new();
    for entry in folder.read_dir().map_err(fails)? {
        let path = entry.map_err(fails)?.path();
        if path.extension().is_some_and(|extension| extension == "edit") {
            files.push(path);
        }
    }
    files.sort();
    Ok(files)
}

/// As many mutants as are asked for, shared out among the crates. A crate without definitions is left out: it promises nothing.
fn mutants(repo: &Repo, names: &[&str], made: &Made) -> Result<Vec<Try>, String> {
    let mut pools = Vec::new();
    for name in names.iter().filter(|name| repo.folder(name).join("specs").is_dir()) {
        pools.push((name.to_string(), mutants::all(&repo.folder(name), name, made.at)?));
    }
    let sizes: Vec<usize> = pools.iter().map(|(_, pool)| pool.len()).collect();
    let mut found = Vec::new();
    for ((krate, pool), n) in pools.into_iter().zip(mutants::shares(&sizes, made.n)) {
        for mutant in mutants::sample(pool, n, made.seed) {
            found.push(Try { krate: krate.clone(), label: mutant.name(), program: Program::Mutant(mutant) });
        }
    }
    Ok(found)
}
