//! The folder of a crate's checked modules. A check of an edited copy of the crate loads from it all modules that the edit does not affect.
//!
//! `rt check` keeps such a folder, with `--incremental`, in the crate's out/. A check of the unedited crate over a copy of it must prove the
//! crate. It also checks what the folder lacks. Where there is no such folder, or it is of no use, that check begins from nothing.

use crate::folder;
use crate::kit::Kit;
use crate::repo::Repo;
use std::fs;
use std::path::{Path, PathBuf};
use std::time::Duration;

/// How many jobs the check of an unedited crate has, which may begin from nothing.
const JOBS: usize = 4;

/// Where a folder comes from.
#[derive(Clone, Copy, PartialEq, Eq, Debug)]
pub enum Source {
    Kept,
    OwnCheck,
}

/// Makes the folder of a crate: from what `rt check` kept, and if that is not possible by a check from nothing.
pub fn make(kit: &Kit, repo: &Repo, name: &str, room: &Path, limit: Duration) -> Result<(PathBuf, Source), String> {
    let plain = room.join("plain").join(name);
    folder::copy_crate(&repo.folder(name), &plain)?;
    let over = room.join("over").join(name);
    if repo.checked(name).is_dir() {
        folder::copy(&repo.checked(name), &over)?;
        if kit.check(repo, name, &plain, Some(&over), JOBS, limit)?.is_proved() {
            return Ok((over, Source::Kept));
        }
        fs::remove_dir_all(&over).map_err(|e| format!("{}: {e}", over.display()))?;
    }
    fs::create_dir_all(&over).map_err(|e| format!("{}: {e}", over.display()))?;
    let checked = kit.check(repo, name, &plain, Some(&over), JOBS, limit)?;
    if !checked.is_proved() {
        return Err(format!("the unedited crate is not proved:\n{}", last_lines(&checked.text, 5)));
    }
    Ok((over, Source::OwnCheck))
}

fn last_lines(text: &str, n: usize) -> String {
    let lines: Vec<&str> = text.lines().collect();
    lines[lines.len().saturating_sub(n)..].join("\n")
}
