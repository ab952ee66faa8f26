//! Copies folders, links them file by file, and makes folders for a run.

use std::fs;
use std::path::{Path, PathBuf};

/// Copies a folder and everything below it.
pub fn copy(from: &Path, to: &Path) -> Result<(), String> {
    each_file(from, to, &|a, b| fs::copy(a, b).map(drop))
}

/// The same with hard links instead of copies. This is safe because a check replaces files and never writes into one.
pub fn link(from: &Path, to: &Path) -> Result<(), String> {
    each_file(from, to, &|a, b| fs::hard_link(a, b))
}

fn each_file(from: &Path, to: &Path, put: &dyn Fn(&Path, &Path) -> std::io::Result<()>) -> Result<(), String> {
    let fails = |path: &Path, e: std::io::Error| format!("{}: {e}", path.display());
    fs::create_dir_all(to).map_err(|e| fails(to, e))?;
    for entry in fs::read_dir(from).map_err(|e| fails(from, e))? {
        let entry = entry.map_err(|e| fails(from, e))?;
        let (source, copied) = (entry.path(), to.join(entry.file_name()));
        let kind = entry.file_type().map_err(|e| fails(&source, e))?;
        if kind.is_dir() {
            each_file(&source, &copied, put)?;
        } else if kind.is_file() {
            put(&source, &copied).map_err(|e| fails(&source, e))?;
        } else {
            return Err(format!("{} is neither a file nor a folder", source.display()));
        }
    }
    Ok(())
}

/// Copies the part of a crate that a check reads.
pub fn copy_crate(from: &Path, to: &Path) -> Result<(), String> {
    for part in ["src", "specs", "proofs"] {
        if from.join(part).is_dir() {
            copy(&from.join(part), &to.join(part))?;
        }
    }
    Ok(())
}

/// Removes the rooms of the same name whose processes were killed. A room's ending is the number of its process.
fn sweep(room: &Path) {
    let (Some(above), Some(name)) = (room.parent(), room.file_stem()) else { return };
    for path in fs::read_dir(above).into_iter().flatten().flatten().map(|entry| entry.path()) {
        let process = path.extension().filter(|end| end.to_string_lossy().chars().all(|c| c.is_ascii_digit()));
        let ended = process.is_some_and(|process| !Path::new("/proc").join(process).exists());
        if path.file_stem() == Some(name) && ended {
            // a check that outlives its run may still write there; then the next run removes it
            let _ = fs::remove_dir_all(&path);
        }
    }
}

/// A folder that is empty when it is made, and is removed when this value is dropped.
pub struct Room(PathBuf);

impl Room {
    pub fn made(path: PathBuf) -> Result<Room, String> {
        sweep(&path);
        let fails = |e: std::io::Error| format!("{}: {e}", path.display());
        if path.exists() {
            fs::remove_dir_all(&path).map_err(fails)?;
        }
        fs::create_dir_all(&path).map_err(fails)?;
        Ok(Room(path))
    }

    pub fn path(&self) -> &Path {
        &self.0
    }
}

impl Drop for Room {
    fn drop(&mut self) {
        // if it cannot be removed now, the next run removes it
        let _ = fs::remove_dir_all(&self.0);
    }
}

#[cfg(test)]
mod tests {
    use super::*;

    #[test]
    fn a_linked_folder_keeps_its_files_where_the_other_replaces_them() {
        let room =
            Room::made(std::env::temp_dir().join(format!("wrong-folder-{}", std::process::id()))).expect("a room");
        let [from, to] = ["from", "to"].map(|name| room.path().join(name));
        fs::create_dir_all(from.join("below")).expect("a folder");
        fs::write(from.join("below/file"), "first").expect("a file");
        link(&from, &to).expect("links");
        fs::remove_file(to.join("below/file")).expect("removed");
        fs::write(to.join("below/file"), "second").expect("a file");
        assert_eq!(fs::read_to_string(from.join("below/file")).expect("a file"), "first");
        let held = room.path().to_path_buf();
        drop(room);
        assert!(!held.exists());
    }

    #[test]
    fn rooms_of_ended_processes_are_removed() {
        let above = std::env::temp_dir().join(format!("wrong-sweep-{}", std::process::id()));
        let [own, lost, other] = ["r.1", "r.999999999", "s.999999999"].map(|name| above.join(name));
        for path in [&own, &lost, &other] {
            fs::create_dir_all(path).expect("a folder");
        }
        sweep(&above.join("r.7"));
        assert_eq!([&own, &lost, &other].map(|path| path.exists()), [true, false, true]);
        fs::remove_dir_all(above).expect("removed");
    }
}
