//! The Rattle kit on the PATH, and a check of one crate with the arguments that `rt` uses.

use crate::repo::Repo;
use std::fs::{self, File};
use std::path::{Path, PathBuf};
use std::process::{Command, ExitStatus, Stdio};
use std::time::{Duration, Instant};

/// Where the kit is.
pub struct Kit {
    home: PathBuf,
}

/// What a check ended with, and all that it printed.
pub struct Checked {
    /// None if it was killed, or stopped at the time limit.
    pub status: Option<i32>,
    pub text: String,
}

impl Checked {
    /// How many of the crate's modules were checked rather than loaded.
    pub fn modules(&self) -> Option<usize> {
        let line = self.text.lines().find(|line| line.starts_with("crate "))?;
        let count = line.split("checked=").nth(1)?;
        count.split(|c: char| !c.is_ascii_digit()).next()?.parse().ok()
    }

    pub fn is_proved(&self) -> bool {
        self.status == Some(0) && self.text.lines().any(|line| line.starts_with("logic=proved"))
    }
}

impl Kit {
    /// The kit at RATTLE_HOME if that is set, otherwise the one to which the `rt` on the PATH belongs.
    pub fn found() -> Result<Kit, String> {
        let home = match std::env::var_os("RATTLE_HOME") {
            Some(home) => PathBuf::from(home),
            None => home_of_rt()?,
        };
        if !home.join("bin/rattle").exists() {
            return Err(format!("the kit at {} has no rattle", home.display()));
        }
        Ok(Kit { home })
    }

    /// Checks the copy in `folder` of the crate `name` of `repo`, with the incremental folder `over` if there is one, and so many jobs.
    pub fn check(
        &self,
        repo: &Repo,
        name: &str,
        folder: &Path,
        over: Option<&Path>,
        jobs: usize,
        limit: Duration,
    ) -> Result<Checked, String> {
        let mut words = vec!["--jobs".to_string(), jobs.to_string()];
        if let Some(over) = over {
            words.extend(["--incremental".to_string(), over.display().to_string()]);
        }
        self.ran(repo, name, folder, &words, limit)
    }

    /// The names of the goals and steps of each function's proof of the copy in `folder`, as rattle lists them. It checks no proof.
    pub fn names(&self, repo: &Repo, name: &str, folder: &Path, limit: Duration) -> Result<String, String> {
        let to = folder.join("names");
        let words = ["--generated".to_string(), to.display().to_string(), "--old-names".to_string()];
        let said = self.ran(repo, name, folder, &words, limit)?;
        let list = to.join("names.json");
        fs::read_to_string(&list)
            .map_err(|_| format!("rattle lists no names: {}", said.text.lines().last().unwrap_or("")))
    }

    /// Runs rattle on the copy in `folder` of the crate `name`, with these words after those that each run has.
    fn ran(
        &self,
        repo: &Repo,
        name: &str,
        folder: &Path,
        words: &[String],
        limit: Duration,
    ) -> Result<Checked, String> {
        let log = folder.join("log");
        let mut command = Command::new(self.home.join("bin/rattle"));
        command.current_dir(folder).arg("check").args(self.words(repo, name, folder)).args(words);
        let out = File::create(&log).map_err(|e| format!("{}: {e}", log.display()))?;
        let err = out.try_clone().map_err(|e| format!("{}: {e}", log.display()))?;
        command.stdin(Stdio::null()).stdout(out).stderr(err);
        let status = ended(command, limit).map_err(|e| format!("rattle: {e}"))?;
        let text = fs::read(&log).map_err(|e| format!("{}: {e}", log.display()))?;
        let text = String::from_utf8_lossy(&text).into_owned();
        Ok(Checked { status: status.and_then(|s| s.code()), text })
    }

    fn words(&self, repo: &Repo, name: &str, folder: &Path) -> Vec<String> {
        let root = if folder.join("src/main.rt").exists() { "src/main.rt" } else { "src/lib.rt" };
        let own = self.home.join("rlibs");
        let mut words: Vec<String> = ["--crate-name", name, root].map(String::from).to_vec();
        let mut add = |word: &str, value: String| words.extend([word.to_string(), value]);
        add("--extern", format!("std={}/std.rlib", own.display()));
        for dependency in repo.dependencies(name) {
            let rlibs = if repo.has(dependency) { repo.rlibs(dependency) } else { own.clone() };
            add("--extern", format!("{dependency}={}/{dependency}.rlib", rlibs.display()));
        }
        add("-L", format!("dependency={}", own.display()));
        for below in repo.below(name) {
            add("-L", format!("dependency={}", repo.rlibs(below).display()));
        }
        add("--antt-project", self.home.join("rattle/logic/antt-project.json").display().to_string());
        add("--logic-built", self.home.join("logic_built").display().to_string());
        add("--links", format!("{name}="));
        words
    }
}

fn home_of_rt() -> Result<PathBuf, String> {
    let path = std::env::var("PATH").unwrap_or_default();
    let rt = path.split(':').map(|folder| Path::new(folder).join("rt")).find(|rt| rt.is_file());
    let rt = rt.ok_or("rt is not on the PATH")?;
    let rt = fs::canonicalize(&rt).map_err(|e| format!("{}: {e}", rt.display()))?;
    rt.parent().and_then(Path::parent).map(Path::to_path_buf).ok_or(format!("{} is not in a kit", rt.display()))
}

/// Runs a command to its end. At the time limit it is killed, and the answer is None.
fn ended(mut command: Command, limit: Duration) -> std::io::Result<Option<ExitStatus>> {
    let mut child = command.spawn()?;
    let began = Instant::now();
    loop {
        if let Some(status) = child.try_wait()? {
            return Ok(Some(status));
        }
        if began.elapsed() > limit {
            child.kill()?;
            child.wait()?;
            return Ok(None);
        }
        std::thread::sleep(Duration::from_millis(20));
    }
}

#[cfg(test)]
mod tests {
    use super::*;

    fn checked(status: i32, text: &str) -> Checked {
        Checked { status: Some(status), text: text.to_string() }
    }

    #[test]
    fn modules_are_counted() {
        assert_eq!(checked(0, "crate a: modules loaded=12 checked=34\nlogic=proved\n").modules(), Some(34));
        assert_eq!(checked(0, "library a: modules loaded=12 checked=34\n").modules(), None);
        assert_eq!(checked(0, "crate a: nothing\n").modules(), None);
    }

    #[test]
    fn proved_wants_status_and_line() {
        assert!(checked(0, "crate a\nlogic=proved pinned=yes\n").is_proved());
        assert!(!checked(0, "holes=1\n").is_proved());
        assert!(!checked(1, "logic=proved\n").is_proved());
    }

    #[test]
    fn a_command_ends_by_itself_or_at_the_limit() {
        let quick = ended(Command::new("true"), Duration::from_secs(20)).expect("it runs");
        assert!(quick.is_some_and(|status| status.success()));
        let mut slow = Command::new("sleep");
        slow.arg("60");
        assert!(ended(slow, Duration::from_millis(50)).expect("it runs").is_none());
    }
}
