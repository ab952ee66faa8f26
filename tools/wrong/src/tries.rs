//! Tries wrong programs, several at a time. A crate's programs are tried as soon as the crate is proved.

use crate::edit;
use crate::folder;
use crate::follow;
use crate::kit::{Checked, Kit};
use crate::mutants::Mutant;
use crate::repo::Repo;
use crate::verdict::{self, Judged, Verdict};
use crate::warm::{self, Source};
use std::collections::HashMap;
use std::fs;
use std::path::{Path, PathBuf};
use std::sync::Mutex;
use std::time::{Duration, Instant};

/// How a program is checked: with the checked modules, from nothing, or both. With both, the verdicts must agree.
#[derive(Clone, Copy, PartialEq, Eq, Debug)]
pub enum Way {
    Warm,
    Full,
    Twice,
}

/// How the programs are tried.
pub struct Plan {
    pub jobs: usize,
    pub way: Way,
    /// Crates are waited for until this file exists.
    pub wait: Option<PathBuf>,
    /// The longest that a check may take.
    pub limit: Duration,
    /// Whether the output of the checks is kept.
    pub keep: bool,
}

#[derive(Clone, Debug)]
pub enum Program {
    Edit(PathBuf),
    Mutant(Mutant),
}

/// A wrong program of a crate.
#[derive(Clone, Debug)]
pub struct Try {
    pub krate: String,
    pub label: String,
    pub program: Program,
}

/// What happened when it was tried: a verdict, or why there is none.
pub struct Outcome {
    pub tried: Try,
    pub judged: Result<Judged, String>,
    pub seconds: f64,
    pub modules: Option<usize>,
}

/// The wrong programs of one crate, and whether they can be tried yet.
struct Batch {
    krate: String,
    state: State,
    left: Vec<Try>,
}

enum State {
    /// Not proved yet, or not looked at yet.
    Waiting,
    /// Its folder of checked modules is being made.
    Warming,
    /// The programs can be tried, with this folder if checked modules are used.
    Ready(Option<PathBuf>),
    /// Its programs cannot be tried.
    Lost(String),
}

/// What a worker does next.
enum Step {
    Warm(String),
    Try(Try, Result<Option<PathBuf>, String>),
    Sleep,
    End,
}

pub struct Runner<'a> {
    kit: &'a Kit,
    repo: &'a Repo,
    plan: &'a Plan,
    room: &'a Path,
    batches: Mutex<Vec<Batch>>,
    /// The names of the unedited crates' proofs, once they are asked for.
    names: Mutex<HashMap<String, String>>,
}

impl<'a> Runner<'a> {
    pub fn new(kit: &'a Kit, repo: &'a Repo, plan: &'a Plan, room: &'a Path, tries: Vec<Try>) -> Runner<'a> {
        let mut batches: Vec<Batch> = Vec::new();
        for one in tries.into_iter().rev() {
            match batches.iter_mut().find(|batch| batch.krate == one.krate) {
                Some(batch) => batch.left.push(one),
                None => batches.push(Batch { krate: one.krate.clone(), state: State::Waiting, left: vec![one] }),
            }
        }
        // the tries were added from the last to the first, because a batch is taken from its end
        batches.reverse();
        Runner { kit, repo, plan, room, batches: Mutex::new(batches), names: Mutex::new(HashMap::new()) }
    }

    /// Tries all programs, and shows each outcome as soon as it is known.
    pub fn run(&self, show: &(dyn Fn(&Outcome) + Sync)) -> Vec<Outcome> {
        let outcomes = Mutex::new(Vec::new());
        std::thread::scope(|scope| {
            for _ in 0..self.plan.jobs {
                scope.spawn(|| self.work(&outcomes, show));
            }
        });
        outcomes.into_inner().unwrap_or_default()
    }

    fn work(&self, outcomes: &Mutex<Vec<Outcome>>, show: &(dyn Fn(&Outcome) + Sync)) {
        loop {
            match self.next() {
                Step::End => return,
                Step::Sleep => std::thread::sleep(Duration::from_millis(200)),
                Step::Warm(krate) => self.warm(&krate),
                Step::Try(one, over) => {
                    let outcome = self.outcome(one, over);
                    let mut all = outcomes.lock().expect("no worker panics");
                    show(&outcome);
                    all.push(outcome);
                }
            }
        }
    }

    /// What to do next: try a program of a crate that is ready, or make a crate ready, or wait, or end.
    fn next(&self) -> Step {
        let mut batches = self.batches.lock().expect("no worker panics");
        for batch in batches.iter_mut() {
            let over = match &batch.state {
                State::Ready(over) => Ok(over.clone()),
                State::Lost(why) => Err(why.clone()),
                _ => continue,
            };
            if let Some(one) = batch.left.pop() {
                return Step::Try(one, over);
            }
        }
        for batch in batches.iter_mut().filter(|batch| matches!(batch.state, State::Waiting)) {
            // the file is looked for before the stamp, because the stamp may be written in between
            let ended = self.plan.wait.as_ref().map_or(true, |file| file.exists());
            if self.may_begin(&batch.krate) {
                batch.state = State::Warming;
                return Step::Warm(batch.krate.clone());
            }
            if ended {
                batch.state = State::Lost(format!(
                    "{} is not proved: no {}",
                    batch.krate,
                    self.repo.stamp(&batch.krate).display()
                ));
                return self.lost(batch);
            }
        }
        let left = batches.iter().any(|batch| !batch.left.is_empty());
        if left {
            Step::Sleep
        } else {
            Step::End
        }
    }

    fn lost(&self, batch: &mut Batch) -> Step {
        match (batch.left.pop(), &batch.state) {
            (Some(one), State::Lost(why)) => Step::Try(one, Err(why.clone())),
            _ => Step::Sleep,
        }
    }

    /// A crate can be tried once it is proved. Without `--wait` it is enough that all crates that it depends on are proved.
    fn may_begin(&self, krate: &str) -> bool {
        let proved = |name: &str| self.repo.stamp(name).exists();
        let below = self.repo.dependencies(krate).iter().filter(|on| self.repo.has(on));
        proved(krate) || (self.plan.wait.is_none() && below.into_iter().all(|on| proved(on)))
    }

    fn warm(&self, krate: &str) {
        let made = match self.plan.way {
            Way::Full => Ok(None),
            _ => warm::make(self.kit, self.repo, krate, self.room, self.plan.limit).map(Some),
        };
        let state = match made {
            Ok(None) => State::Ready(None),
            Ok(Some((over, source))) => {
                if source == Source::OwnCheck {
                    println!("wrong: {krate}: nothing that rt kept can be used, so the crate was checked here");
                }
                State::Ready(Some(over))
            }
            Err(why) => State::Lost(format!("{krate}: {why}")),
        };
        let mut batches = self.batches.lock().expect("no worker panics");
        if let Some(batch) = batches.iter_mut().find(|batch| batch.krate == krate) {
            batch.state = state;
        }
    }

    fn outcome(&self, tried: Try, over: Result<Option<PathBuf>, String>) -> Outcome {
        let began = Instant::now();
        let found = over.and_then(|over| self.judged(&tried, over.as_deref()));
        let seconds = began.elapsed().as_secs_f64();
        match found {
            Ok((judged, checked)) => Outcome { tried, judged: Ok(judged), seconds, modules: checked.modules() },
            Err(why) => Outcome { tried, judged: Err(why), seconds, modules: None },
        }
    }

    fn judged(&self, tried: &Try, over: Option<&Path>) -> Result<(Judged, Checked), String> {
        let (judged, first) = self.checked(tried, over)?;
        if self.plan.way == Way::Twice {
            let (full, _) = self.checked(tried, None)?;
            if full != judged {
                return Err(format!("over the checked modules: {judged}; from nothing: {full}"));
            }
        }
        Ok((judged, first))
    }

    /// Checks a copy of the crate with the program's changes, with links to the checked modules or from nothing.
    fn checked(&self, tried: &Try, over: Option<&Path>) -> Result<(Judged, Checked), String> {
        let folder = self.room.join("tried").join(&tried.krate).join(&tried.label);
        folder::copy_crate(&self.repo.folder(&tried.krate), &folder)?;
        match &tried.program {
            Program::Edit(file) => {
                let text = fs::read_to_string(file).map_err(|e| format!("{}: {e}", file.display()))?;
                edit::apply(&folder, &edit::read(&text)?)?;
            }
            Program::Mutant(mutant) => mutant.apply(&folder)?,
        }
        let links = folder.join("over");
        if let Some(over) = over {
            folder::link(over, &links)?;
        }
        let check =
            || self.kit.check(self.repo, &tried.krate, &folder, over.map(|_| links.as_path()), 1, self.plan.limit);
        let mut checked = check()?;
        let mut judged = verdict::judge(&checked, self.plan.limit);
        if matches!(judged.verdict, Verdict::Mixed | Verdict::Unfit) && self.is_followed(tried, &folder)? {
            checked = check()?;
            judged = verdict::judge(&checked, self.plan.limit);
        }
        if self.plan.keep {
            self.keep(tried, &checked)?;
        }
        fs::remove_dir_all(&folder).map_err(|e| format!("{}: {e}", folder.display()))?;
        Ok((judged, checked))
    }

    /// Has the names in the copy's proofs follow its code. Returns whether a name was changed.
    fn is_followed(&self, tried: &Try, copy: &Path) -> Result<bool, String> {
        // where rattle lists no names, the verdict stays as it is
        let Ok(now) = self.kit.names(self.repo, &tried.krate, copy, self.plan.limit) else { return Ok(false) };
        follow::apply(copy, &follow::renamed(&self.names(&tried.krate)?, &now))
    }

    /// The names of the unedited crate's proofs.
    fn names(&self, krate: &str) -> Result<String, String> {
        let mut names = self.names.lock().expect("no worker panics");
        if let Some(found) = names.get(krate) {
            return Ok(found.clone());
        }
        let plain = self.room.join("named").join(krate);
        folder::copy_crate(&self.repo.folder(krate), &plain)?;
        let found = self.kit.names(self.repo, krate, &plain, self.plan.limit)?;
        names.insert(krate.to_string(), found.clone());
        Ok(found)
    }

    fn keep(&self, tried: &Try, checked: &Checked) -> Result<(), String> {
        let logs = self.repo.logs().join(&tried.krate);
        fs::create_dir_all(&logs).map_err(|e| format!("{}: {e}", logs.display()))?;
        let log = logs.join(format!("{}.log", tried.label));
        fs::write(&log, &checked.text).map_err(|e| format!("{}: {e}", log.display()))
    }
}
