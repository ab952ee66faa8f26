//! Runs the whole tool on small repositories. A stand-in for rattle (tests/rattle) gives a verdict by words in the sources.

use std::fs;
use std::path::{Path, PathBuf};
use std::process::{Command, Output};
use std::time::Duration;

/// A kit and a repository with one proved crate `a`, whose code is the line `good`. Both are removed at the end.
struct Place(PathBuf);

impl Place {
    fn new(name: &str) -> Place {
        let place = Place(std::env::temp_dir().join(format!("wrong-{name}-{}", std::process::id())));
        let bin = place.0.join("kit/bin");
        fs::create_dir_all(&bin).expect("a folder");
        fs::copy(Path::new(env!("CARGO_MANIFEST_DIR")).join("tests/rattle"), bin.join("rattle")).expect("a copy");
        place.put("crates.txt", "a: io\n");
        place.put("crates/a/src/lib.rt", "good\n");
        place.prove("a");
        place
    }

    fn put(&self, path: &str, text: &str) {
        let path = self.0.join(path);
        fs::create_dir_all(path.parent().expect("a folder")).expect("a folder");
        fs::write(path, text).expect("a file");
    }

    /// Writes the files that rt leaves for a proved library.
    fn prove(&self, name: &str) {
        let code = fs::read_to_string(self.0.join(format!("crates/{name}/src/lib.rt"))).expect("a file");
        self.put(&format!("crates/{name}/out/incremental/build-7/module"), &code);
        self.put(&format!("crates/{name}/out/rlib/stamp"), "stamp");
    }

    /// Removes what rt left.
    fn forget(&self) {
        fs::remove_dir_all(self.0.join("crates/a/out")).expect("removed");
    }

    fn edit(&self, label: &str, new: &str) {
        self.put(&format!("crates/a/wrong/{label}.edit"), &format!("# why\nfile: src/lib.rt\nold: good\nnew: {new}\n"));
    }

    fn command(&self, words: &[&str]) -> Command {
        let mut command = Command::new(env!("CARGO_BIN_EXE_wrong"));
        command.arg(&self.0).args(words).env("RATTLE_HOME", self.0.join("kit"));
        command
    }

    fn run(&self, words: &[&str]) -> (i32, String) {
        told(self.command(words).output().expect("it runs"))
    }
}

impl Drop for Place {
    fn drop(&mut self) {
        let _ = fs::remove_dir_all(&self.0);
    }
}

fn told(output: Output) -> (i32, String) {
    let text = String::from_utf8_lossy(&output.stdout).into_owned() + &String::from_utf8_lossy(&output.stderr);
    (output.status.code().unwrap_or(-1), text)
}

/// The status and the output of one edit that puts these words into the code.
fn of(name: &str, new: &str, words: &[&str]) -> (i32, String) {
    let place = Place::new(name);
    place.edit("one", new);
    place.run(words)
}

#[test]
fn an_edit_refused_at_a_fact_is_good() {
    let (status, text) = of("fact", "FACT", &[]);
    assert_eq!(status, 0, "{text}");
    assert!(text.contains("wrong a/one: refused at a fact, first at proofs/f/Answers.antt:3:5"), "{text}");
    assert!(text.contains("wrong: 1 wrong programs tried, 1 refused at a fact"), "{text}");
}

#[test]
fn every_other_verdict_fails() {
    for (new, said) in [
        ("FACT UNFIT", "refused at a fact, and a proof does not fit"),
        ("UNFIT", "refused only because a proof does not fit"),
        ("ODD", "refused, with words that are not known"),
        ("BROKEN", "does not compile"),
        ("UNTOLD", "no verdict"),
        ("fine", "STILL PROVED"),
    ] {
        let (status, text) = of("other", new, &[]);
        assert_eq!(status, 1, "{new}: {text}");
        assert!(text.contains(&format!("wrong a/one: {said}")), "{new}: {text}");
        assert!(text.contains("wrong: NOT REFUSED AT A FACT: a/one"), "{new}: {text}");
    }
}

#[test]
fn one_bad_edit_among_good_ones_fails() {
    let place = Place::new("among");
    for label in ["one", "two", "three"] {
        place.edit(label, "FACT");
    }
    place.edit("four", "fine");
    let (status, text) = place.run(&["--jobs", "3"]);
    assert_eq!(status, 1, "{text}");
    assert!(text.contains("wrong: 4 wrong programs tried, 3 refused at a fact"), "{text}");
    assert_eq!(place.run(&["--only", "one,three"]).0, 0);
    assert_eq!(place.run(&["--only", "five"]).0, 2);
}

#[test]
fn an_edit_that_does_not_apply_fails() {
    let place = Place::new("apply");
    place.put("crates/a/wrong/one.edit", "file: src/lib.rt\nold: better\nnew: FACT\n");
    let (status, text) = place.run(&[]);
    assert_eq!(status, 1, "{text}");
    assert!(text.contains("wrong a/one: NOT TRIED: src/lib.rt: the `old:` text is not there"), "{text}");
}

#[test]
fn nothing_to_try_fails() {
    let place = Place::new("nothing");
    assert_eq!(place.run(&[]).0, 2);
    assert_eq!(place.run(&["--crates", "b"]).0, 2);
}

#[test]
fn what_rt_left_is_used_and_not_changed() {
    let place = Place::new("library");
    place.edit("one", "FACT");
    let (_, text) = place.run(&[]);
    assert!(!text.contains("checked here"), "{text}");
    let module = place.0.join("crates/a/out/incremental/build-7/module");
    assert_eq!(fs::read_to_string(module).expect("a file"), "good\n");
    assert!(!place.0.join("target").exists());
}

#[test]
fn a_crate_of_which_nothing_is_kept_is_checked_here() {
    let place = Place::new("anew");
    place.edit("one", "FACT");
    place.forget();
    let (status, text) = place.run(&[]);
    assert_eq!(status, 0, "{text}");
    assert!(text.contains("wrong: a: nothing that rt kept can be used, so the crate was checked here"), "{text}");
}

#[test]
fn a_name_that_the_edit_changes_is_followed() {
    let place = Place::new("follow");
    place.put("crates/a/proofs/f/Answers.antt", "cites good\n");
    place.prove("a");
    place.edit("one", "NAMED FACT");
    place.edit("two", "NAMED fine");
    let (status, text) = place.run(&["--keep"]);
    assert_eq!(status, 1, "{text}");
    assert!(text.contains("wrong a/one: refused at a fact, first at"), "{text}");
    assert!(text.contains("wrong a/two: STILL PROVED"), "{text}");
}

#[test]
fn a_crate_that_is_not_proved_is_not_tried() {
    let place = Place::new("unproved");
    place.put("crates/a/src/lib.rt", "good FACT\n");
    place.edit("one", "FACT");
    let (status, text) = place.run(&[]);
    assert_eq!(status, 1, "{text}");
    assert!(text.contains("wrong a/one: NOT TRIED: a: the unedited crate is not proved"), "{text}");
}

#[test]
fn both_ways_must_agree() {
    assert_eq!(of("twice", "FACT", &["--twice"]).0, 0);
    let (status, text) = of("differ", "ONLY-WARM", &["--twice"]);
    assert_eq!(status, 1, "{text}");
    assert!(text.contains("from nothing: STILL PROVED"), "{text}");
    assert_eq!(of("full", "ONLY-WARM", &["--full"]).0, 1);
    assert_eq!(of("warm", "ONLY-WARM", &[]).0, 0);
}

#[test]
fn a_check_ends_at_the_limit() {
    let (status, text) = of("slow", "SLOW", &["--limit", "1"]);
    assert_eq!(status, 1, "{text}");
    assert!(text.contains("wrong a/one: no verdict: ended after 1 s"), "{text}");
}

#[test]
fn crates_are_waited_for() {
    let place = Place::new("wait");
    place.edit("one", "FACT");
    place.forget();
    let child = place.command(&["--wait", "never"]).stdout(std::process::Stdio::piped()).spawn().expect("it runs");
    std::thread::sleep(Duration::from_millis(600));
    place.prove("a");
    let (status, text) = told(child.wait_with_output().expect("it ends"));
    assert_eq!(status, 0, "{text}");
    assert!(text.contains("1 refused at a fact"), "{text}");
}

#[test]
fn waiting_ends_with_the_file() {
    let place = Place::new("ends");
    place.edit("one", "FACT");
    place.edit("two", "FACT");
    place.forget();
    place.put("ended", "");
    let ended = place.0.join("ended");
    let (status, text) = place.run(&["--wait", ended.to_str().expect("text")]);
    assert_eq!(status, 1, "{text}");
    assert_eq!(text.matches("NOT TRIED: a is not proved").count(), 2, "{text}");
}

#[test]
fn mutants_are_made_and_counted() {
    let place = Place::new("mutants");
    place.put("crates/a/src/lib.rt", "fn f(x: u8) -> u8 {\n    if x < 7 {\n        return 3;\n    }\n    x + 20\n}\n");
    place.put("crates/a/specs/Lib.antt", "f : N\n");
    place.prove("a");
    let (status, text) = place.run(&["--mutants", "5", "--seed", "3"]);
    assert_eq!(status, 1, "{text}");
    assert!(text.contains("wrong: a: 5 tried, 5 STILL PROVED"), "{text}");
    assert!(text.contains("- ") && text.contains("+ "), "{text}");
    let (_, again) = place.run(&["--mutants", "5", "--seed", "3", "--list"]);
    assert_eq!(place.run(&["--mutants", "5", "--seed", "3", "--list"]).1, again);
}
