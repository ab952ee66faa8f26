//! What the tests share: how a race office starts `rei2list` and `list`, and what it then sees.
//!
//! The tests need the proved program in crates/rei2list/out, as `rt run` in crates/rei2list builds it.

use std::ffi::{CStr, OsStr};
use std::fs::{self, File};
use std::os::fd::FromRawFd;
use std::path::PathBuf;
use std::process::{Command, Output, Stdio};

pub const HEADING: &str = "seat\tfrom\taddr\tnumber\tbib\tgroup\trun\tphys\tlog\tinfo\ttime\tdate\tstatus\n";

/// The root of the repository.
pub fn root() -> PathBuf {
    PathBuf::from(env!("CARGO_MANIFEST_DIR")).join("../..")
}

pub fn bytes_of(path: &str) -> Vec<u8> {
    fs::read(root().join(path)).unwrap_or_else(|e| panic!("{path}: {e}"))
}

pub fn file(path: &str) -> File {
    File::open(root().join(path)).unwrap_or_else(|e| panic!("{path}: {e}"))
}

/// The sample capture, and its list.
pub fn sample() -> Vec<u8> {
    bytes_of("samples/example.capture")
}

pub fn sample_list() -> String {
    text_of("crates/rei2list/stdout")
}

pub fn text_of(path: &str) -> String {
    String::from_utf8(bytes_of(path)).expect("text")
}

/// A new folder for the files of a test.
pub fn room(name: &str) -> PathBuf {
    // Not below the repository: some tests make links, and rt refuses a repository with links.
    let room = std::env::temp_dir().join(format!("rei2list-tests-{}", std::process::id())).join(name);
    let _ = fs::remove_dir_all(&room);
    fs::create_dir_all(&room).expect("a folder");
    room.canonicalize().expect("a folder")
}

/// What a command printed, and whether it reported success.
#[derive(Debug, PartialEq, Eq)]
pub struct Seen {
    pub out: String,
    pub err: String,
    pub done: bool,
}

impl Seen {
    fn of(output: Output) -> Seen {
        let text = |bytes| String::from_utf8(bytes).expect("text");
        Seen { out: text(output.stdout), err: text(output.stderr), done: output.status.success() }
    }
}

/// A command whose first word is a file of the repository.
pub fn command<W: AsRef<OsStr>>(program: &str, words: impl IntoIterator<Item = W>) -> Command {
    let mut command = Command::new(root().join(program));
    command.args(words).current_dir(root());
    command
}

pub fn seen(command: &mut Command, input: impl Into<Stdio>) -> Seen {
    Seen::of(command.stdin(input).output().expect("the command starts"))
}

/// What `rei2list` prints for an input.
pub fn rei2list(input: impl Into<Stdio>) -> Seen {
    seen(&mut command("run", ["rei2list"]), input)
}

/// What `rei2list` prints for these bytes.
pub fn rei2list_of(name: &str, bytes: &[u8]) -> Seen {
    let path = room(name).join("capture");
    fs::write(&path, bytes).expect("a capture");
    rei2list(File::open(&path).expect("a capture"))
}

/// A line of shell, started at the root of the repository.
pub fn shell(line: &str) -> Command {
    let mut command = Command::new("sh");
    command.arg("-c").arg(line).current_dir(root());
    command
}

/// A line of docs/capture.md for the shell, with other words in place of those that depend on the office.
pub fn of_the_page(line: &str, others: &[(&str, &str)]) -> String {
    let page = text_of("docs/capture.md");
    assert!(page.lines().any(|one| one == format!("    {line}")), "docs/capture.md does not have: {line}");
    others.iter().fold(line.to_string(), |line, (old, new)| line.replace(old, new))
}

extern "C" {
    fn posix_openpt(flags: i32) -> i32;
    fn grantpt(master: i32) -> i32;
    fn unlockpt(master: i32) -> i32;
    fn ptsname_r(master: i32, name: *mut std::ffi::c_char, size: usize) -> i32;
}

/// A pseudo-terminal that stands in for the serial line. What is written to the first end arrives at the port, whose name is second.
pub fn line() -> (File, PathBuf) {
    // Read and write; no controlling terminal; not for the programs that are started, or the line would never end for them.
    const FLAGS: i32 = 0o2 | 0o400 | 0o2000000;
    let mut name = [0; 100];
    // SAFETY: the descriptor is new and has no other owner, and the name ends within its array.
    unsafe {
        let master = posix_openpt(FLAGS);
        assert!(master >= 0 && grantpt(master) == 0 && unlockpt(master) == 0, "no pseudo-terminal to be had");
        assert_eq!(ptsname_r(master, name.as_mut_ptr(), name.len()), 0);
        let port = CStr::from_ptr(name.as_ptr()).to_str().expect("a name").into();
        (File::from_raw_fd(master), port)
    }
}
