//! An independent implementation of the rules in Rust. It reads REI2 frames, makes cases, answers
//! them, and compares its answers with those of the proved programs.
//!
//! Every rule here is written from the scope paper, and every spelling from `docs/CASES.md`. No code is
//! shared with the product that it is compared with.

#![forbid(unsafe_code)]

mod answers;
mod bulk;
mod cases;
mod desk;
mod digits;
mod dynamic;
mod finder;
mod frame;
mod listing;
mod random;
mod records;
mod refusal;
mod reply;
mod request;
mod script;
mod shown;
mod spelling;
mod times;

use std::env;
use std::fs;
use std::io::{self, Read, Write};
use std::path::Path;
use std::process::ExitCode;

const USAGE: &str = "usage: second cases SEED | second scripts SEED | second answers < CASES | \
                     second captures SEED DIR | second list < CAPTURE | second lists FILE.. | \
                     second bulk RUN ROOM [OPTION..]";

/// The exit status of every complaint: wrong usage, a line that is not a case, or input or output
/// that fails.
const COMPLAINT: u8 = 2;

fn main() -> ExitCode {
    let arguments: Vec<String> = env::args_os()
        .skip(1)
        .map(|argument| argument.to_string_lossy().into_owned())
        .collect();
    let words: Vec<&str> = arguments.iter().map(String::as_str).collect();
    let outcome = match words.as_slice() {
        ["bulk", options @ ..] => bulk::run(options),
        words => run(words)
            .and_then(|output| print(&output))
            .map(|()| ExitCode::SUCCESS),
    };
    match outcome {
        Ok(status) => status,
        Err(complaint) => {
            eprintln!("second: {complaint}");
            ExitCode::from(COMPLAINT)
        }
    }
}

/// Does what the words ask for and returns what is to be printed.
fn run(words: &[&str]) -> Result<Vec<u8>, String> {
    match words {
        ["cases", seed] => make_cases(seed),
        ["scripts", seed] => make_scripts(seed),
        ["answers"] => answer_standard_input(),
        ["captures", seed, directory] => make_captures(seed, Path::new(directory)),
        ["list"] => list_standard_input(),
        ["lists", files @ ..] if !files.is_empty() => list_files(files),
        _ => Err(USAGE.to_string()),
    }
}

fn make_cases(seed: &str) -> Result<Vec<u8>, String> {
    Ok(cases::single_cases(parse_seed(seed)?).into_bytes())
}

fn make_scripts(seed: &str) -> Result<Vec<u8>, String> {
    Ok(cases::scripts(parse_seed(seed)?).into_bytes())
}

fn answer_standard_input() -> Result<Vec<u8>, String> {
    Ok(answers::file(&standard_input()?)?.into_bytes())
}

/// Writes each capture to a separate file and returns the names of the files, one per line. The
/// directory must exist. Other files in it stay.
fn make_captures(seed: &str, directory: &Path) -> Result<Vec<u8>, String> {
    let mut names = String::new();
    for (index, capture) in cases::captures::all(parse_seed(seed)?).iter().enumerate() {
        let name = format!("{index:03}");
        let path = directory.join(&name);
        fs::write(&path, capture).map_err(|error| format!("{}: {error}", path.display()))?;
        names.push_str(&name);
        names.push('\n');
    }
    Ok(names.into_bytes())
}

fn list_standard_input() -> Result<Vec<u8>, String> {
    Ok(listing::list(&standard_input()?))
}

/// The lists of all these files. If a file cannot be read, the result is a complaint about the
/// first such file, and nothing is printed.
fn list_files(files: &[&str]) -> Result<Vec<u8>, String> {
    let mut lists = Vec::new();
    for file in files {
        let capture = fs::read(file).map_err(|error| format!("{file}: {error}"))?;
        lists.extend(listing::list(&capture));
    }
    Ok(lists)
}

fn parse_seed(seed: &str) -> Result<u64, String> {
    seed.parse()
        .map_err(|_| format!("SEED is a number below 2^64; {USAGE}"))
}

fn standard_input() -> Result<Vec<u8>, String> {
    let mut input = Vec::new();
    io::stdin()
        .read_to_end(&mut input)
        .map_err(|error| format!("standard input: {error}"))?;
    Ok(input)
}

fn print(text: &[u8]) -> Result<(), String> {
    let mut output = io::stdout().lock();
    output
        .write_all(text)
        .and_then(|()| output.flush())
        .map_err(|error| format!("standard output: {error}"))
}

#[cfg(test)]
mod tests {
    use super::*;
    use std::env;
    use std::process;

    fn complaint(words: &[&str]) -> String {
        run(words).expect_err("a complaint")
    }

    #[test]
    fn wrong_usage() {
        for words in [
            &[][..],
            &["cases"],
            &["cases", "1", "1"],
            &["scripts"],
            &["scripts", "1", "1"],
            &["captures"],
            &["captures", "1"],
            &["captures", "1", ".", "."],
            &["list", "FILE"],
            &["lists"],
        ] {
            assert_eq!(complaint(words), USAGE);
        }
        for seed in ["", "x", "-1", "18446744073709551616"] {
            for words in [
                &["cases", seed][..],
                &["scripts", seed],
                &["captures", seed, "."],
            ] {
                let complaint = complaint(words);
                assert_eq!(complaint, format!("SEED is a number below 2^64; {USAGE}"));
            }
        }
    }

    #[test]
    fn cases_and_scripts_are_made_apart() {
        let made = |word| run(&[word, "3"]);
        assert_eq!(made("cases"), Ok(cases::single_cases(3).into_bytes()));
        assert_eq!(made("scripts"), Ok(cases::scripts(3).into_bytes()));
    }

    #[test]
    fn captures_are_written_and_listed() {
        let directory = env::temp_dir().join(format!("second-captures-{}", process::id()));
        let place = directory.to_str().expect("text");
        let words = ["captures", "1", place];
        assert!(complaint(&words).starts_with(place));
        fs::create_dir(&directory).expect("a directory");
        let names = run(&words).expect("names");
        let names = String::from_utf8(names).expect("text");
        let captures = cases::captures::all(1);
        assert_eq!(names.lines().count(), captures.len());
        for (name, capture) in names.lines().zip(&captures) {
            let written = fs::read(directory.join(name)).expect("a file");
            assert_eq!(&written, capture);
        }
        assert!(names.starts_with("000\n001\n"));
        let [example, empty, none] = ["000", "001", "none"].map(|name| format!("{place}/{name}"));
        let lists = [&captures[0], &captures[1]].map(|capture| listing::list(capture));
        assert_eq!(run(&["lists", &example, &empty]), Ok(lists.concat()));
        assert!(complaint(&["lists", &example, &none]).starts_with(&none));
        fs::remove_dir_all(&directory).expect("removed");
    }
}
