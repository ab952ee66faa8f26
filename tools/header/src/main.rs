//! Compares a C header that is written by hand with what the Rattle crate `rei2` exports.
//!
//! `header CRATES HEADER [ARCHIVE]` reads the sources below the folder CRATES, and the header. It checks that:
//!
//! - the header has each exported function and each struct that these name, with the same names, types and order, and no
//!   other function or struct;
//! - the header asserts each struct's size and offsets;
//! - each constant of the header's enums has the same number as in sources and definitions;
//! - each refusal and each kind has a constant;
//! - the strings with the order of letters and statuses have the order of the sources;
//! - the arrays that the programs lend have the lengths that follow from these constants;
//! - the symbol index of the archive names exactly the exported functions.
//!
//! Each difference is printed as a line, and the last line has the counts. Exit status: 0 if there are no differences, 1 if
//! there are some or nothing is exported, 2 if it could not be run.

mod archive;
mod compare;
mod constants;
mod declared;
mod exports;
mod header;
mod lex;
mod orders;
mod source;
mod spec;

use declared::Declared;
use std::fs;
use std::path::Path;
use std::process::ExitCode;

/// The crate whose functions are exported.
const CRATE: &str = "rei2";

fn main() -> ExitCode {
    let words: Vec<String> = std::env::args_os().skip(1).map(|word| word.to_string_lossy().into_owned()).collect();
    let answer = match words.as_slice() {
        [crates, header] => compared(crates, header, None),
        [crates, header, archive] => compared(crates, header, Some(archive)),
        _ => Err("usage: header CRATES HEADER [ARCHIVE]".to_string()),
    };
    match answer {
        Ok(compared) => report(&compared),
        Err(what) => {
            eprintln!("header: {what}");
            ExitCode::from(2)
        }
    }
}

/// What is exported, what the header declares, and how header and archive differ from the sources.
struct Compared {
    source: Declared,
    header: Declared,
    found: Vec<String>,
}

fn compared(crates: &str, header: &str, archive: Option<&String>) -> Result<Compared, String> {
    let unreadable = |path: &str, e: String| format!("{path}: cannot be read: {e}");
    let source = exports::exported(Path::new(crates), CRATE)?;
    let text = fs::read_to_string(header).map_err(|e| unreadable(header, e.to_string()))?;
    let header = header::declared(&text);
    let mut found = compare::differences(&source, &header);
    found.extend(constants::differences(Path::new(crates), &header)?);
    found.extend(orders::differences(Path::new(crates), &text)?);
    if let Some(path) = archive {
        let bytes = fs::read(path).map_err(|e| unreadable(path, e.to_string()))?;
        let symbols = archive::symbols(&bytes).map_err(|e| unreadable(path, e))?;
        found.extend(compare::archive_differences(&source, &symbols));
    }
    Ok(Compared { source, header, found })
}

fn report(Compared { source, header, found }: &Compared) -> ExitCode {
    found.iter().for_each(|line| println!("{line}"));
    let (functions, structs, constants) = (source.functions.len(), source.structs.len(), header.constants.len());
    println!("header: {functions} functions, {structs} structs, {constants} constants, {} differences", found.len());
    ExitCode::from(u8::from(!found.is_empty() || functions == 0))
}
