//! Writes the proofs of the calls of a Rattle module that work on a lent row of seats.
//!
//! `walks ROOT CRATE MODULE` writes ROOT/crates/CRATE/proofs/MODULE/F/Proof.antt for each such call F of
//! ROOT/crates/CRATE/src/MODULE.rt. With `--check` it writes nothing and says whether the files are what it would write.
//! Exit status: 0 if it wrote the files or they are as it would write them, 1 if a file differs, 2 if it could not be run.
//!
//! The prover does not walk a function that takes a slice of structs, so this program writes the walks of such calls. They
//! differ only in the calls' parameters, in whether something is tested before the row, and in whether the whole row is
//! stored or one seat. A call is read from the source and must have exactly this form:
//!
//! ```text
//! pub extern "C" fn F(seats: &mut [Seat], desk: Desk, cells: &mut [u8], text: &[u8], seat: u32, ..) -> Answer
//!     ensures { λ r. ⌜ XLent (each parameter at entry) r (each `&mut` parameter at exit) ⌝ }
//! {
//!     let early = TESTER(text, seat);             the early test: from here..
//!     if early != 0 {
//!         return EARLY(desk, early);
//!     }                                           ..to here, or none of it
//!     if seats.len() != SEATS {
//!         return REFUSER(desk);
//!     }
//!     let row = load(seats);
//!     let out = CORE(row, desk, cells, text, seat);    the parameters in their order, row for seats
//!     store(seats, out.row);                      or: put_seat(seats, out.at, out.seat);
//!     out.answer
//! }
//! ```
//!
//! A parameter is one of these:
//!
//! - a struct, or a number by value: `u8`, `u32`, `u64`, `usize` or `bool`;
//! - a slice of structs, of `u8` or of `u32`;
//! - a reference to an array of `u8` or of `u32`, or to an array of such arrays, as `&mut [[u32; KINDS]; 33]`. A length is
//!   a number or a constant. The constant stands in the module, or in the module that a `use` names, and its value is a
//!   number or another constant.
//!
//! All functions that it calls stand in the module. REFUSER and EARLY take the same struct. TESTER takes some of the
//! parameters in their order, none that is `&mut`, and returns a `u32`. CORE ensures CoreX (each parameter at entry) r (each
//! other `&mut` parameter at exit), REFUSER ensures r ≡ refusal-x desk, TESTER ensures TestX (each parameter that it takes,
//! at entry) r, and EARLY ensures r ≡ early-refusal-x desk n. CORE returns a struct of row and answer or, for `put_seat`, of
//! at, seat and answer, in this order.
//!
//! The crate's proofs/LentLaws has `refusal-x`, `early-refusal-x` and these laws, where x is X in lower case. Those about an
//! early test are only needed if there is one, and only then do the first two take TestX:
//!
//! ```text
//! done-x     (each parameter) → TestX .. 0 → (r : what CORE returns) (each other `&mut` at exit) → CoreX ..
//!            → XLent .. (r .answer) (each `&mut` at exit; for seats (r .row), or set seats (r .at) (r .seat))
//! refused-x  (each parameter) → TestX .. 0 → eqb (length seats) seatCount ≡ false
//!            → XLent .. (refusal-x desk) (each `&mut` parameter as it was)
//! early-x    (each parameter) (n : ℕ) → TestX .. n → eqb n 0 ≡ false
//!            → XLent .. (early-refusal-x desk n) (each `&mut` parameter as it was)
//! ```
//!
//! XLent stands in specs/Lent, CoreX and TestX in specs/inside/Core. proofs/Outs has laws on the parts of what CORE returns.

mod file;
mod frame;
mod lengths;
mod lex;
mod number;
mod param;
mod source;
mod steps;
mod text;
mod uses;
mod walk;

use std::fs;
use std::path::Path;
use std::process::ExitCode;

fn main() -> ExitCode {
    let words: Vec<String> = std::env::args_os().skip(1).map(|word| word.to_string_lossy().into_owned()).collect();
    let words: Vec<&str> = words.iter().map(String::as_str).collect();
    let answer = match words.as_slice() {
        [root, crate_name, module] => write(Path::new(root), crate_name, module),
        [root, crate_name, module, "--check"] => check(Path::new(root), crate_name, module),
        _ => Err("usage: walks ROOT CRATE MODULE [--check]".to_string()),
    };
    answer.unwrap_or_else(|what| {
        eprintln!("walks: {what}");
        ExitCode::from(2)
    })
}

/// A file that the program writes: its path from the root, and its text.
struct Written {
    path: String,
    text: String,
}

/// The proofs of the module's calls.
fn proofs(root: &Path, crate_name: &str, module: &str) -> Result<Vec<Written>, String> {
    let file = |crate_name: &str, module: &str| format!("crates/{crate_name}/src/{module}.rt");
    let path = file(crate_name, module);
    let source = fs::read_to_string(root.join(&path)).map_err(|e| format!("{path}: cannot be read: {e}"))?;
    let modules = |crate_name: &str, module: &str| fs::read_to_string(root.join(file(crate_name, module))).ok();
    let calls = source::calls(crate_name, module, &source, &modules)?;
    if calls.is_empty() {
        return Err(format!("{path} has no call on lent seats"));
    }
    let path = |name: &str| format!("crates/{crate_name}/proofs/{module}/{name}/Proof.antt");
    Ok(calls.iter().map(|call| Written { path: path(&call.name), text: file::proof(call) }).collect())
}

fn write(root: &Path, crate_name: &str, module: &str) -> Result<ExitCode, String> {
    let proofs = proofs(root, crate_name, module)?;
    for Written { path, text } in &proofs {
        let place = root.join(path);
        let folder = place.parent().unwrap_or(root);
        let done = fs::create_dir_all(folder).and_then(|()| fs::write(&place, text));
        done.map_err(|e| format!("{path}: cannot be written: {e}"))?;
    }
    println!("walks: {} walks written", proofs.len());
    Ok(ExitCode::SUCCESS)
}

fn check(root: &Path, crate_name: &str, module: &str) -> Result<ExitCode, String> {
    let proofs = proofs(root, crate_name, module)?;
    let differs = |proof: &&Written| fs::read(root.join(&proof.path)).ok().as_deref() != Some(proof.text.as_bytes());
    if let Some(proof) = proofs.iter().find(differs) {
        eprintln!("walks: {} is not what this program writes", proof.path);
        return Ok(ExitCode::FAILURE);
    }
    println!("walks: {} walks are as written", proofs.len());
    Ok(ExitCode::SUCCESS)
}
