//! Times each call of the proved library beside plain Rust that does the same, and beside plain Rust that was tuned in the
//! same ways as the proved library. Before this it checks that all three give the same answers.

mod abi;
mod compare;
mod inputs;
mod plain;
mod random;
mod report;
mod rows;
mod side;
mod sweep;
mod timing;
mod tuned;
mod witness;

use std::time::Duration;

const USAGE: &str = "usage: bench [--quick] [--only WORDS] [--about TEXT]...";

struct Options {
    quick: bool,
    /// Rows whose call and case do not contain this text are left out.
    only: String,
    /// Lines to print above the table.
    about: Vec<String>,
}

fn options() -> Option<Options> {
    let mut options = Options { quick: false, only: String::new(), about: Vec::new() };
    let mut words = std::env::args().skip(1);
    while let Some(word) = words.next() {
        match word.as_str() {
            "--quick" => options.quick = true,
            "--only" => options.only = words.next()?,
            "--about" => options.about.push(words.next()?),
            _ => return None,
        }
    }
    Some(options)
}

fn main() {
    let Some(options) = options() else {
        eprintln!("{USAGE}");
        std::process::exit(2);
    };
    let plan = if options.quick {
        timing::Plan { repeats: 11, slices: 5, slice: Duration::from_micros(100) }
    } else {
        timing::Plan { repeats: 31, slices: 15, slice: Duration::from_micros(400) }
    };
    let mut rows = rows::all();
    let compared = compare::rows(&mut rows) + sweep::all();
    rows.retain(|row| format!("{} {}", row.about.call, row.about.case).contains(&options.only));
    report::heading(&options.about, compared, &plan);
    let mut figures = Vec::new();
    for row in &mut rows {
        figures.push(timing::time(row, &plan));
        report::row(&row.about, figures.last().expect("just timed"));
    }
    report::ending(&rows, &figures);
}
