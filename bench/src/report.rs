//! Prints the results: a table in Markdown, and figures that follow from it.

use crate::rows::{About, Row};
use crate::timing::{Figures, Plan, Tuned};

pub fn heading(about: &[String], compared: usize, plan: &Plan) {
    for line in about {
        println!("- {line}");
    }
    println!("- load of the machine before: {}", load());
    println!(
        "- compared before any time was taken: {compared} calls, answers and lent memory the same on all three sides"
    );
    println!(
        "- times are for one call: medians of {} repeats, each of {} slices of each side by turns",
        plan.repeats, plan.slices
    );
    println!("- cleared: what is set back before each call, on all sides and within the timing; all else is as the last call left it");
    println!("- as plain: tuned has no shape of its own for the call and uses plain's function");
    println!();
    println!("| call | on | proved | plain | ratio | least to most | tuned | ratio to tuned | cleared |");
    println!("|---|---|---|---|---|---|---|---|---|");
}

pub fn row(about: &About, figures: &Figures) {
    let Figures { proved, plain, ratio, least, most, tuned } = figures;
    let (call, case, cleared) = (about.call, &about.case, about.cleared);
    let (proved, plain) = (duration(*proved), duration(*plain));
    let tuned = match tuned {
        Some(Tuned { time, ratio }) => format!("{} | {ratio:.2}", duration(*time)),
        None => "as plain | as plain".to_string(),
    };
    println!("| `{call}` | {case} | {proved} | {plain} | {ratio:.2} | {least:.2} to {most:.2} | {tuned} | {cleared} |");
}

pub fn ending(rows: &[Row], figures: &[Figures]) {
    println!();
    for (row, figures) in rows.iter().zip(figures) {
        let Some(bytes) = row.about.bytes else { continue };
        // Bytes per nanosecond times a thousand are megabytes per second.
        let speed = |time: f64| bytes as f64 / (time * row.about.calls as f64) * 1000.0;
        let sides = on_sides(|side| format!("{:.0} MB/s", speed(side(figures))));
        println!("- `{}`, {}: {sides}", row.about.call, row.about.case);
    }
    growth(rows, figures);
    println!("- load of the machine after: {}", load());
}

/// Prints how much time a reply takes for each held cell, and for more seats in use.
fn growth(rows: &[Row], figures: &[Figures]) {
    let of = |case: &str| {
        let mut both = rows.iter().zip(figures);
        both.find(|(row, _)| row.about.call == "rei2_reply" && row.about.case.ends_with(case))
            .map(|(_, figures)| figures)
    };
    let cells = (of(" 0 cells held, 8 seats in use"), of("255 cells held, 8 seats in use"));
    let seats = (of("64 cells held, 1 seat in use"), of("64 cells held, 16 seats in use"));
    let ((Some(none), Some(most)), (Some(one), Some(all))) = (cells, seats) else { return };
    let cell = on_sides(|side| format!("{:.1} ns", (side(most) - side(none)) / 255.0));
    let seats = on_sides(|side| format!("{:.0} ns", side(all) - side(one)));
    println!("- `rei2_reply`, a held cell adds {cell}; fifteen seats more add {seats}");
}

/// A figure of each side, with the name of the side.
fn on_sides(figure: impl Fn(fn(&Figures) -> f64) -> String) -> String {
    let proved = figure(|figures| figures.proved);
    let plain = figure(|figures| figures.plain);
    let tuned = figure(|figures| figures.tuned.as_ref().map_or(figures.plain, |tuned| tuned.time));
    format!("{proved} proved, {plain} plain, {tuned} tuned")
}

fn duration(nanoseconds: f64) -> String {
    if nanoseconds < 10_000.0 {
        format!("{nanoseconds:.1} ns")
    } else {
        format!("{:.1} us", nanoseconds / 1000.0)
    }
}

/// The three load averages, if the system reports them.
fn load() -> String {
    let text = std::fs::read_to_string("/proc/loadavg").unwrap_or_default();
    let averages: Vec<&str> = text.split(' ').take(3).collect();
    averages.join(" ")
}
