//! Prints the outcomes.

use crate::tries::{Outcome, Program, Try};
use crate::verdict::{Verdict, ALL};

/// Prints a program that is to be tried.
pub fn list(one: &Try) {
    println!("{}/{}", one.krate, one.label);
    if let Program::Mutant(mutant) = &one.program {
        println!("{mutant}");
    }
}

/// Prints the line of an outcome.
pub fn show(outcome: &Outcome) {
    let name = format!("wrong {}/{}", outcome.tried.krate, outcome.tried.label);
    match &outcome.judged {
        Ok(judged) => {
            let modules = outcome.modules.map_or(String::new(), |n| format!(", {n} modules checked"));
            println!("{name}: {judged} ({:.1} s{modules})", outcome.seconds);
        }
        Err(why) => println!("{name}: NOT TRIED: {why}"),
    }
}

fn count(outcomes: &[Outcome], krate: Option<&str>, verdict: Option<Verdict>) -> usize {
    let of_crate = |outcome: &&Outcome| krate.is_none_or(|name| outcome.tried.krate == name);
    let as_judged = |outcome: &&Outcome| outcome.judged.as_ref().ok().map(|judged| judged.verdict) == verdict;
    outcomes.iter().filter(of_crate).filter(as_judged).count()
}

/// Prints each edit that was not refused at a fact, and the counts. Returns whether all were refused at a fact.
pub fn edits(outcomes: &[Outcome], seconds: f64) -> bool {
    let refused = count(outcomes, None, Some(Verdict::Fact));
    for outcome in outcomes.iter().filter(|outcome| !is_refused(outcome)) {
        println!("wrong: NOT REFUSED AT A FACT: {}/{}", outcome.tried.krate, outcome.tried.label);
    }
    println!("wrong: {} wrong programs tried, {refused} refused at a fact ({seconds:.0} s)", outcomes.len());
    refused == outcomes.len()
}

fn is_refused(outcome: &Outcome) -> bool {
    outcome.judged.as_ref().is_ok_and(|judged| judged.verdict == Verdict::Fact)
}

/// Prints each mutant that needs a look, and the counts by crate. Returns whether no mutant is still proved.
pub fn mutants(outcomes: &[Outcome], seconds: f64) -> bool {
    for outcome in outcomes.iter().filter(|outcome| !is_settled(outcome)) {
        show(outcome);
        if let Program::Mutant(mutant) = &outcome.tried.program {
            println!("{mutant}");
        }
    }
    let mut crates: Vec<&str> = outcomes.iter().map(|outcome| outcome.tried.krate.as_str()).collect();
    crates.dedup();
    crates.sort();
    crates.dedup();
    for krate in crates {
        println!("wrong: {krate}: {}", tally(outcomes, Some(krate)));
    }
    println!("wrong: all: {} ({seconds:.0} s)", tally(outcomes, None));
    count(outcomes, None, Some(Verdict::Proved)) == 0
}

/// Was it refused by the prover or the compiler, so that it needs no look?
fn is_settled(outcome: &Outcome) -> bool {
    let settled = [Verdict::Fact, Verdict::Mixed, Verdict::Unfit, Verdict::NotCompiled];
    outcome.judged.as_ref().is_ok_and(|judged| settled.contains(&judged.verdict))
}

/// How many programs had each verdict. A verdict that none had is left out.
fn tally(outcomes: &[Outcome], krate: Option<&str>) -> String {
    let tried = outcomes.iter().filter(|outcome| krate.is_none_or(|name| outcome.tried.krate == name)).count();
    let mut text = format!("{tried} tried");
    let verdicts = ALL.iter().map(|verdict| (Some(*verdict), verdict.words())).chain([(None, "not tried")]);
    for (verdict, words) in verdicts {
        let n = count(outcomes, krate, verdict);
        if n > 0 {
            text.push_str(&format!(", {n} {words}"));
        }
    }
    text
}
