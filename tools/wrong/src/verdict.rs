//! The verdict of a check on a wrong program.
//!
//! It is not enough that the crate is not proved. The wrong program should be refused because a stated fact is not proved.
//! If a proof refers to a goal or a name that no longer exists, this shows only that the code has another shape.

use crate::kit::Checked;
use std::fmt;
use std::time::Duration;

#[derive(Clone, Copy, PartialEq, Eq, PartialOrd, Ord, Debug)]
pub enum Verdict {
    /// A stated fact is not proved, and every proof fits.
    Fact,
    /// A stated fact is not proved, and some other proof does not fit.
    Mixed,
    /// A proof does not fit, and no stated fact fails.
    Unfit,
    /// Refused with a message that is not known here.
    Unknown,
    /// The compiler refuses it before anything is proved, or the prover cannot read its definitions.
    NotCompiled,
    /// The prover could not decide, failed, or took too long.
    NoVerdict,
    /// The crate is still proved.
    Proved,
}

pub const ALL: [Verdict; 7] = [
    Verdict::Fact,
    Verdict::Mixed,
    Verdict::Unfit,
    Verdict::Unknown,
    Verdict::NotCompiled,
    Verdict::NoVerdict,
    Verdict::Proved,
];

impl Verdict {
    pub fn words(self) -> &'static str {
        match self {
            Verdict::Fact => "refused at a fact",
            Verdict::Mixed => "refused at a fact, and a proof does not fit",
            Verdict::Unfit => "refused only because a proof does not fit",
            Verdict::Unknown => "refused, with words that are not known",
            Verdict::NotCompiled => "does not compile",
            Verdict::NoVerdict => "no verdict",
            Verdict::Proved => "STILL PROVED",
        }
    }
}

/// A verdict with the place of the first error of its kind, or with the message if there is no place, and with the goal or the law that
/// is not proved there, if the error names one.
#[derive(Clone, PartialEq, Eq, Debug)]
pub struct Judged {
    pub verdict: Verdict,
    pub place: String,
    pub goal: Option<String>,
}

impl fmt::Display for Judged {
    fn fmt(&self, f: &mut fmt::Formatter) -> fmt::Result {
        f.write_str(self.verdict.words())?;
        match self.verdict {
            _ if self.place.is_empty() => Ok(()),
            Verdict::NotCompiled | Verdict::NoVerdict => write!(f, ": {}", self.place),
            _ => match &self.goal {
                Some(goal) => write!(f, ", first at {}, {goal}", self.place),
                None => write!(f, ", first at {}", self.place),
            },
        }
    }
}

/// Words of an error that only follows from another one.
const FOLLOWS: [&str; 6] = [
    "was not admitted",
    "were not admitted",
    "not admitted yet",
    "cannot be checked",
    "was not checked",
    "were not checked",
];

/// Words in an error's first line which say that a goal, a name or a pattern of the proof no longer exists.
const UNFIT: [&str; 9] = [
    "that can be named from here",
    "this pattern needs",
    "expected type `goal.",
    "is not in scope",
    "has no field",
    "is not a field",
    "missing field",
    "unknown name",
    "too many arguments",
];

/// Words in the first line of an error of src/ or specs/ which say that the text there cannot be read.
const UNREAD: [&str; 6] =
    ["is not in scope", "has no field", "is no name", "operand is missing", "expected the end", "cannot continue"];

/// Words of an error which says that a stated fact is not proved.
const FACT: [&str; 17] = [
    "`omega`",
    "`search`",
    "`simp`",
    "`decide`",
    "`refl`",
    "`compute`",
    "`rw`",
    "give a proof of that",
    "no proof of",
    "computed as far as they go",
    "the two types",
    "the two sides",
    "expected type",
    "but this has type",
    "does not hold",
    "does not follow",
    "impossible",
];

pub fn judge(checked: &Checked, limit: Duration) -> Judged {
    let text = &checked.text;
    let said = |verdict, place: &str| Judged { verdict, place: place.to_string(), goal: None };
    match checked.status {
        Some(0) if checked.is_proved() => said(Verdict::Proved, ""),
        Some(1) if text.lines().any(|line| line.starts_with("logic=not-proved")) => refused(text),
        Some(1) => said(Verdict::NotCompiled, text.lines().find(|line| line.contains("error")).unwrap_or("")),
        Some(_) => said(Verdict::NoVerdict, text.lines().last().unwrap_or("")),
        None => said(Verdict::NoVerdict, &format!("ended after {} s", limit.as_secs())),
    }
}

fn refused(text: &str) -> Judged {
    let errors = errors(text);
    if let Some(error) = errors.iter().find(|error| is_unread(error)) {
        let place = format!("{}: {}", error.place.trim_start_matches("./"), error.text.lines().next().unwrap_or(""));
        return Judged { verdict: Verdict::NotCompiled, place, goal: None };
    }
    let first = |wanted| errors.iter().find(|error| sort(error) == Some(wanted));
    let (verdict, error) = match (first(Sort::Fact), first(Sort::Unfit)) {
        (Some(error), None) => (Verdict::Fact, Some(error)),
        (Some(error), Some(_)) => (Verdict::Mixed, Some(error)),
        (None, Some(error)) => (Verdict::Unfit, Some(error)),
        (None, None) => (Verdict::Unknown, first(Sort::Other)),
    };
    let place = error.map_or("", |error| error.place.trim_start_matches("./")).to_string();
    Judged { verdict, place, goal: error.and_then(goal) }
}

/// The goal or the law that an error is about: its first word in backquotes, or in what the search leaves the one in brackets.
fn goal(error: &Error) -> Option<String> {
    let head = error.text.lines().next().unwrap_or("");
    let quoted = match head.strip_prefix("no proof of") {
        Some(fact) => fact.split_once("(`")?.1.split_once("`)")?.0,
        None => head.strip_prefix('`')?.split_once("`:")?.0,
    };
    Some(quoted.to_string())
}

struct Error {
    place: String,
    text: String,
}

#[derive(Clone, Copy, PartialEq, Eq)]
enum Sort {
    Fact,
    Unfit,
    Other,
}

/// Is it a text of src/ or specs/ that the prover cannot read? An error that names a declaration speaks of what was read.
fn is_unread(error: &Error) -> bool {
    let place = error.place.trim_start_matches("./");
    let head = error.text.lines().next().unwrap_or("");
    let is_left = error.text.starts_with("no proof of");
    (place.starts_with("src/") || place.starts_with("specs/"))
        && !is_left
        && (!head.starts_with('`') || UNREAD.iter().any(|word| head.contains(word)))
}

/// The sort of an error; none if it follows from another one.
fn sort(error: &Error) -> Option<Sort> {
    let has = |text: &str, words: &[&str]| words.iter().any(|word| text.contains(word));
    let head = error.text.lines().next().unwrap_or("");
    if has(head, &FOLLOWS) {
        None
    } else if has(head, &UNFIT) {
        Some(Sort::Unfit)
    } else if has(&error.text, &FACT) {
        Some(Sort::Fact)
    } else {
        Some(Sort::Other)
    }
}

/// The errors with their lines of detail, and the facts that the prover's own search did not prove.
fn errors(text: &str) -> Vec<Error> {
    let mut found: Vec<Error> = Vec::new();
    let mut detail = false;
    for line in text.lines() {
        if let Some((place, said)) = line.split_once(": error: ") {
            found.push(Error { place: place.to_string(), text: said.to_string() });
            detail = true;
        } else if let Some((place, fact)) = left_by_search(line) {
            found.push(Error { place: place.to_string(), text: format!("no proof of {fact}") });
            detail = false;
        } else if let (true, true, Some(error)) = (detail, line.starts_with("  "), found.last_mut()) {
            error.text.push('\n');
            error.text.push_str(line);
        } else {
            detail = false;
        }
    }
    found
}

/// The place and the fact of a line that reports a fact as not proved. The prover's own search, which proves a function
/// without a proof file, prints such lines.
fn left_by_search(line: &str) -> Option<(&str, &str)> {
    line.strip_prefix("note: ")?.split_once(": it is not proved that ")
}

#[cfg(test)]
mod tests {
    use super::*;

    const LIMIT: Duration = Duration::from_secs(7);

    fn of(status: Option<i32>, text: &str) -> Judged {
        judge(&Checked { status, text: text.to_string() }, LIMIT)
    }

    /// The verdict on a crate with these errors.
    fn refused_by(errors: &[&str]) -> (Verdict, String) {
        let mut text = String::new();
        for (i, error) in errors.iter().enumerate() {
            text.push_str(&format!("./proofs/f/Answers.antt:{}:2: error: `a`: {error}\n", i + 1));
        }
        let judged = of(Some(1), &(text + "fn f: not proved\nlogic=not-proved\n"));
        (judged.verdict, judged.place)
    }

    fn at(line: usize) -> String {
        format!("proofs/f/Answers.antt:{line}:2")
    }

    const FAILS: &str = "`omega`: the goal is false";
    const MISFIT: &str =
        "`goal.x`: module `M` has no `x` that can be named from here (names in it that begin alike: `y`)";
    const WAITS: &str = "`b` was not admitted (it has holes), so this cannot be checked";

    #[test]
    fn a_fact_that_fails() {
        assert_eq!(refused_by(&[FAILS]), (Verdict::Fact, at(1)));
        let said = of(Some(1), &format!("./a.antt:1:2: error: `law`: {FAILS}\nlogic=not-proved\n")).to_string();
        assert_eq!(said, "refused at a fact, first at a.antt:1:2, law");
        assert_eq!(refused_by(&[WAITS, FAILS, WAITS]), (Verdict::Fact, at(2)));
        assert_eq!(
            refused_by(&["odd words\n  expected type `n ≡ 3`\n  but this has type `n ≡ 4`"]),
            (Verdict::Fact, at(1))
        );
    }

    #[test]
    fn a_proof_that_does_not_fit() {
        assert_eq!(refused_by(&[WAITS, MISFIT]), (Verdict::Unfit, at(2)));
        assert_eq!(refused_by(&[MISFIT, FAILS]), (Verdict::Mixed, at(2)));
    }

    #[test]
    fn words_that_are_not_known() {
        assert_eq!(refused_by(&["something else"]), (Verdict::Unknown, at(1)));
        assert_eq!(refused_by(&[WAITS]), (Verdict::Unknown, String::new()));
        let rests = "2 declarations that depend on `b`, which was rejected, were not checked: c, d";
        assert_eq!(refused_by(&[rests]), (Verdict::Unknown, String::new()));
    }

    #[test]
    fn definitions_that_cannot_be_read() {
        for (error, verdict) in [
            ("expected the end of the line", Verdict::NotCompiled),
            ("`f`: `leb` is not in scope", Verdict::NotCompiled),
            ("`f`: the two types differ", Verdict::Fact),
        ] {
            let text = format!("./specs/A.antt:3:1: error: {error}\nlogic=not-proved\n");
            assert_eq!(of(Some(1), &text).verdict, verdict, "{error}");
        }
    }

    #[test]
    fn what_the_search_leaves_is_a_fact() {
        let text = "fn f: not proved\nnote: src/lib.rt:3:5: it is not proved that it holds (`returns`); more\nlogic=not-proved\n";
        assert_eq!(of(Some(1), text).to_string(), "refused at a fact, first at src/lib.rt:3:5, returns");
    }

    #[test]
    fn checks_that_refuse_nothing() {
        let verdict = |status, text| of(status, text).verdict;
        assert_eq!(verdict(Some(0), "logic=proved\n"), Verdict::Proved);
        assert_eq!(verdict(Some(1), "error[mismatched-types]: no\n"), Verdict::NotCompiled);
        assert_eq!(verdict(Some(3), "rattle: no verdict\n"), Verdict::NoVerdict);
        assert_eq!(verdict(Some(0), "holes=1\n"), Verdict::NoVerdict);
        assert_eq!(of(None, "").to_string(), "no verdict: ended after 7 s");
    }
}
