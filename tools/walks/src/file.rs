//! The text of a proof file.

use crate::frame;
use crate::param::{Kind, Loan, Param};
use crate::source::Call;
use crate::text::{abbrev, capital, dash, joined, nest, spaced, step, tidy};
use crate::uses::{callees, uses};

/// The parameters that the definitions of a proof have in common.
pub const LOGIC: &str = "{M : Type 1} (𝓤 : URA M) (H : Heap 𝓤) (A : Atoms 𝓤)";
pub const RUN: &str = "(at-mem : Memory → SProp 𝓤) (run : Routine → Fun 𝓤)";

/// What the function ensures, in the form that the walk takes.
pub const OUTER: &str = "outer.ended stayed";
pub const CLAUSES: &str = "(outer.clauses 𝓤 H A at-mem run)";

/// The text of a call's proof.
pub fn proof(c: &Call) -> String {
    let Call { crate_name, module, name, .. } = c;
    let first = format!(
        "-- `{crate_name}::{module}::{name}` meets its contract: a walk of its code. \
         Written by tools/walks. Assumes nothing.\n"
    );
    let parts = [contracts(c), frame::walked(c), walks(c), meets(c), spec(c)];
    tidy(&format!("{first}{}\n{}\n", uses(c), parts.join("\n\n")))
}

/// The clauses that a proof has for each parameter. They depend on the parameter's kind.
enum Clause {
    /// What is owned of the parameter at exit.
    Stays,
    /// The law from what is owned of it at exit to what the contract says about its last value.
    Goes,
    /// Its values in MIR.
    Spells,
    /// The law that its type relates it to these values.
    Tells,
}

/// One clause for all parameters.
fn clauses(c: &Call, clause: Clause) -> String {
    let refs = c.refs().len();
    nest(&c.params, |p| match clause {
        Clause::Stays => stays(p),
        Clause::Goes => goes(p, refs),
        Clause::Spells => p.vals(),
        Clause::Tells => tells(p),
    })
}

fn stays(p: &Param) -> String {
    let (lifetime, row, noun) = (p.lifetime, p.row(), p.noun());
    match p.loan() {
        None => format!("stay-none (λ _. {row}) yes"),
        Some(Loan::Mut) => format!("gave-{noun} ({lifetime} ∷ []) tt (plain (λ _. {row}))"),
        Some(Loan::Shared) => format!("stay-none-{noun} ({lifetime} ∷ []) tt (plain (λ _. {row})) yes"),
    }
}

fn goes(p: &Param, refs: usize) -> String {
    let (lifetime, row, noun) = (p.lifetime, p.row(), p.noun());
    match p.loan() {
        None => format!("goes-none 𝓤 H A W {refs} (λ _. {row}) yes (λ κs x f. refl)"),
        Some(Loan::Mut) => format!("goes-gave-{noun} 𝓤 H A W {refs} {lifetime} tt (plain (λ _. {row}))"),
        Some(Loan::Shared) => {
            format!("goes-none-{noun} 𝓤 H A W {refs} ({lifetime} ∷ []) tt (plain (λ _. {row})) yes")
        }
    }
}

fn tells(p: &Param) -> String {
    let Param { of, named, .. } = p;
    let lent = |law: &str| format!("{law} {named} (κs{}) {}", step(p.lifetime), p.row());
    match p.kind {
        Kind::Struct => format!("LL.tells {of}D.the-type {of}L.the-laws"),
        Kind::Number(number) => number.tells(),
        Kind::Slice(Loan::Mut) => lent("mut-slice-tells"),
        Kind::Slice(Loan::Shared) => lent("shr-slice-tells"),
        Kind::Array(Loan::Mut) => lent("mut-tells"),
        Kind::Array(Loan::Shared) => lent("shr-tells"),
    }
}

/// What is owned of the parameters at exit, and the contracts of the functions that it calls, but for load, store and put_seat.
fn contracts(c: &Call) -> String {
    let contract = |name: &str, of: &str| {
        let value = format!("tripleOf 𝓤 H A {of}.signature ({of}.spec 𝓤 H A at-mem run)");
        abbrev(&format!("{name} 𝓤 H A at-mem run"), &format!("{LOGIC} {RUN} → Contract 𝓤"), &value)
    };
    let kind = "Stays (outer.ended .signature .params) (outer.ended .kept)";
    let stayed = abbrev("stayed", kind, &clauses(c, Clause::Stays));
    let mut parts = vec![stayed, contract("Core", "core"), contract("Refused", "refuser")];
    if c.early.is_some() {
        parts.extend([contract("Tested", "tester"), contract("Early", "answerer")]);
    }
    parts.join("\n\n")
}

/// The triples of the callees in a table.
fn triples(c: &Call, table: &str) -> String {
    joined(&callees(c), " → ", |(alias, _)| {
        format!("Triple 𝓤 ({table} #{alias}) ({} 𝓤 H A at-mem run)", capital(alias))
    })
}

/// The names of these triples.
fn known(c: &Call) -> String {
    spaced(&callees(c), |(alias, _)| format!("known-{alias}"))
}

/// From the walk to the function's code.
fn walks(c: &Call) -> String {
    let (triples, known, code) = (triples(c, "C"), known(c), "(WpFn 𝓤 H C Λ code.function)");
    let lifetimes = spaced(&c.refs(), |p| format!("(κs{i}) (qs{i})", i = step(p.lifetime)));
    let mut lines = vec![
        format!("module _ {LOGIC} (W : Given 𝓤 H A) {RUN} where"),
        format!(
            "  walks : (C : Calls 𝓤 H) (Λ : Loops 𝓤 H) → FmC 𝓤 H (W .laws) C → {triples} \
             → Walks 𝓤 H A {OUTER} {code} {CLAUSES}"
        ),
        format!("  walks C Λ fm {known} = walked 𝓤 H A {OUTER} {CLAUSES} {code}"),
        format!("      (λ κs. {})", clauses(c, Clause::Spells)),
        format!("      (λ κs. {})", clauses(c, Clause::Tells)),
        "      (λ κs qs bounds a g are. via 𝓤 _ (fst∗ 𝓤 _ (emp 𝓤)) (walk 𝓤 H A W at-mem run".to_string(),
        format!("      {lifetimes}"),
    ];
    lines.extend(c.params.iter().map(|p| format!("      {}", taken(p))));
    lines.push(format!("      C Λ fm {known}))"));
    lines.join("\n")
}

/// The parts of one parameter, taken from the tuple of all parameters.
fn taken(p: &Param) -> String {
    let (a, are) = (format!("a{}", step(p.index)), format!("are{}", step(p.index)));
    let lent = format!("({a} .ptr .0) ({a} .ptr .1) ({a} .name) ({a} .now)");
    match p.kind {
        Kind::Struct | Kind::Number(_) => format!("({a}) ({are})"),
        Kind::Slice(_) => format!("{lent} ({are} .0 .1)"),
        Kind::Array(_) => lent,
    }
}

/// The function meets its contract with any tables.
fn meets(c: &Call) -> String {
    let (triples, known, goes) = (triples(c, "𝓣 .C"), known(c), clauses(c, Clause::Goes));
    let code = "(WpFn 𝓤 H (𝓣 .C) (𝓣 .Λ) code.function)";
    [
        format!("meets : {LOGIC} → Given 𝓤 H A → {RUN} (𝓣 : Tables 𝓤 H) → {triples}"),
        format!("    → Meets 𝓤 H A outer.signature {code} (outer.spec 𝓤 H A at-mem run)"),
        format!("meets 𝓤 H A W at-mem run 𝓣 {known} ="),
        format!("    walk-meets 𝓤 H A {OUTER} W {goes} {CLAUSES}"),
        format!(
            "    {code} (WpFn-mono 𝓤 H (W .laws) 𝓣 code.function) \
             (walks 𝓤 H A W at-mem run (𝓣 .C) (𝓣 .Λ) (fmOf 𝓤 H (W .laws) 𝓣) {known})"
        ),
    ]
    .join("\n")
}

/// The function's theorem.
fn spec(c: &Call) -> String {
    let name = dash(&c.name);
    let tables = "tables 𝓤 H 𝓜 𝓡 code.env";
    let run = "(𝓜 .mem) (𝓡 .run)";
    let cites = joined(&callees(c), "\n    ", |(alias, function)| cites(c, alias, function));
    [
        format!("pub {name}-spec : {{M : Type 1}} → stated.statement M"),
        "unfolding code.routine tablesOf".to_string(),
        format!("{name}-spec 𝓤 H 𝓜 𝓖 𝓡 ="),
        format!("    entered 𝓤 H (tripleOf 𝓤 H (𝓖 .A) outer.signature (outer.spec 𝓤 H (𝓖 .A) {run}))"),
        format!("    ({tables} .C) ({tables} .Λ) #self code.function (code.unfolded 𝓤 H 𝓜 𝓡)"),
        format!("    (meets 𝓤 H (𝓖 .A) (givenOf 𝓤 H 𝓜 𝓖) {run} (tablesOf 𝓤 H 𝓜 ({tables}))"),
        format!("    {cites})"),
    ]
    .join("\n")
}

/// A callee's theorem, in the form in which it is cited.
fn cites(c: &Call, alias: &str, function: &str) -> String {
    let Call { crate_name, module, .. } = c;
    let contract = format!("({} 𝓤 H (𝓖 .A) (𝓜 .mem) (𝓡 .run))", capital(alias));
    let called = format!("code.calls-{crate_name}·{module}·{}", dash(function));
    format!(
        "(cited 𝓤 H {contract} 𝓜 𝓡 code.env #{alias} {alias}-def.routine {called} \
         ({alias}-thm.met 𝓤 H 𝓜 𝓖 𝓡))"
    )
}
