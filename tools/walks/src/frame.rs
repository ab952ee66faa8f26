//! The part of a proof about the parameters: what is owned of them at entry and at exit, and the walk between.

use crate::file::{CLAUSES, LOGIC, OUTER, RUN};
use crate::number::U32;
use crate::param::{owned, Kind, Param};
use crate::source::Call;
use crate::steps::{body, exit_steps, refuse_steps};
use crate::text::{abbrev, capital, indented, list, nest, product, spaced};
use crate::uses::callees;

/// What is owned at entry, in the form that the walk takes.
const ENTRY: &str = "(tokens ∷ ‵ (owns rows a vals) ∷ [])";

/// The walk with the parameters bound, and all definitions that it needs.
pub fn walked(c: &Call) -> String {
    let lifetimes = spaced(&c.refs(), |p| format!("({} : Lft) ({} : Share)", p.k, p.q));
    let head = format!("module _ {LOGIC} (W : Given 𝓤 H A) {RUN}\n    {lifetimes}\n    {} where", bound(c));
    let mut parts: Vec<String> = c.params.iter().map(names).collect();
    parts.extend([frame(c), exits(c), refuses(c), handed(c)]);
    if c.early.is_some() {
        parts.extend([refuses_early(c), handed_early(c)]);
    }
    parts.push(walk(c));
    format!("{head}\n{}", indented(&parts.join("\n\n"), "  "))
}

/// The bound variables of the parameters.
fn bound(c: &Call) -> String {
    spaced(&c.params, |p| {
        let Param { b, o, g, v, room, is, .. } = p;
        let (denot, row) = (p.denot(), p.row());
        let lent = format!("({b} {o} : ℕ) ({g} : GName) ({v} : {denot})");
        match p.kind {
            Kind::Struct | Kind::Number(_) => format!("({v} : {denot}) ({is} : Is {row} {v} ({} {v}))", p.vals()),
            Kind::Slice(_) => format!("{lent} ({room} : Room {row} (length {v}))"),
            Kind::Array(_) => lent,
        }
    })
}

/// The names for a parameter's value in MIR and, if it is a reference, for it and for what is owned of it.
fn names(p: &Param) -> String {
    let Param { b, o, g, v, s, x, own, .. } = p;
    let spelled = abbrev(s, "Val", &p.val());
    if !p.is_ref() {
        return spelled;
    }
    let denot = p.denot();
    let reference = format!("record {{ ptr = ({b}, {o}); name = {g}; now = l }}");
    [
        spelled,
        abbrev(&format!("{x} l"), &format!("{denot} → RefT ({denot})"), &reference),
        abbrev(own, "Fml", &format!("{} .own ({x} {v}) ({s} ∷ [])", p.ref_type())),
    ]
    .join("\n\n")
}

/// The type of a parameter, and the parameter.
fn arg_type(p: &Param) -> String {
    if p.is_ref() {
        format!("RefT ({})", p.denot())
    } else {
        p.denot()
    }
}

fn arg(p: &Param) -> String {
    if p.is_ref() {
        format!("{} {}", p.x, p.v)
    } else {
        p.v.clone()
    }
}

/// What is owned at entry and what is required at exit.
fn frame(c: &Call) -> String {
    let refs = c.refs();
    let walk_of = format!("walkOf 𝓤 H A {OUTER} {CLAUSES}");
    let (shares, lifetimes) = (nest(&refs, |p| p.q.clone()), nest(&refs, |p| p.k.clone()));
    let tokens = spaced(&refs, |p| format!("{} ⊛", p.token()));
    let rows = list(&c.params, |p| if p.is_ref() { p.ref_type() } else { p.row() });
    [
        abbrev("Arg", "Type 0", &product(&c.params, arg_type)),
        abbrev("a", "Arg", &nest(&c.params, arg)),
        abbrev("Vals", "Type 0", &product(&c.params, |_| "List Val".to_string())),
        abbrev("vals", "Vals", &nest(&c.params, |p| format!("{} ∷ []", p.s))),
        abbrev("bound", &format!("{walk_of} .Ghost"), &format!("(({lifetimes}, {shares}, tt, a, vals), tt)")),
        abbrev("Post", "Val → SProp 𝓤", &format!("{walk_of} .post bound")),
        abbrev("tokens", "Item 𝓤", &format!("{tokens} ‵ ftrue")),
        abbrev("rows", "List RattleType", &rows),
        abbrev("refusal", &c.result, &format!("refusal-{} {}", c.law(), c.state().v)),
    ]
    .join("\n\n")
}

/// The exit after the call was done.
fn exits(c: &Call) -> String {
    let Call { result, kind, .. } = c;
    let (muts, slices) = (c.muts(), c.mut_slices());
    let values = spaced(&c.params, |p| p.v.clone());
    let (at_exit, lengths) = (spaced(&muts, |p| p.z.clone()), spaced(&slices, |p| p.len.clone()));
    let typed = spaced(&muts, |p| format!("({} : {})", p.z, p.denot()));
    let equal = spaced(&slices, |p| format!("({} : length {} ≡ length {})", p.len, p.z, p.v));
    let had = format!("(tokens ∷ {})", list(&c.refs(), |p| format!("‵ ({})", p.had())));
    let lasts = nest(&c.params, |p| if p.changes() { &p.z } else { "tt" }.to_string());
    let kept = nest(&c.params, |p| if p.changes() && p.is_slice() { &p.len } else { "tt" }.to_string());
    [
        format!(
            "exits : (r : {result}) (v : Val) {typed} {equal} → Is {result}D.the-row r (v ∷ []) \
             → {kind}Lent {values} r {at_exit}"
        ),
        format!("    → ent 𝓤 (⋆ 𝓤 H A {had}) (Post v)"),
        format!("exits r v {at_exit} {lengths} is said ="),
        format!("    qed W {had} ∵"),
        format!(
            "    suffices ! _ (ends-at 𝓤 H A {OUTER} {CLAUSES} W bound v r {lasts} {kept}) \
             $ says ! said $ frame ! $ nothing ! $"
        ),
        format!("    {} frame ! $", exit_steps(c)),
        format!("    {} $ done !", owned(result, "r", "is")),
    ]
    .join("\n")
}

/// A refusal after which nothing is changed.
struct Refusal<'a> {
    name: &'a str,
    /// A number on which it depends, with its type and without.
    number: [&'a str; 2],
    /// The answer.
    says: &'a str,
    /// The facts that it needs, and their names.
    facts: &'a str,
    known: &'a str,
    /// The law of the crate that shows XLent.
    law: &'a str,
}

/// The exit after the call was refused because the row does not have sixteen seats.
fn refuses(c: &Call) -> String {
    let differs = format!("Dec.eqb (length {}) seatCount ≡ false", c.seats().v);
    let passed = c.early.as_ref().map(|_| c.test("0"));
    let refusal = Refusal {
        name: "refuses",
        number: ["", ""],
        says: "refusal",
        known: if passed.is_some() { "t e" } else { "e" },
        facts: &passed.map_or(differs.clone(), |passed| format!("{passed} → {differs}")),
        law: "refused",
    };
    refusal.exit(c)
}

/// The exit after the call was refused because of what the early test found.
fn refuses_early(c: &Call) -> String {
    let refusal = Refusal {
        name: "refuses-early",
        number: ["(n : ℕ)", "n"],
        says: &c.early_refusal("n"),
        facts: &format!("{} → Dec.eqb n 0 ≡ false", c.test("n")),
        known: "t e",
        law: "early",
    };
    refusal.exit(c)
}

impl Refusal<'_> {
    fn exit(&self, c: &Call) -> String {
        let Refusal { name, number: [typed, number], says, facts, known, law } = self;
        let Call { result, kind, .. } = c;
        let (values, unchanged) = (spaced(&c.params, |p| p.v.clone()), spaced(&c.muts(), |p| p.v.clone()));
        let equal = spaced(&c.mut_slices(), |_| "refl".to_string());
        let said = format!("(λ (x : {result}). {kind}Lent {values} x {unchanged})");
        let refused = format!("({law}-{} {values} {number} {known})", c.law());
        [
            format!(
                "{name} : {typed} (r : {result}) (v : Val) → Is {result}D.the-row r (v ∷ []) → r ≡ {says} \
                 → {facts} → ent 𝓤 (⋆ 𝓤 H A {ENTRY}) (Post v)"
            ),
            format!("{name} {number} r v is same {known} ="),
            format!("    qed W {ENTRY} ∵ {}", refuse_steps(c)),
            format!("    by ! (exits r v {unchanged} {equal} is (subst {said} (sym same) {refused}))"),
        ]
        .join("\n")
    }
}

/// The arguments of the refuser and the core.
fn handed(c: &Call) -> String {
    let (state, refs) = ([c.state()], c.core_refs());
    let spelled = |p: &Param| if p.is_seats { format!("rowVal {} ∷ []", p.v) } else { format!("{} ∷ []", p.s) };
    let shares = nest(&refs, |p| p.q.clone());
    let (refused_vals, vals) = (nest(&state, |p| spelled(p)), nest(&c.params, spelled));
    let core_type = product(&c.params, |p| if p.is_seats { p.denot() } else { arg_type(p) });
    let core_args = nest(&c.params, |p| if p.is_seats { p.v.clone() } else { arg(p) });
    [
        abbrev("RefusedArg", "Type 0", &product(&state, |p| p.denot())),
        abbrev("refused-args", "RefusedArg", &nest(&state, |p| p.v.clone())),
        abbrev("to-refused", &ghost("Refused"), &format!("((tt, tt, tt, refused-args, {refused_vals}), tt)")),
        abbrev("κs′", &format!("Lfts {}", refs.len()), &nest(&refs, |p| p.k.clone())),
        abbrev("CoreArg", "Type 0", &core_type),
        abbrev("args", "CoreArg", &core_args),
        abbrev("to-core", &ghost("Core"), &format!("((κs′, {shares}, tt, args, {vals}), tt)")),
    ]
    .join("\n\n")
}

/// The arguments of the tester and of the function that answers after an early test.
fn handed_early(c: &Call) -> String {
    let (tested, refs, state) = (c.tested(), c.tested_refs(), c.state());
    let (lifetimes, shares) = (nest(&refs, |p| p.k.clone()), nest(&refs, |p| p.q.clone()));
    let vals = nest(&tested, |p| format!("{} ∷ []", p.s));
    let early_vals = nest(&[state.s.clone(), U32.val("n")], |val| format!("{val} ∷ []"));
    let number = U32.denot();
    [
        abbrev("TestArg", "Type 0", &product(&tested, |p| arg_type(p))),
        abbrev("test-args", "TestArg", &nest(&tested, |p| arg(p))),
        abbrev("test-κs", &format!("Lfts {}", refs.len()), &lifetimes),
        abbrev("to-tested", &ghost("Tested"), &format!("((test-κs, {shares}, tt, test-args, {vals}), tt)")),
        abbrev("EarlyArg", "Type 0", &product(&[state.denot(), number.to_string()], String::clone)),
        abbrev("early-args n", &format!("{number} → EarlyArg"), &nest(&[&state.v, "n"], |v| v.to_string())),
        abbrev(
            "to-early n",
            &format!("{number} → {}", ghost("Early")),
            &format!("((tt, tt, tt, early-args n, {early_vals}), tt)"),
        ),
    ]
    .join("\n\n")
}

/// The type of what a callee's contract depends on.
fn ghost(contract: &str) -> String {
    format!("{contract} 𝓤 H A at-mem run .Ghost")
}

/// The walk, given what the callees do.
fn walk(c: &Call) -> String {
    let known = spaced(&callees(c), |(alias, _)| {
        format!("(known-{alias} : Triple 𝓤 (C #{alias}) ({} 𝓤 H A at-mem run))", capital(alias))
    });
    let values = list(&c.params, |p| p.s.clone());
    [
        format!("module _ (C : Calls 𝓤 H) (Λ : Loops 𝓤 H) (fm : FmC 𝓤 H (W .laws) C) {known} where"),
        format!("  walk : ent 𝓤 (⋆ 𝓤 H A {ENTRY}) (WpFn 𝓤 H C Λ code.function ({values}) Post)"),
        "  walk =".to_string(),
        format!("      qed W {ENTRY} ∵ enter ! C Λ code.function ({values}) _ $"),
        indented(&body(c), "      "),
    ]
    .join("\n")
}
