//! Runs the lint on small repositories, each made for one test, and compares all that it prints and its exit status.

use std::path::PathBuf;
use std::process::Command;
use std::sync::atomic::{AtomicUsize, Ordering};
use std::{env, fs, process};

/// A repository in a temporary folder, which is removed with it.
struct Repo(PathBuf);

impl Repo {
    /// A repository of these files, each a path and its text.
    fn new(files: &[(&str, &str)]) -> Repo {
        static MADE: AtomicUsize = AtomicUsize::new(0);
        let number = MADE.fetch_add(1, Ordering::Relaxed);
        let repo = Repo(env::temp_dir().join(format!("lint-test-{}-{number}", process::id())));
        fs::create_dir_all(repo.0.join("crates")).expect("a folder is made");
        for (path, text) in files {
            let path = repo.0.join(path);
            fs::create_dir_all(path.parent().expect("a file has a folder")).expect("a folder is made");
            fs::write(path, text).expect("a file is written");
        }
        repo
    }

    /// Runs the lint on the repository. Returns its status, what it prints, and what it prints as errors.
    fn lint(&self, words: &[&str]) -> (i32, String, String) {
        run(Command::new(env!("CARGO_BIN_EXE_lint")).arg(&self.0).args(words))
    }
}

impl Drop for Repo {
    fn drop(&mut self) {
        let _ = fs::remove_dir_all(&self.0);
    }
}

fn run(command: &mut Command) -> (i32, String, String) {
    let done = command.output().expect("the lint runs");
    let text = |bytes| String::from_utf8(bytes).expect("the lint prints UTF-8");
    (done.status.code().expect("the lint ends by itself"), text(done.stdout), text(done.stderr))
}

/// Asserts that the lint finds `count` public functions in these files and prints exactly these faults.
#[track_caller]
fn finds_in(files: &[(&str, &str)], count: usize, short: usize, faults: &[&str]) {
    let mut printed: String = faults.iter().map(|fault| format!("{fault}\n")).collect();
    printed += &format!("lint: {count} public functions, {short} fall short\n");
    let status = i32::from(count == 0 || short > 0);
    assert_eq!(Repo::new(files).lint(&[]), (status, printed, String::new()));
}

/// The same for a crate whose whole text is `text`. Each fault is a line number and what follows it.
#[track_caller]
fn finds(text: &str, count: usize, short: usize, faults: &[&str]) {
    let faults: Vec<String> = faults.iter().map(|fault| format!("crates/a/src/lib.rt:{fault}")).collect();
    let faults: Vec<&str> = faults.iter().map(String::as_str).collect();
    finds_in(&[("crates/a/src/lib.rt", text)], count, short, &faults);
}

/// A statement about a function `f` that promises the predicate `P`, and its proof.
const STATED: [(&str, &str); 2] = [
    ("crates/a/specs/Unique.antt", "pub record OneOutcome : Type 0 where\n  pub f : Once P\n"),
    ("crates/a/proofs/Unique.antt", "pub one : OneOutcome\none = record { f = p }\n"),
];

/// Like `finds`, for a crate that also has this statement.
#[track_caller]
fn finds_stated(text: &str, count: usize, short: usize, faults: &[&str]) {
    let faults: Vec<String> = faults.iter().map(|fault| format!("crates/a/src/lib.rt:{fault}")).collect();
    let faults: Vec<&str> = faults.iter().map(String::as_str).collect();
    finds_in(&[("crates/a/src/lib.rt", text), STATED[0], STATED[1]], count, short, &faults);
}

/// Asserts that another crate can reach exactly these functions of the crate. None of them may have a contract.
#[track_caller]
fn reaches(text: &str, names: &[&str]) {
    let (_, printed, errors) = Repo::new(&[("crates/a/src/lib.rt", text)]).lint(&[]);
    assert_eq!(errors, "");
    let found: Vec<&str> = printed.lines().filter_map(|line| line.strip_suffix(": has no `ensures`")).collect();
    let found: Vec<&str> = found.iter().filter_map(|line| line.split(": ").nth(1)).collect();
    assert_eq!(found, names);
    let last = format!("lint: {} public functions, {} fall short", names.len(), names.len());
    assert_eq!(printed.lines().last(), Some(last.as_str()));
}

/// Asserts that the lint refuses these files with this error.
#[track_caller]
fn refuses(files: &[(&str, &str)], error: &str) {
    assert_eq!(Repo::new(files).lint(&[]), (2, String::new(), format!("lint: {error}\n")));
}

// What a contract lacks.

#[test]
fn function_in_order_passes() {
    finds("#![tactic(auto)]\n\npub fn f(n: u8) -> u8\n    ensures { result ≡ n }\n{\n    n\n}\n", 1, 0, &[]);
    finds(
        "#[unsafe(no_mangle)]\npub extern \"C\" fn f(out: &mut [u8])\n    ensures all { out.new ≡ [] }\n{}\n",
        1,
        0,
        &[],
    );
}

#[test]
fn requires_is_a_fault() {
    let ensures = "ensures { result ≡ n }";
    let fault = ["1: f: has a `requires`"];
    for requires in ["requires { n < 9 }", "requires small { n < 9 }", "requires* { a }", "requires* small { a }"] {
        finds(&format!("pub fn f(n: u8) -> u8 {requires} {ensures} {{ n }}"), 1, 1, &fault);
    }
    finds(&format!("pub fn f(n: u8) -> u8 {ensures} requires one {{ a }} requires two {{ b }} {{ n }}"), 1, 1, &fault);
    let both = [fault[0], "1: f: its promise is neither an equation nor one predicate"];
    finds(&format!("pub fn f(n: u8) -> u8 ghost g: {{ ℕ }} {ensures} requires {{ g < 9 }} {{ n }}"), 1, 1, &both);
}

#[test]
fn promise_of_a_ghost_value_is_a_fault() {
    let fault = ["1: f: its promise is neither an equation nor one predicate"];
    for promise in ["result ≡ n", "result ≡ g", "P g result"] {
        let text = format!("pub fn f(n: u8) -> u8 ghost g: {{ ℕ }} ensures {{ {promise} }} {{ n }}");
        finds(&text, 1, 1, &fault);
    }
}

#[test]
fn no_ensures_is_a_fault() {
    finds("\n\npub fn f(n: u8) -> u8 {\n    n\n}\n", 1, 1, &["3: f: has no `ensures`"]);
    finds("pub fn f() ghost g: { ℕ } {}", 1, 1, &["1: f: has no `ensures`"]);
    let both = ["1: f: has a `requires`", "1: f: has no `ensures`"];
    finds("pub fn f(n: u8) requires { n < 9 } {}", 1, 1, &both);
}

#[test]
fn lent_memory_without_its_exit_is_a_fault() {
    let fault = ["1: f: `out` is lent by `&mut`, and no `ensures` names `out.new`"];
    for parameter in ["out: &mut [u8]", "out: &'a mut [u8; 3]", "mut out: & mut u8", "out: (&mut u8)"] {
        let text = |clauses: &str| format!("pub fn f<'a>(n: u8, {parameter}) {clauses} {{}}");
        finds_stated(&text("ensures { P out.old }"), 1, 1, &fault);
        finds_stated(&text("ensures { P out.new }"), 1, 0, &[]);
        finds(&text("ensures same { n ≡ n } ensures named { out.new ≡ n }"), 1, 0, &[]);
    }
    finds("pub fn f(out: &mut u8) {}", 1, 1, &["1: f: has no `ensures`", fault[0]]);
    let only_requires = "pub fn f(out: &mut u8) requires { out.new } ensures { P a } {}";
    finds_stated(only_requires, 1, 1, &["1: f: has a `requires`", fault[0]]);
}

#[test]
fn shared_and_held_references_are_no_fault() {
    let text = "pub fn f<'a>(s: &'a [u8], t: &[&mut u8], w: Both<'a, 'a>, n: u8) ensures { result ≡ tt } {}";
    finds(text, 1, 0, &[]);
}

#[test]
fn each_of_two_lent_parameters_counts() {
    let text =
        |claim: &str| format!("pub fn f<'a>(one: &mut [u8], k: Both<'a, 'a>, two: &mut u8) ensures {{ {claim} }} {{}}");
    let fault = |name: &str| format!("1: f: `{name}` is lent by `&mut`, and no `ensures` names `{name}.new`");
    finds_stated(&text("P one.new"), 1, 1, &[&fault("two")]);
    finds_stated(&text("P two.new"), 1, 1, &[&fault("one")]);
    finds_stated(&text("P 1"), 1, 1, &[&fault("one"), &fault("two")]);
    finds_stated(&text("P one.new two.new"), 1, 0, &[]);
}

#[test]
fn exit_is_spelled_in_several_ways() {
    let text = |claim: &str| format!("pub fn f(in_: u8, out: &mut u8) ensures {{ P {claim} }} {{}}");
    for claim in ["out.new", "«out».new", "(f out.new)", "out.new.0"] {
        finds_stated(&text(claim), 1, 0, &[]);
    }
    let fault = ["1: f: `out` is lent by `&mut`, and no `ensures` names `out.new`"];
    for claim in [
        "my-out.new",
        "outer.new",
        "x.out.new",
        "out.news",
        "out new",
        "out.exit",
        "a -- out.new\n",
        "a {- out.new -}",
        "a \"out.new\"",
        "a ⟦out.new⟧.old",
    ] {
        finds_stated(&text(claim), 1, 1, &fault);
    }
}

#[test]
fn result_without_its_name_is_a_fault() {
    let text = |clause: &str| format!("pub fn f(n: u8) -> u8 ensures {{ {clause} }} {{ n }}");
    let fault = ["1: f: gives a value back, and no `ensures` names it"];
    for clause in ["P n", "P results", "P n.result", "P n -- result\n"] {
        finds_stated(&text(clause), 1, 1, &fault);
    }
    finds_stated(&text("P result.0"), 1, 0, &[]);
    finds_stated("pub fn f(n: u8) ensures { P n } {}", 1, 0, &[]);
}

// No second outcome.

#[test]
fn plain_equation_needs_no_statement() {
    for claim in [
        "n",
        "f (g ≡ h) n",
        "sum (λ x. n) + 1",
        "record { a = 1; b = (c × d) }",
        "clock.got s.now at",
        "[]",
        "if b then n else 0",
    ] {
        finds(&format!("pub fn f(n: u8) -> u8 ensures {{\n    result ≡\n {claim} }} {{ n }}"), 1, 0, &[]);
    }
    let lent = |claim: &str| format!("pub fn f(out: &mut [u8]) ensures {{ {claim} }} {{}}");
    finds(&lent("out.new ≡ set out.old 1"), 1, 0, &[]);
    finds(&lent("«out».new ≡ []"), 1, 0, &[]);
}

#[test]
fn predicate_with_its_statement_passes() {
    for claim in [
        "P result",
        "P {A = ℕ} (n ≡ n) result",
        "P [] result.answer _",
        "M.P n result",
        "L.M.P n result",
        "P «record» n result",
    ] {
        finds_stated(&format!("pub fn f(n: u8) -> u8 ensures {{\n {claim}\n }} {{ n }}"), 1, 0, &[]);
    }
}

#[test]
fn promise_of_another_form_is_a_fault() {
    let fault = ["1: f: its promise is neither an equation nor one predicate"];
    for clause in [
        "told result ≡ n",
        "(result ≡ n)",
        "n ≡ result",
        "result ≡ n × P result",
        "(result.a ≡ n) × (result.b ≡ n)",
        "P result × P n",
        "P result ≡ Q result",
        "result ≡ n ≡ n",
        "result ≡ n ≢ n",
        "result ≡ n → P result",
        "result ≡ n ⊎ P result",
        "result ≡ n ↔ P result",
        "(x : ℕ) → P x result",
        "¬ P result",
        "result ≤ n",
        "n < result",
        "result.good n",
        "n.good result",
        "(P) result",
        "\"P\" result",
        "P result ∧ P n",
        "λ r. ⌜ r ≡ result ⌝",
        "⌜ P result ⌝",
        "let v = n in result ≡ v",
        "let v = n in P v result",
        "if b then P result else P n",
        "result",
        "(result)",
        "result ≡",
        "result ≡ result",
        "result ≡ f (result)",
    ] {
        finds(&format!("pub fn f(n: u8) -> u8 ensures {{ {clause} }} {{ n }}"), 1, 1, &fault);
    }
    finds("pub fn f() ensures { a } {}", 1, 1, &fault);
    finds("pub fn f() ensures { _ ≡ tt } {}", 1, 1, &fault);
    finds("pub fn f() ensures { P } {}", 1, 1, &fault);
}

#[test]
fn promise_with_a_star_is_a_fault() {
    let fault = ["1: f: its promise is neither an equation nor one predicate"];
    for clause in [
        "ensures* { ⌜ P result ⌝ ∗ ⌜ P n ⌝ }",
        "ensures* { do v ← ⟦n⟧.old; ⌜ result ≡ v ⌝ }",
        "ensures* all { result ≡ n }",
        "ensures* { P result }",
    ] {
        finds(&format!("pub fn f(n: u8) -> u8 {clause} {{ n }}"), 1, 1, &fault);
    }
    let two = "pub fn f(n: u8) -> u8 ensures* lent { P n } ensures same { result ≡ n } { n }";
    finds(two, 1, 0, &[]);
}

#[test]
fn equation_that_leaves_out_lent_memory_is_a_fault() {
    let fault = ["1: f: its promise is neither an equation nor one predicate"];
    for (parameters, clause) in [
        ("out: &mut u8", "out.new ≡ out.new"),
        ("out: &mut u8", "out.new ≡ f out.exit.now"),
        ("out: &mut u8", "out.new ≡ 1 × P 1"),
        ("out: &mut u8", "out.new.0 ≡ 1"),
        ("one: &mut u8, two: &mut u8", "one.new ≡ two.new"),
    ] {
        finds(&format!("pub fn f({parameters}) ensures {{ {clause} }} {{}}"), 1, 1, &fault);
    }
    let unnamed = "1: f: `out` is lent by `&mut`, and no `ensures` names `out.new`";
    finds("pub fn f(out: &mut u8) ensures { out.exit ≡ 1 } {}", 1, 1, &[unnamed, fault[0]]);
    let gives = |clause: &str| format!("pub fn f(out: &mut u8) -> u8 ensures {{ {clause} }} {{ 1 }}");
    finds(&gives("result ≡ out.new"), 1, 1, &fault);
    let unnamed = "1: f: gives a value back, and no `ensures` names it";
    finds(&gives("out.new ≡ 1"), 1, 1, &[unnamed, fault[0]]);
}

#[test]
fn one_of_several_promises_is_enough() {
    let text = |clauses: &str| format!("pub fn f(n: u8) -> u8 {clauses} {{ n }}");
    let [equation, odd] = ["ensures same { result ≡ n }", "ensures low { result ≤ n }"];
    let [p, q] = ["ensures p { P result }", "ensures q { Q result }"];
    finds(&text(&format!("{odd} {p} {equation}")), 1, 0, &[]);
    finds(&text(&format!("{equation} {p} {odd}")), 1, 0, &[]);
    finds_stated(&text(&format!("{odd} {p} {odd} {q}")), 1, 0, &[]);
    finds_stated(&text(&format!("{q} {p}")), 1, 1, &["1: f: its statement f does not say Once of Q"]);
    finds(&text(&format!("{odd} {odd}")), 1, 1, &["1: f: its promise is neither an equation nor one predicate"]);
}

/// A crate whose function `some_call` promises the predicate `P`.
const PREDICATE: (&str, &str) =
    ("crates/a/src/lib.rt", "pub fn some_call(n: u8) -> u8\n    ensures { P n result }\n{\n    n\n}\n");

/// A proof of its statements.
const PROOF: (&str, &str) = ("crates/a/proofs/deep/Laws.antt", "-- A law.\npub one : OneOutcome\none = x\n");

/// Asserts what the lint prints about that crate with this specs/Unique.antt.
#[track_caller]
fn says_of(unique: &str, faults: &[&str]) {
    let files = [PREDICATE, PROOF, ("crates/a/specs/Unique.antt", unique)];
    let faults: Vec<String> = faults.iter().map(|fault| format!("crates/a/src/lib.rt:1: some_call: {fault}")).collect();
    let faults: Vec<&str> = faults.iter().map(String::as_str).collect();
    finds_in(&files, 1, faults.len(), &faults);
}

/// A statement in a record over several lines, with comments and other lines around it.
const AMONG_OTHERS: &str = "-- All.
use a.{b}

pub record OneOutcome (n : ℕ)
    : Type 0 where
  -- of it
  pub some_call : Once (λ r. P n r)

pub x : ℕ
";

#[test]
fn statement_is_read() {
    for unique in [
        "pub record OneOutcome : Type 0 where\n  pub some_call : (n : ℕ) → Once (P n)\n",
        "pub record OneOutcome : Type 0 where\n  pub some_call :\n    (n : ℕ)\n    → Once\n      (P n)\n",
        "pub record OneOutcome : Type 0 where\n  pub «some_call» : Once (P n)\n",
        AMONG_OTHERS,
    ] {
        says_of(unique, &[]);
    }
}

#[test]
fn predicate_without_a_statement_is_a_fault() {
    let fault = ["no statement that no second outcome meets its promise (some_call in specs/Unique.antt)"];
    let place = "crates/a/src/lib.rt:1: some_call:";
    finds_in(&[PREDICATE], 1, 1, &[&format!("{place} {}", fault[0])]);
    for unique in [
        "",
        "pub record OneOutcome : Type 0 where\n",
        "pub record OneOutcomes : Type 0 where\n  pub some_call : Once (P n)\n",
        "record OneOutcome : Type 0 where\n  pub some_call : Once (P n)\n",
        "pub record OneOutcome : Type 0 where\n  -- pub some_call : Once (P n)\n",
        "pub record OneOutcome : Type 0 where\n{-\n  pub some_call : Once (P n)\n-}\n",
        "pub record OneOutcome : Type 0 where\n\npub record Other : Type 0 where\n  pub some_call : Once (P n)\n",
    ] {
        says_of(unique, &fault);
    }
}

#[test]
fn statement_that_says_too_little_is_a_fault() {
    for said in
        ["(n : ℕ) → P n", "Once (Q n)", "Once_more (P n)", "Once (P' n)", "Once n -- P", "Once \"P\"", "\n  -- Once P"]
    {
        let unique = format!("pub record OneOutcome : Type 0 where\n  pub some_call : {said}\n");
        says_of(&unique, &["its statement some_call does not say Once of P"]);
    }
}

/// Asserts what the lint prints about the files, if all faults are in specs/Unique.antt.
#[track_caller]
fn finds_unique(files: &[(&str, &str)], count: usize, faults: &[&str]) {
    let mut printed: String = faults.iter().map(|fault| format!("crates/a/specs/Unique.antt{fault}\n")).collect();
    let found = faults.len();
    printed += &format!("lint: {count} public functions, 0 fall short; faults in specs/Unique.antt: {found}\n");
    assert_eq!(Repo::new(files).lint(&[]), (1, printed, String::new()));
}

#[test]
fn stale_statement_is_a_fault() {
    let text = "pub fn f() -> u8 ensures { P result } {}\npub fn g() -> u8 ensures { result ≡ 1 } {}\n\
        fn h() -> u8 ensures { P result } {}\n";
    let unique = "pub record OneOutcome : Type 0 where\n  pub gone : Once Q\n  pub f : Once P\n  pub g : Once P\n  \
        pub h :\n    Once P\n  f : Once P\n";
    let fault = |at: &str| format!(":{at}: no public function of this name promises a predicate");
    let faults = [fault("2: gone"), fault("4: g"), fault("5: h"), fault("7: f : Once P")];
    let faults: Vec<&str> = faults.iter().map(String::as_str).collect();
    let files = [("crates/a/src/lib.rt", text), ("crates/a/specs/Unique.antt", unique), STATED[1]];
    finds_unique(&files, 2, &faults);
}

#[test]
fn statements_without_a_proof_are_a_fault() {
    let text = ("crates/a/src/lib.rt", "pub fn f() -> u8 ensures { P result } {}\n");
    let fault = [": no file of proofs has a line `pub NAME : OneOutcome`"];
    finds_unique(&[text, STATED[0]], 1, &fault);
    for proof in [
        "one : OneOutcome\none = x\n",
        "-- pub one : OneOutcome\n",
        "{-\npub one : OneOutcome\n-}\n",
        "module _ (p : P) where\n  pub one : OneOutcome\n",
        "pub one : OneOutcomes\n",
        "pub one : OneOutcome → ⊥\n",
        "pub one : Other\n",
    ] {
        finds_unique(&[text, STATED[0], ("crates/a/proofs/Unique.antt", proof)], 1, &fault);
    }
    let elsewhere = [
        ("crates/a/proofs/notes.txt", STATED[1].1),
        ("crates/a/specs/Other.antt", STATED[1].1),
        ("crates/b/proofs/Unique.antt", STATED[1].1),
    ];
    finds_unique(&[text, STATED[0], elsewhere[0], elsewhere[1], elsewhere[2]], 1, &fault);
    finds_in(&[text, STATED[0], STATED[1]], 1, 0, &[]);
}

#[test]
fn functions_of_one_name_share_a_statement() {
    let text = "pub mod one { pub fn f() -> u8 ensures { P result } {} }\n\
        pub struct S; impl S { pub fn f() -> u8 ensures { Q result } {} }\n";
    finds_stated(text, 2, 1, &["2: S::f: its statement f does not say Once of Q"]);
    let both = ("crates/a/specs/Unique.antt", "pub record OneOutcome : Type 0 where\n  pub f : Once P × Once Q\n");
    finds_in(&[("crates/a/src/lib.rt", text), both, STATED[1]], 2, 0, &[]);
}

#[test]
fn statement_of_another_crate_does_not_count() {
    let text = "pub fn f() -> u8 ensures { P result } {}\n";
    let fault =
        "crates/b/src/lib.rt:1: f: no statement that no second outcome meets its promise (f in specs/Unique.antt)";
    let files = [("crates/a/src/lib.rt", text), STATED[0], STATED[1], ("crates/b/src/lib.rt", text)];
    finds_in(&files, 2, 1, &[fault]);
}

#[test]
fn library_for_tests_needs_no_statement() {
    let text = ("crates/a/src/lib.rt", "pub fn f(n: u8) -> u8 ensures { result ≤ n } {}\n");
    let stale = ("crates/a/specs/Unique.antt", "pub record OneOutcome : Type 0 where\n  pub gone : Once Q\n");
    let repo = Repo::new(&[text, stale, ("crates.txt", "a:\n")]);
    let passed = (0, "lint: 1 public functions, 0 fall short\n".to_string(), String::new());
    assert_eq!(repo.lint(&["--tests", "a"]), passed);
    assert_eq!(repo.lint(&[]).0, 1);
}

// What another crate can reach.

#[test]
fn private_function_is_not_reached() {
    let hidden = "fn f() {} pub(crate) fn g() {} pub(super) fn h() {} pub(in crate::a) fn i() {}";
    reaches(hidden, &[]);
    reaches(&format!("{hidden} pub fn j() {{}} pub const fn k() {{}}"), &["j", "k"]);
}

#[test]
fn function_of_a_private_module_is_not_reached() {
    reaches("mod inner { pub fn f() {} }", &[]);
    reaches("pub(crate) mod inner { pub fn f() {} }", &[]);
    reaches("mod inner { pub mod deep { pub fn f() {} } }", &[]);
    reaches("mod inner { pub fn f() {} } use inner::f; pub(crate) use inner::f as g;", &[]);
    reaches("mod inner { pub fn f() {} } mod other { pub use crate::inner::f; }", &[]);
}

#[test]
fn function_of_a_public_module_is_reached() {
    reaches("pub mod inner { pub fn f() {} fn g() {} pub(crate) fn h() {} }", &["f"]);
    reaches("pub mod inner { pub mod deep { pub fn f() {} } mod dark { pub fn g() {} } }", &["f"]);
}

#[test]
fn function_that_is_passed_on_is_reached() {
    let inner = "mod inner { pub fn f() {} pub fn g() {} pub mod deep { pub fn h() {} pub fn i() {} } }";
    for (passed_on, names) in [
        ("pub use inner::f;", vec!["f"]),
        ("pub use inner::f as other;", vec!["f"]),
        ("pub use self::inner::f;", vec!["f"]),
        ("pub use crate::inner::f;", vec!["f"]),
        ("pub use inner::{f, deep::i,};", vec!["f", "i"]),
        ("pub use inner::{deep::{self}, g};", vec!["g", "h", "i"]),
        ("pub use inner::{f, deep::{h, i}, g};", vec!["f", "g", "h", "i"]),
        ("pub use inner::{deep::{h,},};", vec!["h"]),
        ("pub use inner::deep;", vec!["h", "i"]),
        ("pub mod shown { pub use super::inner::g; }", vec!["g"]),
        ("pub mod shown { pub mod more { pub use crate::inner::{f, g}; } }", vec!["f", "g"]),
        ("mod middle { pub use crate::inner::deep::h; } pub use middle::h;", vec!["h"]),
        ("use inner::deep; pub use deep::h;", vec!["h"]),
        ("use inner::*; pub use deep::h;", vec!["h"]),
        ("use inner as a; use a::*; use a::deep::*; pub use i as other;", vec!["i"]),
        ("mod one {} mod two {} use one::*; use inner::*; use two::*; pub use deep::h;", vec!["h"]),
        ("pub use elsewhere::f;", vec![]),
    ] {
        reaches(&format!("{inner} {passed_on}"), &names);
        reaches(&format!("{passed_on} {inner}"), &names);
    }
}

#[test]
fn passing_on_reaches_no_other_of_that_name() {
    reaches("mod one { pub fn f() {} } mod two { pub fn f() {} pub fn g() {} } pub use one::f;", &["f"]);
    reaches("pub mod f { pub fn f() {} pub fn g() {} } pub use f::f;", &["f", "g"]);
    reaches("mod f { pub fn f() {} pub fn g() {} } pub use f::f;", &["f"]);
    reaches("fn f() {} pub use f::g;", &[]);
}

#[test]
fn uses_in_a_circle_end() {
    reaches("pub use self::b as a; pub use self::a as b; use self::*; type T = T; impl T { pub fn f() {} }", &["T::f"]);
}

#[test]
fn method_is_reached() {
    reaches(
        "pub struct S { pub k: u8 } impl S { pub fn f(self) {} fn g(self) {} pub(crate) fn h(self) {} }",
        &["S::f"],
    );
    reaches("pub enum E { A } impl E { pub fn f() {} }", &["E::f"]);
    reaches("struct S { k: u8 } impl S { pub fn f(self) {} }", &["S::f"]);
    reaches("pub struct R<'a> { pub s: &'a [u8] } impl<'a> R<'a> { pub fn f(self) {} }", &["R::f"]);
    finds_stated(
        "pub struct S(u8);\nimpl S {\n    pub fn f(&mut self)\n        ensures { P self.old }\n    {}\n}\n",
        1,
        1,
        &["3: S::f: `self` is lent by `&mut`, and no `ensures` names `self.new`"],
    );
}

#[test]
fn method_is_reached_where_its_type_is() {
    let inner = "mod inner { pub struct S { pub k: u8 } impl S { pub fn f(self) {} fn g(self) {} } \
        pub struct Tuple(pub S); pub struct Fields { pub s: S } pub enum Cases { A, B(S) } }";
    reaches(inner, &[]);
    reaches(&format!("{inner} use inner::S;"), &[]);
    for shown in [
        "pub use inner::S;",
        "pub use inner::{S as T};",
        "pub type T = inner::S;",
        "pub use inner::Tuple;",
        "pub use inner::Fields;",
        "pub use inner::Cases;",
    ] {
        reaches(&format!("{inner} {shown}"), &["S::f"]);
    }
    let apart = "mod apart { use crate::inner::S as R; impl R { pub fn g(self) {} } }";
    reaches(&format!("{inner} {apart}"), &[]);
    reaches(&format!("{inner} {apart} pub use inner::S;"), &["R::g", "S::f"]);
}

#[test]
fn method_is_reached_where_a_value_is_handed_out() {
    let inner = "mod inner { pub struct S { pub k: u8 } impl S { pub fn f(self) {} } }";
    reaches(&format!("{inner} fn make() -> inner::S {{ inner::S {{ k: 1 }} }}"), &[]);
    reaches(&format!("{inner} pub fn make() -> inner::S {{ inner::S {{ k: 1 }} }}"), &["S::f", "make"]);
    reaches(&format!("{inner} pub const K: inner::S = inner::S {{ k: 1 }};"), &["S::f"]);
    reaches("mod inner { pub enum E { A } impl E { pub fn f() {} } } pub use inner::E::A;", &["E::f"]);
    reaches("mod inner { impl Unknown { pub fn f(self) {} fn g(self) {} } }", &["Unknown::f"]);
}

// Libraries that are only for tests.

/// Two libraries: `a` is in order, and `t` has faults that a library for tests may have.
const TWO: [(&str, &str); 2] = [
    ("crates/a/src/lib.rt", "pub fn f() ensures { result ≡ 1 } {}"),
    ("crates/t/src/lib.rt", "pub fn read(out: &mut u8) ensures { a } {}\npub fn print() {}\n"),
];

/// Asserts that the lint fails on `TWO`, another file and this crates.txt, and what it prints.
#[track_caller]
fn fails_listed(file: (&str, &str), crates: &str, tests: &str, printed: &str) {
    let repo = Repo::new(&[TWO[0], TWO[1], file, ("crates.txt", crates)]);
    assert_eq!(repo.lint(&["--tests", tests]), (1, printed.to_string(), String::new()));
}

#[test]
fn library_for_tests_needs_no_ensures() {
    let crates = ("crates.txt", "# Crates.\na:\n\nt: a io # and more\np: a t\n");
    let repo = Repo::new(&[TWO[0], TWO[1], crates, ("crates/p/src/main.rt", "fn main() {}")]);
    let passed = (0, "lint: 3 public functions, 0 fall short\n".to_string(), String::new());
    assert_eq!(repo.lint(&["--tests", "t"]), passed);
    let faults = "crates/t/src/lib.rt:1: read: `out` is lent by `&mut`, and no `ensures` names `out.new`\n\
        crates/t/src/lib.rt:1: read: its promise is neither an equation nor one predicate\n\
        crates/t/src/lib.rt:2: print: has no `ensures`\nlint: 3 public functions, 2 fall short\n";
    assert_eq!(repo.lint(&[]), (1, faults.to_string(), String::new()));
    assert_eq!(repo.lint(&["--tests", "a"]).0, 1);
}

#[test]
fn requires_of_a_library_for_tests_is_a_fault() {
    let file = ("crates/u/src/lib.rt", "pub fn f(n: u8) requires { n < 9 } {}\n");
    let printed = "crates/u/src/lib.rt:1: f: has a `requires`\nlint: 4 public functions, 1 fall short\n";
    fails_listed(file, "a:\nt:\nu: t\n", "t,u", printed);
}

#[test]
fn library_that_depends_on_one_for_tests_is_a_fault() {
    let file = ("crates/b/src/lib.rt", "pub fn g() ensures { result ≡ 1 } {}\n");
    let printed = "crates.txt:3: b: depends on `t`, which is for tests alone\n\
        lint: 4 public functions, 0 fall short; faults in crates.txt: 1\n";
    fails_listed(file, "a:\nt:\nb: a t\n", "t", printed);
    fails_listed(file, "a:\nt:\nb staticlib may_wait=4: a t\n", "t", printed);
}

#[test]
fn library_for_tests_that_is_not_listed_is_a_fault() {
    let file = ("crates/p/src/main.rt", "fn main() {}");
    let printed = "crates.txt: t: is named by `--tests`, and not listed\n\
        lint: 3 public functions, 0 fall short; faults in crates.txt: 1\n";
    fails_listed(file, "a:\n#t:\np: a # t\n", "t", printed);
    let printed = "crates.txt: no: is named by `--tests`, and not listed\n\
        crates.txt: : is named by `--tests`, and not listed\n\
        lint: 3 public functions, 0 fall short; faults in crates.txt: 2\n";
    fails_listed(file, "a:\nt:\np: t\n", "t,no,", printed);
}

#[test]
fn program_for_tests_is_a_fault() {
    let file = ("crates/p/src/main.rt", "fn main() {}");
    let printed = "crates.txt:3: p: is named by `--tests`, and not a library\n\
        lint: 3 public functions, 0 fall short; faults in crates.txt: 1\n";
    fails_listed(file, "a:\nt:\np: t\n", "t,p", printed);
}

#[test]
fn list_of_crates_that_cannot_be_read_is_refused() {
    let refused = |repo: Repo, error: &str| {
        assert_eq!(repo.lint(&["--tests", "t"]), (2, String::new(), format!("lint: crates.txt{error}\n")));
    };
    refused(Repo::new(&TWO), ": cannot be read: No such file or directory (os error 2)");
    refused(Repo::new(&[TWO[0], TWO[1], ("crates.txt", "t:\na\n")]), ":2: expected NAME: DEP DEP ..");
    refused(Repo::new(&[TWO[0], TWO[1], ("crates.txt", "t:\n : a\n")]), ":2: expected NAME: DEP DEP ..");
}

// How text is read.

#[test]
fn braces_in_clauses_are_matched() {
    let rest = "{ let s = S { a: 1 }; }\npub fn g() {}\n";
    for claim in [
        "result ≡ record { a = 1 }",
        "result ≡ record { a = record { b = 1 } }",
        "-- a comment }\n a",
        "{- } {- } -} } -} a",
        "result ≡ codes \"}\\\"}\"",
        "result ≡ ⟦<S<b'}'> as Key>⟧.key",
        "do v ← ⟦S { a: b\"}\"[0] }.a⟧.old; ⌜ result ≡ v ⌝",
        "b' ≡ x'",
    ] {
        let lines = claim.matches('\n').count();
        let fault = |lines: usize| format!("{}: g: has no `ensures`", 2 + lines);
        finds(&format!("fn f() -> S ensures {{ {claim} }} {rest}"), 1, 1, &[&fault(lines)]);
        finds(&format!("fn f() -> S ensures first {{ {claim} }} ensures more {{ a }} {rest}"), 1, 1, &[&fault(lines)]);
        finds(&format!("fn f() -> S ensures* {{ {claim} }} {rest}"), 1, 1, &[&fault(lines)]);
        let two = format!("fn f() -> S ghost g: {{ {claim} }} ensures* first {{ {claim} }} {rest}");
        finds(&two, 1, 1, &[&fault(2 * lines)]);
    }
}

#[test]
fn braces_in_comments_and_literals_are_passed_over() {
    for code in [
        "// {\n",
        "// }\n",
        "/* { /* { */ } */",
        "let c = b\"{\";",
        "let c = b\"\\\"{\";",
        "let c = b'{';",
        "let c = b'}';",
        "let c = b'\\'';",
        "let c = b'\"'; let d = b'}';",
        "let c = b'\\\"';",
        "let c = br\"\\\";",
        "let c = br#\"\"}\"#;",
        "'turns: loop { break 'turns; }",
    ] {
        let line = 1 + code.matches('\n').count();
        let fault = format!("{line}: g: has no `ensures`");
        finds(&format!("pub fn f() ensures {{ result ≡ 1 }} {{ {code} }} pub fn g() {{}}"), 2, 1, &[&fault]);
    }
    finds("const C: [u8; 2] = *b\"{;\";\n// pub fn no() {\npub fn g() ensures { result ≡ 1 } {}\n", 1, 0, &[]);
}

#[test]
fn words_in_comments_are_no_clauses() {
    let text =
        "// requires nothing; pub fn no() {}\npub fn f() // requires { a }\n    // ensures {\n    ensures { result ≡ 1 }\n{}\n";
    finds(text, 1, 0, &[]);
    finds("pub fn f() // ensures { result ≡ 1 }\n{}\n", 1, 1, &["1: f: has no `ensures`"]);
    finds("pub fn f() ensures { -- requires { a }\n result ≡ 1 } { let requires_ = b\"requires { a }\"; }", 1, 0, &[]);
}

#[test]
fn all_items_are_read() {
    let text = "#![tactic(auto, using(law))]
ghost use Rattle.std.specs.Prelude.{◌≡◌, -- }\n  refl};
const N: usize = 3;
pub const S0: S = S { a: [0; N] };
#[repr(C)]
#[derive(Clone, Copy)]
pub struct S { pub a: [u8; 3] }
pub struct Held { pub n: u8, pub ghost small: { n < 9 -- }\n }, ghost ok: { n ≡ n } }
pub struct Pair(pub u8, pub [u8; 2]);
pub struct Unit;
pub enum E { A, B(u8), C { d: [u8; 51] } }
type Row = [S; 4];
use other::thing;
pub fn arrays(a: [u8; 51], b: [[u8; 2]; 3]) -> [[u8; 2]; 3] ensures { result ≡ 1 } { [[0; 2]; 3] }
pub fn bounds<'a, 'b>(a: &'a u8) -> &'a u8 where 'b: 'a { a }
extern \"C\" {
    pub fn foreign(to: &[u8; 7]) -> i32;
}
";
    finds(text, 3, 2, &["17: bounds: has no `ensures`", "19: foreign: has no `ensures`"]);
}

#[test]
fn parameters_of_types_are_passed_over() {
    let fault = "1: f: `out` is lent by `&mut`, and no `ensures` names `out.new`";
    for types in [
        "T",
        "'a, T: 'a + Ord",
        "F: Fn(&mut u8) -> u8",
        "F: Fn(Vec<u8>) -> Vec<Vec<u8>>, const N: usize",
        "const N: usize = { 2 > 1 }",
    ] {
        let text = |claim: &str| format!("pub fn f<{types}>(n: T, out: &mut [T]) ensures {{ {claim} }} {{}}");
        finds(&text("out.new ≡ out.old"), 1, 0, &[]);
        finds_stated(&text("P n"), 1, 1, &[fault]);
        reaches(&format!("mod m {{ pub struct S<{types}> {{ n: T }} impl<{types}> S<T> {{ pub fn f() {{}} }} }}"), &[]);
    }
}

// Files, and what is printed.

#[test]
fn modules_are_read_from_their_files() {
    let files = [
        ("crates/b/src/lib.rt", "pub mod x;\nmod y;\npub fn top() {}\n"),
        ("crates/b/src/x.rt", "pub mod deep;\npub fn f() {}\n"),
        ("crates/b/src/x/deep.rt", "// one\npub fn g() {}\n"),
        ("crates/b/src/y.rt", "pub fn h() {}\n"),
        ("crates/a/src/lib.rt", "pub fn first() {}\n"),
    ];
    let faults = [
        "crates/a/src/lib.rt:1: first: has no `ensures`",
        "crates/b/src/lib.rt:3: top: has no `ensures`",
        "crates/b/src/x/deep.rt:2: g: has no `ensures`",
        "crates/b/src/x.rt:2: f: has no `ensures`",
    ];
    finds_in(&files, 4, 4, &faults);
}

#[test]
fn programs_are_skipped_and_nothing_public_is_status_1() {
    finds_in(&[], 0, 0, &[]);
    finds("fn f() {}", 0, 0, &[]);
    finds_in(
        &[("crates/p/src/main.rt", "mod missing; pub fn f() {} fn main() {}"), ("crates/notes.txt", "")],
        0,
        0,
        &[],
    );
}

#[test]
fn list_names_each_public_function() {
    let text = "pub fn f() ensures { result ≡ 1 } {}\npub struct S;\nimpl S { pub fn g() {} }\nfn h() {}\n";
    let printed = "crates/a/src/lib.rt:1: f\ncrates/a/src/lib.rt:3: S::g\n\
        crates/a/src/lib.rt:3: S::g: has no `ensures`\nlint: 2 public functions, 1 fall short\n";
    let repo = Repo::new(&[("crates/a/src/lib.rt", text)]);
    assert_eq!(repo.lint(&["--list"]), (1, printed.to_string(), String::new()));
}

#[test]
fn missing_file_is_refused() {
    let missing = "cannot be read: No such file or directory (os error 2)";
    let error = format!("crates/a/src/x.rt: {missing}");
    refuses(&[("crates/a/src/lib.rt", "mod x;\npub fn f() ensures { result ≡ 1 } {}\n")], &error);
    let files = [("crates/a/src/lib.rt", "pub mod x;"), ("crates/a/src/x.rt", "mod y;"), ("crates/a/src/y.rt", "")];
    refuses(&files, &format!("crates/a/src/x/y.rt: {missing}"));
    let repo = Repo::new(&[]);
    fs::remove_dir(repo.0.join("crates")).expect("the folder is removed");
    let error = format!("lint: {}: {missing}\n", repo.0.join("crates").display());
    assert_eq!(repo.lint(&[]), (2, String::new(), error));
}

#[test]
fn text_that_cannot_be_read_is_refused() {
    for (text, error) in [
        ("\npub union T {}", "2: the lint cannot read an item that begins with `union`"),
        ("pub fn f() {\n", "1: the file ends inside an item"),
        ("pub fn f() ensures { a {}\n", "2: the file ends too early"),
        ("/* a", "1: the file ends too early"),
        ("fn f() {}\n}", "2: the lint cannot read an item that begins with `}`"),
        ("mod m { fn f() {} ", "1: the file ends inside an item"),
        ("mod m fn f() {} ", "1: expected a `{` after this"),
        ("pub fn f<T(a: T) {}", "1: the file ends inside an item"),
        ("impl<T> Show for S<T> { fn f(&self) {}", "1: the file ends inside an item"),
        ("pub trait T { static A: u8 = 1; }", "1: the lint cannot read an item that begins with `static`"),
        ("pub fn f(a: u8", "1: the file ends inside an item"),
        ("const A: u8 = 1)\n;", "1: nothing opens what closes here"),
        ("mod m {}\npub use m::*;", "2: a glob in a `pub use`: name what it passes on"),
        (
            "pub type Out<'a> = &'a mut [u8];",
            "1: a `type` with a `mut` in it would hide a `&mut` parameter: write the type out",
        ),
    ] {
        refuses(&[("crates/a/src/lib.rt", text)], &format!("crates/a/src/lib.rt:{error}"));
    }
}

#[test]
fn functions_of_a_public_trait_are_public() {
    reaches("pub trait T: Copy { const N: u8; type A; fn f(self); fn g(self) {} }", &["T::f", "T::g"]);
    reaches("trait T { fn f(self); } mod m { pub trait U { fn g(self); } }", &[]);
    let text = "pub trait T {\n    ghost p: { ℕ };\n    fn f(self)\n        requires { p ≡ 1 };\n\n    ghost law: { p ≡ 1 };\n}\n";
    finds(text, 1, 1, &["3: T::f: has a `requires`", "3: T::f: has no `ensures`"]);
    finds("pub trait T { fn f(self) -> u8 ensures { result ≡ 1 }; }", 1, 0, &[]);
    let faults = "1: T::f: no statement that no second outcome meets its promise (f in specs/Unique.antt)";
    finds("pub trait T { fn f(self) -> u8 ensures { P result }; }", 1, 1, &[faults]);
}

#[test]
fn an_impl_of_a_trait_of_std_says_what_its_functions_do() {
    let faults =
        |name: &str| format!("1: S::f: is of the trait {name}, and no ghost member of the `impl` says what it does");
    finds("pub struct S; impl From<u8> for S { fn f(a: u8) -> S { S } }", 1, 1, &[&faults("From")]);
    finds("pub struct S; impl<'a> m::Into<u8> for S { fn f(self) -> u8 { 1 } }", 1, 1, &[&faults("Into")]);
    finds(
        "pub struct S; impl From<u8> for S { ghost f_gives = { λ a r. r ≡ g a }; fn f(a: u8) -> S { S } }",
        1,
        0,
        &[],
    );
    finds(
        "pub struct S; impl From<u8> for S { fn f(a: u8) -> S { S } ghost f_gives = { λ a r. r ≡ g a }; }",
        1,
        0,
        &[],
    );
    finds("pub struct S; impl From<u8> for S { fn f(a: u8) -> S ensures { result ≡ g a } { S } }", 1, 0, &[]);
    finds("pub struct S; impl fmt::Display for S { fn f(&self) {} }", 1, 0, &[]);
    finds(
        "pub struct S; impl From<u8> for S { fn f(a: u8) -> S requires { a ≡ 1 } { S } }",
        1,
        1,
        &["1: S::f: has a `requires`", &faults("From")],
    );
    // one member for one impl
    let two = "pub struct S; impl A for S { ghost p = { λ r. r ≡ 1 }; fn g(self) {} } impl B for S { fn f(self) {} }";
    finds(two, 2, 1, &[&faults("B")]);
}

#[test]
fn what_an_impl_of_a_trait_of_std_says_is_an_equation() {
    let fault = "1: S::f: is of the trait From, and no ghost member of the `impl` is an equation of what it gives";
    let says = |text: &str| {
        format!("pub struct S; impl From<u8> for S {{ ghost f_gives = {{ {text} }}; fn f(a: u8) -> S {{ S }} }}")
    };
    for text in ["λ a r. r ≡ g a", "λ a r. r ≡ (g a ≡ b)", "λ r. r ≡ g"] {
        finds(&says(text), 1, 0, &[]);
    }
    for text in [
        "λ a r. Unit {0}",
        "λ a r. r.number ≡ r.number",
        "λ a r. r ≡ r",
        "λ a r. r ≡ g r.number",
        "λ a r. a ≡ g a",
        "λ a r. h r ≡ g a",
        "λ a r. r ≡ g a → r ≡ b",
        "λ a r. P a r",
        "λ a r. r ≢ g a",
        "λ a r. r ≡",
        "f_gives_of",
        "1",
    ] {
        finds(&says(text), 1, 1, &[fault]);
    }
    let weak = "pub struct S; impl From<u8> for S { fn f(a: u8) -> S ensures { P result } { S } }";
    finds(weak, 1, 1, &[fault]);
}

#[test]
fn an_impl_of_a_trait_of_the_repository_has_its_contracts() {
    let b = ("crates/b/src/lib.rt", "pub trait T { fn f(self) -> u8 ensures { result ≡ 1 }; }");
    let a = ("crates/a/src/lib.rt", "use b::T; pub struct S; impl T for S { fn f(self) -> u8 { 1 } }");
    finds_in(&[a, b], 2, 0, &[]);
    let hidden = ("crates/a/src/lib.rt", "mod m { use b::T; struct S; impl T for S { fn f(self) -> u8 { 1 } } }");
    finds_in(&[hidden, b], 1, 0, &[]);
}

#[test]
fn bad_usage_is_refused() {
    let usage = (2, String::new(), "lint: usage: lint ROOT [--list] [--tests NAME,..]\n".to_string());
    let repo = Repo::new(&[("crates/a/src/lib.rt", "pub fn f() ensures { result ≡ 1 } {}")]);
    assert_eq!(run(&mut Command::new(env!("CARGO_BIN_EXE_lint"))), usage);
    assert_eq!(repo.lint(&["--lst"]), usage);
    assert_eq!(repo.lint(&["other"]), usage);
    assert_eq!(repo.lint(&["--tests"]), usage);
    assert_eq!(repo.lint(&["--list"]).0, 0);
}
