//! Mutants of small crates.

use super::*;
use std::collections::{BTreeMap, BTreeSet};
use std::fs;
use std::path::PathBuf;
use std::sync::atomic::{AtomicUsize, Ordering};

/// A folder of crates that is removed at the end of its test.
struct Tree(PathBuf);

impl Tree {
    fn new(files: &[(&str, &str)]) -> Tree {
        static NEXT: AtomicUsize = AtomicUsize::new(0);
        let name = format!("mutants-{}-{}", std::process::id(), NEXT.fetch_add(1, Ordering::Relaxed));
        let tree = Tree(std::env::temp_dir().join(name));
        for (file, text) in files {
            let path = tree.0.join(file);
            fs::create_dir_all(path.parent().expect("a folder")).expect("folders");
            fs::write(path, text).expect("a file");
        }
        tree
    }

    fn all(&self, krate: &str, at: Where) -> Vec<Mutant> {
        all(&self.0.join(krate), krate, at).expect("mutants")
    }
}

impl Drop for Tree {
    fn drop(&mut self) {
        let _ = fs::remove_dir_all(&self.0);
    }
}

/// The changed lines of all mutants of one kind of a file of code, with ` / ` between two lines of one mutant.
fn code(kind: &str, text: &str) -> Vec<String> {
    let tree = Tree::new(&[("a/src/lib.rt", text)]);
    news(kind, &tree.all("a", Where::Code))
}

fn news(kind: &str, mutants: &[Mutant]) -> Vec<String> {
    let of_kind = mutants.iter().filter(|mutant| mutant.kind == kind);
    let lines =
        |m: &Mutant| m.changes.iter().map(|change| change.new.trim().to_string()).collect::<Vec<_>>().join(" / ");
    of_kind.map(lines).collect()
}

/// The changed lines of all mutants of one kind of a function with this line as its body.
fn body(kind: &str, line: &str) -> Vec<String> {
    code(kind, &format!("fn f(a: u32, b: u32, x: u8, y: bool) -> u32\n{{\n    {line}\n}}\n"))
}

/// The changed lines of all mutants of one kind of a file of definitions.
fn definitions(kind: &str, text: &str) -> Vec<String> {
    let tree = Tree::new(&[("a/src/lib.rt", ""), ("a/specs/A.antt", text)]);
    news(kind, &tree.all("a", Where::Definitions))
}

// ---- code

#[test]
fn operators() {
    let pairs = [
        ("<=", "<"),
        ("<", "<="),
        (">", ">="),
        ("==", "!="),
        ("!=", "=="),
        ("+", "-"),
        ("-", "+"),
        ("*", "+"),
        ("/", "%"),
        ("&", "|"),
        ("|", "&"),
        ("<<", ">>"),
        ("&&", "||"),
        ("||", "&&"),
    ];
    for (old, new) in pairs {
        assert_eq!(body("operator", &format!("a {old} b")), [format!("a {new} b")], "{old}");
    }
    assert_eq!(body("operator", "!y"), ["y"]);
    assert_eq!(body("operator", "b += a;"), ["b -= a;"]);
    assert!(body("operator", "g(&a, *b, -a, |c| c)").is_empty());
}

#[test]
fn one_more_and_one_less_are_dropped() {
    assert_eq!(body("operator", "a + 1"), ["a", "a - 1"]);
    assert_eq!(body("operator", "g(a - 1, b)"), ["g(a, b)", "g(a + 1, b)"]);
    assert_eq!(body("constant", "a + 1"), ["a + 2"]);
    assert_eq!(body("constant", "b += 1;"), ["b += 2;"]);
}

#[test]
fn the_smaller_of_two_is_the_same_with_both_signs() {
    assert!(body("operator", "if a < b { a } else { b }").is_empty());
    assert_eq!(body("operator", "if a < b { a } else { 0 }"), ["if a <= b { a } else { 0 }"]);
}

#[test]
fn constants() {
    assert_eq!(body("constant", "7"), ["8", "6"]);
    assert_eq!(body("constant", "0"), ["1"]);
    assert_eq!(body("constant", "a * 10_000u32"), ["a * 10_001u32", "a * 9_999u32"]);
    assert_eq!(
        code("constant", "const A: u64 = 0x3ff_0000;\n").join(" "),
        "const A: u64 = 0x3ff_0001; const A: u64 = 0x3fe_ffff;"
    );
    assert_eq!(code("constant", "const A: [u8; 2] = [255, 3];\n")[0], "const A: [u8; 2] = [254, 3];");
}

#[test]
fn constants_stay_in_their_type() {
    assert_eq!(body("constant", "x == 255"), ["x == 254"]);
    assert_eq!(body("constant", "a == 255"), ["a == 256", "a == 254"]);
    assert_eq!(body("constant", "4_294_967_295"), ["4_294_967_294"]);
}

#[test]
fn a_bound_is_not_moved_where_its_sign_does_the_same() {
    assert_eq!(body("constant", "a < 10"), ["a < 9"]);
    assert_eq!(body("constant", "a <= 10"), ["a <= 11"]);
    assert_eq!(body("constant", "10 < a"), ["11 < a"]);
    assert_eq!(body("constant", "10 <= a"), ["9 <= a"]);
}

#[test]
fn lengths_of_arrays_stay() {
    assert_eq!(body("constant", "g([0; 10], a.1)"), ["g([1; 10], a.1)"]);
    assert_eq!(body("constant", "let t: [u8; 4] = s;"), [""; 0]);
}

#[test]
fn of_a_buffer_only_the_length_counts() {
    let text = "fn f() {\n    let mut t = [0u8; 12];\n    g(&mut t);\n    t[a] = b;\n}\n";
    assert_eq!(code("constant", text), ["let mut t = [0u8; 11];"]);
    let kept = text.replace("t[a] = b;", "g(t);");
    assert_eq!(code("constant", &kept), ["let mut t = [1u8; 12];"]);
}

#[test]
fn letters() {
    assert_eq!(body("letter", "x == b'b'"), ["x == b'c'"]);
    assert_eq!(body("letter", "x == b'&'"), ["x == b'('"]);
    assert_eq!(body("letter", "g(b\"abcde\\n\")"), ["g(b\"bbcde\\n\")", "g(b\"abdde\\n\")", "g(b\"abcdf\\n\")"]);
    assert!(body("letter", "g(b'\\n', b'~', \"plain\")").is_empty());
}

#[test]
fn booleans() {
    assert_eq!(body("boolean", "g(true, false)"), ["g(false, false)", "g(true, true)"]);
}

#[test]
fn arguments_of_the_same_type() {
    let text = "fn g(p: u8, q: u8, r: u32) -> u8 { p }\nfn f(a: u8) -> u8\n{\n    g(a, h(a), 3)\n}\n";
    assert_eq!(code("argument", text), ["g(h(a), a, 3)"]);
    assert!(code("argument", &text.replace("h(a)", "a")).is_empty());
    assert_eq!(code("argument", "fn f() {\n    unknown(a, b);\n    unknown(1, 2);\n}\n"), ["unknown(2, 1);"]);
}

#[test]
fn arguments_of_more_than_one_line() {
    let text = "fn g(p: u8, q: u8) -> u8 { p }\nfn f(a: u8) {\n    g(\n        a,\n        2,\n    );\n}\n";
    assert_eq!(code("argument", text), ["2, / a,"]);
}

#[test]
fn arguments_whose_order_does_not_count() {
    let least = "fn least(p: u8, q: u8) -> u8\n{\n    if p < q { p } else { q }\n}\nfn f(a: u8) { least(a, 3); }\n";
    let equal =
        "fn same(p: S, q: S) -> bool\n{\n    (p.x == q.x) & (p.y == q.y)\n}\nfn f(a: S, b: S) { same(a, b); }\n";
    assert!(code("argument", least).is_empty());
    assert!(code("argument", equal).is_empty());
    assert_eq!(code("argument", &equal.replace("p.y == q.y", "p.y < q.y")).len(), 1);
}

#[test]
fn arguments_of_a_function_of_another_crate() {
    let files = [
        ("a/src/lib.rt", "use b::m::put;\nfn f(x: u8) {\n    put(x, 1, g());\n}\n"),
        ("b/src/m.rt", "pub fn put(at: usize, n: usize, c: u8) -> usize { at }\n"),
    ];
    let tree = Tree::new(&files);
    assert_eq!(news("argument", &tree.all("a", Where::Code)), ["put(1, x, g());"]);
}

#[test]
fn branches() {
    assert_eq!(body("branch", "if a < b {"), ["if !(a < b) {"]);
    assert_eq!(body("branch", "while g(a) {"), ["while !g(a) {"]);
    assert_eq!(body("branch", "if y { a } else { b }"), ["if y { b } else { a }"]);
    for other in ["if a == b {", "if !g(a) {", "if a == b { a } else { b }", "if let Some(c) = a {"] {
        assert!(body("branch", other).is_empty(), "{other}");
    }
}

#[test]
fn arms() {
    let text = "fn f(e: E) -> u8\n{\n    match e {\n        E::A => 1,\n        E::B(_) => g(2),\n        E::C(v) => v,\n        E::D => {\n            4\n        }\n    }\n}\n";
    assert_eq!(code("branch", text), ["E::A => g(2), / E::B(_) => 1,"]);
}

#[test]
fn statements() {
    let text = "fn f(a: u32) -> u32\n{\n    let mut i = 0;\n    i += 1;\n    g(i);\n    if a {\n        return 3;\n    }\n    let b = 1;\n    let b = h(b);\n    if b {\n        return 4;\n    }\n}\n";
    let tree = Tree::new(&[("a/src/lib.rt", text)]);
    let all = tree.all("a", Where::Code);
    let gone: Vec<&str> = all.iter().filter(|m| m.kind == "statement").map(|m| m.changes[0].old.trim()).collect();
    assert_eq!(gone, ["i += 1;", "g(i);", "return 3;", "let b = h(b);"]);
    assert!(all.iter().filter(|m| m.kind == "statement").all(|m| m.changes[0].new.is_empty()));
}

#[test]
fn a_return_that_gives_a_branch_its_value_stays() {
    let text = "fn f(a: bool) -> u32\n{\n    if a {\n        return 3;\n    } else {\n        g();\n    }\n    4\n}\n";
    assert_eq!(code("statement", text).len(), 1);
    let inner =
        "fn f(a: bool) -> u32\n{\n    if a {\n        if b {\n            return 3;\n        }\n    }\n    4\n}\n";
    assert!(code("statement", inner).is_empty());
}

#[test]
fn a_name_of_another_block_or_type_is_not_bound_again() {
    let text =
        "fn f(a: u32) {\n    {\n        let b = 1;\n    }\n    let b = 2;\n    let a = 3u8 as u8;\n    let a = a;\n}\n";
    assert_eq!(code("statement", text), [""]);
}

#[test]
fn fields() {
    let text =
        "struct S { p: u8, q: u8, r: u32 }\nfn f(s: S) {\n    g(s.p, s.q, s.r, s.len());\n    h(s.r as u64);\n}\n";
    let found = code("field", text);
    assert!(found.contains(&"g(s.q, s.q, s.r, s.len());".to_string()));
    assert!(found.contains(&"g(s.p, s.p, s.r, s.len());".to_string()));
    assert!(found.contains(&"h(s.p as u64);".to_string()));
    assert!(found.iter().all(|line| !line.starts_with("g(s.r") && line.contains("s.r, ") == line.starts_with('g')));
}

#[test]
fn fields_of_what_a_call_or_a_pattern_gives() {
    let kinds = "struct S { p: u8, q: u8, r: u32 }\nenum E { A(S), B }\nfn make() -> S { }\n";
    let call = format!("{kinds}fn f() {{\n    let s = make();\n    g(s.p, s.r, s.q);\n}}\n");
    let arm = format!("{kinds}fn f(e: E) {{\n    match e {{\n        E::A(s) => g(s.p, s.r, s.q),\n    }}\n}}\n");
    assert_eq!(code("field", &call), ["g(s.q, s.r, s.q);", "g(s.p, s.r, s.p);"]);
    assert_eq!(code("field", &arm).len(), 2);
}

#[test]
fn variants() {
    let text = "enum E { A, B, C(u8), D }\nfn f(e: E) -> E\n{\n    match e {\n        E::A => E::B,\n        E::C(_) => E::C(1),\n        E::B => g(E::A),\n    }\n}\n";
    assert_eq!(code("variant", text), ["E::A => E::A,", "E::B => g(E::B),"]);
}

#[test]
fn nothing_else_of_the_code_is_touched() {
    let text = "\
// 1 + 2 == true
use a::b1;
ghost use c.{d, ◌+◌};
#[repr(align(8))]
pub struct S {
    pub x: [u8; 3], // 4
}
enum E { A = 1, B(u8) }
/* 5 + 6 */
pub fn f(s: &[u8; 7], n: [u8; 8]) -> [u8; 9]
    requires { ⌜ n < 10 && true ⌝ }
    ensures { λ r. ⌜ r ≡ \"11\" + 12 ⌝
        -- } 13
    }
{
    match g(s) {
        14 | 15 => h, // 16 <= 17
        b'a' => /* 18 */ h,
    }
}
";
    let tree = Tree::new(&[("a/src/lib.rt", text)]);
    let all = tree.all("a", Where::Code);
    assert_eq!(all, []);
}

// ---- definitions

const USES: &str =
    "use N.{ℕ, ◌+◌, ◌-◌, ◌<◌, ◌≤◌}\nuse B.{true, false, cond, ◌&&◌, ◌||◌}\nuse Rattle.std.specs.D.{leb, ltb, eqb, get_or}\n";

fn with_uses(text: &str) -> String {
    format!("{USES}{text}")
}

#[test]
fn constants_of_definitions() {
    assert_eq!(definitions("constant", "f : ℕ\nf = 9\n"), ["f = 10", "f = 8"]);
    assert_eq!(definitions("constant", "f n = g 0 -- 5\n"), ["f n = g 1 -- 5"]);
    assert_eq!(definitions("constant", "f =\n    h\n    7\n"), ["8", "6"]);
}

#[test]
fn letters_of_definitions() {
    let found = definitions("letter", "f = codes \"abcd\\n\"\n");
    let texts = ["bbcd", "abdd", "abce", "abc"].map(|text| format!("f = codes \"{text}\\n\""));
    assert_eq!(found, texts);
}

#[test]
fn operators_only_where_both_can_be_named() {
    let text = "f a b = leb a b && g (a + b)\n";
    let all = ["f a b = ltb a b && g (a + b)", "f a b = leb a b || g (a + b)", "f a b = leb a b && g (a - b)"];
    assert_eq!(definitions("operator", &with_uses(text)), all);
    assert!(definitions("operator", &format!("use D.{{leb}}\nuse B.{{◌&&◌}}\nuse N.{{◌+◌}}\n{text}")).is_empty());
}

#[test]
fn booleans_only_where_both_can_be_named() {
    assert_eq!(definitions("boolean", &with_uses("f = true\n")), ["f = false"]);
    assert!(definitions("boolean", "use B.{true}\nf = true\n").is_empty());
}

#[test]
fn arguments_of_definitions() {
    let text = "g : ℕ → ℕ → List ℕ → ℕ\nf a b c = g a b c\n";
    assert_eq!(definitions("argument", text), ["f a b c = g b a c"]);
    let module = "module _ (p : List ℕ) where\n  g : ℕ → ℕ\n  h n m = g n\nf a b c = g a b c\n";
    assert!(definitions("argument", module).is_empty());
    assert_eq!(definitions("argument", &with_uses("f a = leb a 3 && eqb a 4\n")), ["f a = leb 3 a && eqb a 4"]);
}

#[test]
fn arguments_of_another_file() {
    let files = [
        ("a/src/lib.rt", ""),
        (
            "a/specs/A.antt",
            "use Rattle.b.specs.M.{g as h, k}\nuse Rattle.a.specs.C.{i}\nf a b = h a b ∷ k a b ∷ i a b\n",
        ),
        ("a/specs/C.antt", "i : ℕ → ℕ → ℕ\n"),
        ("b/specs/M.antt", "g : ℕ → ℕ → ℕ\nk : ℕ → Bool → ℕ\n"),
    ];
    let tree = Tree::new(&files);
    let found = news("argument", &tree.all("a", Where::Definitions));
    assert_eq!(found, ["f a b = h b a ∷ k a b ∷ i a b", "f a b = h a b ∷ k a b ∷ i b a"]);
}

#[test]
fn names_that_only_the_statement_binds() {
    let text = "g : ℕ → ℕ → ℕ\nOnce = (a b : ℕ) → g a b ≡ 1\nTwice = (a b : ℕ) → g a b ≡ a\n";
    assert_eq!(definitions("argument", text), ["Twice = (a b : ℕ) → g b a ≡ a"]);
}

#[test]
fn clauses_exchanged() {
    let text = "f zero y = 1\nf (suc x) y = g y\nf n = x\nh (A v) = v\nh B = 0\n";
    assert_eq!(definitions("branch", text), ["f zero y = g y / f (suc x) y = 1"]);
    assert_eq!(definitions("branch", "f a = cond a (g 1) 2\n"), ["f a = cond a 2 (g 1)"]);
}

#[test]
fn nothing_else_of_the_definitions_is_touched() {
    let text = "\
{- f = 1 -}
-- g = 2
pub mod M3
f : {A : Type 0} → Told A → (n : ℕ) → n ≡ 4 → Type 1
pub record R (k : Kind 5) : Type 0 where
  pub a : ℕ → true && x
pub data D : Type 0 where
  c : D → Unit {0}
module _ (n : 6) where
  g l = get_or l n 0
";
    assert_eq!(definitions("constant", &with_uses(text)), [""; 0]);
    let tree = Tree::new(&[("a/src/lib.rt", ""), ("a/specs/A.antt", &with_uses(text))]);
    assert_eq!(tree.all("a", Where::Definitions), []);
}

#[test]
fn numbers_and_letters_of_what_a_record_says() {
    let text = "pub record R : Type 0 where\n  pub a : read \"x\"\n      ≡ 7\n  b : List ℕ\n";
    assert_eq!(definitions("constant", text), ["≡ 8", "≡ 6"]);
    assert_eq!(definitions("letter", text).len(), 2);
}

#[test]
fn a_statement_is_not_made_weaker() {
    let text = with_uses("A = (n : ℕ) → n < 10 → n ≤ 20\nB = 1 ≤ n\n");
    let found = definitions("constant", &text);
    assert_eq!(found, ["A = (n : ℕ) → n < 11 → n ≤ 20", "A = (n : ℕ) → n < 10 → n ≤ 19", "B = 2 ≤ n"]);
    assert_eq!(definitions("operator", &text)[..2], ["A = (n : ℕ) → n ≤ 10 → n ≤ 20", "A = (n : ℕ) → n < 10 → n < 20"]);
    assert!(definitions("operator", &with_uses("C = (n : ℕ) → n ≤ 5 → n < 6\n")).is_empty());
}

// ---- both

fn both(code: &str, definition: &str) -> Vec<String> {
    let tree = Tree::new(&[("a/src/m.rt", code), ("a/specs/M.antt", definition)]);
    let all = tree.all("a", Where::Both);
    [news("constant", &all), news("letter", &all)].concat()
}

#[test]
fn the_same_number_in_both() {
    let code = "const SIZE: usize = 51;\n";
    assert_eq!(both(code, "size = 51\nother = 52\n"), ["const SIZE: usize = 52; / size = 52"]);
    assert!(both("const SET: u64 = 0x33;\n", "set = 51\n").is_empty());
}

#[test]
fn a_small_number_only_beside_the_same_word() {
    let code = "fn f() {\n    g(is_raw(h.mode), 4, wrong)\n}\n";
    assert_eq!(both(code, "f h = unless h.mode 4 x\n").len(), 1);
    assert!(both(code, "f h = unless h.run 4 x\n").is_empty());
    assert!(both(code, "f h = 4 h.mode x\n").is_empty());
}

#[test]
fn the_same_letter_in_both() {
    let letter = "fn f(st: u8) -> bool\n{\n    st == b'R'\n}\n";
    assert_eq!(both(letter, "f = codes \"ER\"\n"), ["st == b'S' / f = codes \"ES\""]);
    assert_eq!(both(letter, "f st = eqb st 82\n"), ["st == b'S' / f st = eqb st 83"]);
    assert!(both(letter, "f b = eqb b 82\n").is_empty());
    assert_eq!(both(&letter.replace("b'R'", "82"), "f = codes \"ER\"\n"), ["st == 83 / f = codes \"ES\""]);
    assert!(both(&letter.replace("== b'R'", "< 82"), "f = codes \"ER\"\n").is_empty());
}

#[test]
fn texts_fit_as_a_whole() {
    let text = "const T: [u8; 3] = *b\"end\";\n";
    assert_eq!(both(text, "t = codes \"end\"\n").len(), 3);
    assert_eq!(both(text, "t = codes \"nd\"\n").len(), 2);
    assert!(both(text, "t = codes \"need\"\n").is_empty());
}

#[test]
fn three_partners_at_most_and_the_nearest_first() {
    let files = [
        ("a/src/reply.rt", "fn f() {\n    g(size, 51);\n}\n"),
        ("a/specs/Other.antt", "a = 51\nb = 51\nc = 51\nsize = 51\n"),
        ("a/specs/Reply.antt", "d = 51\n"),
    ];
    let all = Tree::new(&files).all("a", Where::Both);
    let partners: Vec<&str> = all.iter().map(|mutant| mutant.changes[1].new.as_str()).collect();
    assert_eq!(partners, ["d = 52", "size = 52", "a = 52"]);
}

// ---- all of them

/// A crate with mutants of every kind.
fn full() -> Tree {
    let code = "\
pub struct S {
    pub p: u8,
    pub q: u8,
}
pub enum E {
    A,
    B,
}
const N: usize = 12;
fn g(a: u8, b: u8, y: bool) -> bool
    ensures { result ≡ 12 }
{
    let mut c = true;
    if a < b {
        c = y;
    }
    g(s.p, s.q, c) & (a == b'R') & (g(b, a, c) | (a + 1 < 48))
}
fn h(s: S, e: E) -> E
{
    g(s.p, s.q, true);
    match e {
        E::A => E::B,
        E::B => E::A,
    }
}
";
    let definition = "\
f : ℕ → ℕ → Bool
f zero b = cond (leb 12 b) true false
f (suc a) b = f a b && oneOf (codes \"QR\") b
";
    let definition = with_uses(definition);
    Tree::new(&[("a/src/lib.rt", code), ("a/specs/F.antt", definition.as_str())])
}

#[test]
fn every_old_line_is_real_and_every_new_one_differs() {
    let tree = full();
    for at in [Where::Code, Where::Definitions, Where::Both] {
        let all = tree.all("a", at);
        assert!(!all.is_empty());
        for change in all.iter().flat_map(|mutant| &mutant.changes) {
            let text = fs::read_to_string(tree.0.join("a").join(&change.file)).expect("the file");
            assert_eq!(text.lines().nth(change.line - 1), Some(change.old.as_str()));
            assert_ne!(change.old, change.new);
            assert!(!change.old.contains("ensures") && !change.new.contains('\n'));
        }
    }
}

#[test]
fn every_kind_is_there() {
    let kinds = |at| full().all("a", at).iter().map(|mutant| mutant.kind).collect::<BTreeSet<_>>();
    let code = ["argument", "boolean", "branch", "constant", "field", "letter", "operator", "statement", "variant"];
    assert_eq!(kinds(Where::Code), BTreeSet::from(code));
    assert_eq!(
        kinds(Where::Definitions),
        BTreeSet::from(["argument", "boolean", "branch", "constant", "letter", "operator"])
    );
    assert_eq!(kinds(Where::Both), BTreeSet::from(["constant", "letter"]));
}

#[test]
fn the_pool_is_in_a_fixed_order_and_has_each_once() {
    let tree = full();
    for at in [Where::Code, Where::Definitions, Where::Both] {
        let all = tree.all("a", at);
        assert_eq!(all, tree.all("a", at));
        let places: Vec<_> = all.iter().map(|m| (m.changes[0].file.clone(), m.changes[0].line)).collect();
        assert!(places.windows(2).all(|pair| pair[0] <= pair[1]));
        let changes: BTreeSet<String> = all.iter().map(|mutant| format!("{mutant}")).collect();
        let names: BTreeSet<String> = all.iter().map(Mutant::name).collect();
        assert_eq!((changes.len(), names.len()), (all.len(), all.len()));
    }
}

#[test]
fn labels_and_what_is_shown() {
    let change =
        |line, new: &str| Change { file: "src/m/reply.rt".into(), line, old: "    a < b".into(), new: new.into() };
    let mutant =
        Mutant { krate: "a".into(), kind: "operator", changes: vec![change(41, "    a <= b"), change(43, "")] };
    assert!(mutant.name().starts_with("src-m-reply.rt-41-operator-"));
    assert!(mutant.name().chars().all(|c| c.is_ascii_alphanumeric() || "-._".contains(c)));
    assert_eq!(mutant.to_string(), "src/m/reply.rt:41\n- a < b\n+ a <= b\nsrc/m/reply.rt:43\n- a < b\n+ ");
}

#[test]
fn folders_that_are_not_there() {
    let tree = Tree::new(&[("a/src/lib.rt", "fn f() -> u8 { 3 }\n"), ("b/specs/A.antt", "f = 3\n")]);
    assert_eq!(tree.all("a", Where::Definitions), []);
    assert_eq!(tree.all("a", Where::Both), []);
    assert!(all(&tree.0.join("b"), "b", Where::Code).is_err());
    assert!(all(&tree.0.join("c"), "c", Where::Code).is_err());
}

#[test]
fn a_file_that_breaks_off_is_read_as_far_as_it_goes() {
    let tree = full();
    for file in ["a/src/lib.rt", "a/specs/F.antt"] {
        let path = tree.0.join(file);
        let text = fs::read_to_string(&path).expect("the file");
        for (end, _) in text.char_indices() {
            fs::write(&path, &text[..end]).expect("a shorter file");
            for at in [Where::Code, Where::Definitions, Where::Both] {
                tree.all("a", at);
            }
        }
        fs::write(&path, &text).expect("the whole file");
    }
}

// ---- samples

#[test]
fn a_sample_goes_by_its_seed() {
    let pool = full().all("a", Where::Code);
    let some = sample(pool.clone(), 9, 7);
    assert_eq!(some.len(), 9);
    assert_eq!(some, sample(pool.clone(), 9, 7));
    assert_ne!(some, sample(pool.clone(), 9, 8));
    assert_eq!(some[..5], sample(pool, 5, 7));
}

#[test]
fn a_sample_is_spread_over_the_lines() {
    let single = full().all("a", Where::Code).into_iter().filter(|mutant| mutant.changes.len() == 1);
    let pool: Vec<Mutant> = single.collect();
    let line = |mutant: &Mutant| mutant.changes[0].line;
    let lines: BTreeSet<usize> = pool.iter().map(line).collect();
    for seed in 0..20 {
        let first: BTreeSet<usize> = sample(pool.clone(), lines.len(), seed).iter().map(line).collect();
        assert_eq!(first, lines);
        let mut counts: BTreeMap<usize, usize> = BTreeMap::new();
        sample(pool.clone(), lines.len() + 3, seed).iter().for_each(|m| *counts.entry(line(m)).or_default() += 1);
        assert!(counts.values().all(|n| *n <= 2));
    }
}

#[test]
fn two_lines_of_one_mutant_both_count() {
    let change = |line| Change { file: "f".into(), line, old: "a".into(), new: format!("b{line}") };
    let mutant =
        |lines: &[usize]| Mutant { krate: "a".into(), kind: "k", changes: lines.iter().map(|l| change(*l)).collect() };
    let pool = vec![mutant(&[1, 2]), mutant(&[1]), mutant(&[3])];
    for seed in 0..20 {
        let lines: Vec<usize> = sample(pool.clone(), 2, seed).iter().flat_map(|m| &m.changes).map(|c| c.line).collect();
        assert_eq!(lines.iter().collect::<BTreeSet<_>>().len(), lines.len());
    }
}

#[test]
fn a_large_sample_is_the_pool() {
    let pool = full().all("a", Where::Definitions);
    let names = |list: &[Mutant]| list.iter().map(Mutant::name).collect::<BTreeSet<_>>();
    for n in [pool.len(), pool.len() + 1, usize::MAX] {
        let all = sample(pool.clone(), n, 3);
        assert_eq!((all.len(), names(&all)), (pool.len(), names(&pool)));
    }
    assert_eq!(sample(pool, 0, 3), []);
    assert_eq!(sample(Vec::new(), 5, 3), []);
}

#[test]
fn a_sample_is_shared_out() {
    assert_eq!(shares(&[100, 300, 0], 40), [10, 30, 0]);
    assert_eq!(shares(&[3, 4], 9), [3, 4]);
    assert_eq!(shares(&[10, 10, 10], 20).iter().sum::<usize>(), 20);
    assert_eq!(shares(&[1, 1000], 500), [0, 500]);
}

#[test]
fn a_mutant_is_applied_to_its_line_alone() {
    let folder = std::env::temp_dir().join(format!("wrong-apply-{}", std::process::id()));
    std::fs::create_dir_all(folder.join("src")).expect("a folder");
    std::fs::write(folder.join("src/lib.rt"), "one\ntwo\none\n").expect("a file");
    let change = |old: &str| Change { file: "src/lib.rt".into(), line: 3, old: old.into(), new: "three".into() };
    let mutant = |old: &str| Mutant { krate: "a".into(), kind: "constant", changes: vec![change(old)] };
    assert!(mutant("two").apply(&folder).is_err());
    assert_eq!(mutant("one").apply(&folder), Ok(()));
    assert_eq!(std::fs::read_to_string(folder.join("src/lib.rt")).expect("a file"), "one\ntwo\nthree\n");
    std::fs::remove_dir_all(&folder).expect("removed");
}
