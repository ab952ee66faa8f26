//! Runs the program on the repository's module, and on small modules whose calls have the right form or do not.

use std::path::{Path, PathBuf};
use std::process::Command;
use std::sync::atomic::{AtomicUsize, Ordering};
use std::{env, fs, process};

/// A module with two calls that have the right form.
const MODULE: &str = r#"// Calls, with one in a comment: pub extern "C" fn rei2_said(seats: &mut [Seat]) {}
use crate::answers::Answer;
use desk::state::Desk;
use desk::state::Seat;

struct Out {
    pub row: [Seat; SEATS],
    pub answer: Answer,
}

fn take_row(row: [Seat; SEATS], desk: Desk, cells: &mut [u8], frame: &[u8]) -> Out {}

fn look_row(
    row: [Seat; SEATS],
    desk: Desk,
) -> Out {}

#[no_mangle]
pub extern "C" fn rei2_take(seats: &mut [Seat], desk: Desk, cells: &mut [u8], frame: &[u8]) -> Answer
    ensures { λ r. ⌜ TakeLent (now (seats .entry)) desk (now (cells .entry)) (now (frame .entry)) r
        (now (seats .exit)) (now (cells .exit)) ⌝ }
{
    if seats.len() != SEATS {
        return no_desk(desk);
    }
    let row = load(seats); // sixteen seats
    let out = take_row(row, desk, cells, frame);
    store(seats, out.row);
    out.answer
}

#[no_mangle]
pub extern "C" fn rei2_look(
    seats: &mut [Seat],
    desk: Desk,
) -> Answer
    ensures { λ r. ⌜ LookLent (now (seats .entry)) desk r (now (seats .exit)) ⌝ }
{
    if seats.len() != SEATS {
        return no_desk(desk);
    }
    let row = load(seats);
    let out = look_row(
        row,
        desk,
    );
    store(seats, out.row);
    out.answer
}

#[no_mangle]
pub extern "C" fn rei2_count(seats: &[Seat]) -> u32 {
    0
}
"#;

/// A module with a call that takes numbers and arrays, and that tests something before the row.
const PAGE: &str = r#"use crate::answers::Answer;
use desk::limits::KINDS;
use desk::state::Desk;
use desk::state::Seat;

const LETTERS: usize = 33;

struct Out {
    pub row: [Seat; SEATS],
    pub answer: Answer,
}

fn test_page(counts: &[[[u8; 4]; 2]; 7], text: &[u8], seat: u32) -> u32 {}

fn page_row(
    row: [Seat; SEATS],
    desk: Desk,
    tally: &mut [[u32; KINDS]; LETTERS],
    cells: &mut [u8],
    line: &mut [u8; 5],
    counts: &[[[u8; 4]; 2]; 7],
    text: &[u8],
    seat: u32,
    whole: bool,
) -> Out {}

#[no_mangle]
pub extern "C" fn rei2_page(
    seats: &mut [Seat],
    desk: Desk,
    tally: &mut [[u32; KINDS]; LETTERS],
    cells: &mut [u8],
    line: &mut [u8; 5],
    counts: &[[[u8; 4]; 2]; 7],
    text: &[u8],
    seat: u32,
    whole: bool,
) -> Answer
    ensures { λ r. ⌜ PageLent (now (seats .entry)) desk (now (tally .entry)) (now (cells .entry)) (now (line .entry))
        (now (counts .entry)) (now (text .entry)) seat whole r
        (now (seats .exit)) (now (tally .exit)) (now (cells .exit)) (now (line .exit)) ⌝ }
{
    let early = test_page(counts, text, seat);
    if early != 0 {
        return no_page(desk, early);
    }
    if seats.len() != SEATS {
        return no_desk(desk);
    }
    let row = load(seats);
    let out = page_row(row, desk, tally, cells, line, counts, text, seat, whole);
    store(seats, out.row);
    out.answer
}
"#;

/// The module that has one of its constants.
const LIMITS: &str = "pub const KINDS: usize = 3;\n";

/// A repository in a temporary folder, which is removed at the end of the test.
struct Repo(PathBuf);

impl Repo {
    /// A repository whose module `rei2::lent` has this text.
    fn new(module: &str) -> Repo {
        static MADE: AtomicUsize = AtomicUsize::new(0);
        let number = MADE.fetch_add(1, Ordering::Relaxed);
        let repo = Repo(env::temp_dir().join(format!("walks-test-{}-{number}", process::id())));
        repo.has("rei2", "lent", module);
        repo.has("desk", "limits", LIMITS);
        repo
    }

    /// A repository with the module `rei2::lent` for which walks were written, and with the module that has the lengths of its arrays.
    fn as_written() -> Repo {
        let repo = Repo::new(&read(&kept("lent.rt")));
        repo.has("frames", "reply", &read(&kept("reply.rt")));
        repo
    }

    /// Writes a module of a crate.
    fn has(&self, crate_name: &str, module: &str, text: &str) {
        let folder = self.0.join(format!("crates/{crate_name}/src"));
        fs::create_dir_all(&folder).expect("a folder is made");
        fs::write(folder.join(format!("{module}.rt")), text).expect("a file is written");
    }

    /// Runs the program on the module. Returns its status, what it prints, and what it prints as errors.
    fn walks(&self, flags: &[&str]) -> (i32, String, String) {
        walks(&self.0, flags)
    }

    fn proof(&self, call: &str) -> PathBuf {
        proof(&self.0, call)
    }
}

impl Drop for Repo {
    fn drop(&mut self) {
        let _ = fs::remove_dir_all(&self.0);
    }
}

fn walks(root: &Path, flags: &[&str]) -> (i32, String, String) {
    run(Command::new(env!("CARGO_BIN_EXE_walks")).arg(root).args(["rei2", "lent"]).args(flags))
}

fn run(command: &mut Command) -> (i32, String, String) {
    let done = command.output().expect("the program runs");
    let text = |bytes| String::from_utf8(bytes).expect("the program prints UTF-8");
    (done.status.code().expect("the program ends by itself"), text(done.stdout), text(done.stderr))
}

fn says(status: i32, printed: &str, errors: &str) -> (i32, String, String) {
    (status, printed.to_string(), errors.to_string())
}

/// A file of the older kit's form: the module with its calls, or the walk of one.
fn kept(name: &str) -> PathBuf {
    Path::new(env!("CARGO_MANIFEST_DIR")).join(format!("tests/kept/{name}.txt"))
}

/// The walk of a call.
fn walk_of(call: &str) -> PathBuf {
    kept(&format!("{call}.antt"))
}

fn proof(root: &Path, call: &str) -> PathBuf {
    root.join(format!("crates/rei2/proofs/lent/{call}/Proof.antt"))
}

fn read(path: &Path) -> String {
    fs::read_to_string(path).unwrap_or_else(|e| panic!("{}: {e}", path.display()))
}

/// The module with `old` replaced by `new`. `old` must occur in it exactly once.
#[track_caller]
fn edited(old: &str, new: &str) -> String {
    replaced(MODULE, old, new)
}

/// The same for the module with `rei2_page`.
#[track_caller]
fn edited_page(old: &str, new: &str) -> String {
    replaced(PAGE, old, new)
}

/// The same with an edit that is made both in `rei2_page` and in the function that it calls.
#[track_caller]
fn edited_pages(old: &str, new: &str) -> String {
    assert_eq!(PAGE.matches(old).count(), 2, "the text stands twice: {old}");
    PAGE.replace(old, new)
}

#[track_caller]
fn replaced(module: &str, old: &str, new: &str) -> String {
    assert_eq!(module.matches(old).count(), 1, "the text stands once: {old}");
    module.replace(old, new)
}

/// The same with an edit of the body of `rei2_look`.
#[track_caller]
fn edited_look(old: &str, new: &str) -> String {
    let (before, look) = MODULE.split_once("fn rei2_look").expect("the call is there");
    assert_eq!(look.matches(old).count(), 1, "the text stands once: {old}");
    format!("{before}fn rei2_look{}", look.replace(old, new))
}

/// Asserts that the program refuses a module with this message, with and without `--check`, and writes nothing.
#[track_caller]
fn refuses(module: &str, message: &str) {
    let repo = Repo::new(module);
    let wanted = says(2, "", &format!("walks: {message}\n"));
    assert_eq!(repo.walks(&[]), wanted);
    assert_eq!(repo.walks(&["--check"]), wanted);
    assert!(!repo.0.join("crates/rei2/proofs").exists());
}

/// The proof that the program writes for a call of a module.
#[track_caller]
fn written(module: &str, call: &str) -> String {
    let repo = Repo::new(module);
    assert_eq!((repo.walks(&[]).0, repo.walks(&["--check"]).0), (0, 0));
    read(&repo.proof(call))
}

/// Asserts that each of these texts stands in a proof so many times.
#[track_caller]
fn stand(proof: &str, times: usize, texts: &[&str]) {
    for text in texts {
        assert_eq!(proof.matches(text).count(), times, "{text}");
    }
}

/// Asserts that these texts stand in a proof one after the other.
#[track_caller]
fn in_order(proof: &str, texts: &[&str]) {
    let mut rest = proof;
    for text in texts {
        rest = rest.split_once(text).unwrap_or_else(|| panic!("it does not come next: {text}")).1;
    }
}

#[track_caller]
fn has_no_form(module: &str, call: &str) {
    refuses(module, &format!("{call} does not have the form of a call on lent seats"));
}

// ---- the walks that were in use

#[test]
fn the_files_of_the_repository_are_what_it_writes() {
    let repo = Repo::as_written();
    assert_eq!(repo.walks(&[]), says(0, "walks: 4 walks written\n", ""));
    for call in ["rei2_reset", "rei2_open", "rei2_reply", "rei2_capture"] {
        assert!(read(&repo.proof(call)) == read(&walk_of(call)), "{call}");
    }
    assert_eq!(repo.walks(&["--check"]), says(0, "walks: 4 walks are as written\n", ""));
}

#[test]
fn a_check_fails_where_a_file_differs_by_a_byte() {
    let repo = Repo::as_written();
    let calls = ["rei2_reset", "rei2_open", "rei2_reply", "rei2_capture"];
    for call in calls {
        fs::create_dir_all(repo.proof(call).parent().expect("a file has a folder")).expect("a folder is made");
        fs::copy(walk_of(call), repo.proof(call)).expect("a file is copied");
    }
    assert_eq!(repo.walks(&["--check"]), says(0, "walks: 4 walks are as written\n", ""));
    for call in calls {
        let right = fs::read(repo.proof(call)).expect("the file is read");
        let mut changed = right.clone();
        changed[right.len() / 2] ^= 1;
        let differs = format!("walks: crates/rei2/proofs/lent/{call}/Proof.antt is not what this program writes\n");
        for wrong in [changed, right[..right.len() - 1].to_vec(), [&right[..], b"\n"].concat()] {
            fs::write(repo.proof(call), &wrong).expect("the file is written");
            assert_eq!(repo.walks(&["--check"]), says(1, "", &differs));
            assert!(fs::read(repo.proof(call)).expect("the file is read") == wrong, "a check writes nothing");
        }
        fs::write(repo.proof(call), &right).expect("the file is written");
    }
}

// ---- files

#[test]
fn a_check_names_the_first_file_that_is_not_there() {
    let repo = Repo::new(MODULE);
    let missing = |call| format!("walks: crates/rei2/proofs/lent/{call}/Proof.antt is not what this program writes\n");
    assert_eq!(repo.walks(&["--check"]), says(1, "", &missing("rei2_take")));
    assert_eq!(repo.walks(&[]), says(0, "walks: 2 walks written\n", ""));
    assert_eq!(repo.walks(&["--check"]), says(0, "walks: 2 walks are as written\n", ""));
    fs::remove_file(repo.proof("rei2_look")).expect("the file is removed");
    assert_eq!(repo.walks(&["--check"]), says(1, "", &missing("rei2_look")));
}

#[test]
fn structs_stand_where_they_are_declared() {
    let repo = Repo::new(MODULE);
    assert_eq!(repo.walks(&[]).0, 0);
    let text = read(&repo.proof("rei2_take"));
    for line in [
        "use Rattle·desk.specs.declared.state.Desk.{Desk}\n",
        "use Rattle·desk.proofs.state.Seat.Laws as SeatL\n",
        "use Rattle·rei2·specs.specs.declared.answers.Answer.{Answer}\n",
        "use Rattle·rei2·proofs.proofs.lent.Out as OutD\n",
    ] {
        assert_eq!(text.matches(line).count(), 1, "{line}");
    }
}

#[test]
fn words_that_are_not_understood() {
    let usage = says(2, "", "walks: usage: walks ROOT CRATE MODULE [--check]\n");
    let repo = Repo::new(MODULE);
    assert_eq!(repo.walks(&["--list"]), usage);
    assert_eq!(repo.walks(&["--check", "--check"]), usage);
    assert_eq!(run(&mut Command::new(env!("CARGO_BIN_EXE_walks"))), usage);
    let (status, printed, errors) = run(Command::new(env!("CARGO_BIN_EXE_walks")).arg(&repo.0).args(["rei2", "none"]));
    assert_eq!((status, printed.as_str()), (2, ""));
    assert!(errors.starts_with("walks: crates/rei2/src/none.rt: cannot be read: "), "{errors}");
}

#[test]
fn a_module_without_calls() {
    refuses("fn f() {}\n", "crates/rei2/src/lent.rt has no call on lent seats");
}

// ---- numbers, arrays, and a test before the row

/// The module in which `rei2_look` also takes numbers.
fn with_numbers() -> String {
    let numbers = "seat: u32, wide: u64, low: u8, size: usize, whole: bool";
    let module = edited_look("    desk: Desk,\n) -> Answer", &format!("    desk: Desk, {numbers},\n) -> Answer"));
    let module = replaced(
        &module,
        "LookLent (now (seats .entry)) desk r",
        "LookLent (now (seats .entry)) desk seat wide low size whole r",
    );
    let module = replaced(
        &module,
        "        row,\n        desk,\n    );",
        "        row,\n        desk, seat, wide, low, size, whole\n    );",
    );
    replaced(&module, "    desk: Desk,\n) -> Out", &format!("    desk: Desk, {numbers},\n) -> Out"))
}

#[test]
fn numbers_are_passed_by_value() {
    let proof = written(&with_numbers(), "rei2_look");
    stand(&proof, 1, &[
        "(v-desk : Desk) (is-desk : Is DeskD.the-row v-desk (LL.vals DeskD.the-type DeskL.the-laws v-desk)) (v-seat : ℕ) \
         (is-seat : Is u32 v-seat (uint-vals w32 v-seat)) (v-wide : ℕ) (is-wide : Is u64 v-wide (uint-vals w64 v-wide)) \
         (v-low : ℕ) (is-low : Is u8 v-low (uint-vals w8 v-low)) (v-size : ℕ) (is-size : Is usize v-size \
         (uint-vals w64 v-size)) (v-whole : Bool) (is-whole : Is bool v-whole (bool-vals v-whole)) where",
        "  s-seat = vint w32 v-seat\n",
        "  s-size = vint w64 v-size\n",
        "  s-whole = vbool v-whole\n",
        "use denote.Builtin.{bool, u64, usize}\n",
        "use mir.Syntax.{w32, w64, w8}\n",
        "(tt, record { fits = is-low .1 })",
        "  Arg = RefT (List Seat) × (Desk × (ℕ × (ℕ × (ℕ × (ℕ × (Bool × Unit {0}))))))\n",
        "(done-look v-seats v-desk v-seat v-wide v-low v-size v-whole r e)",
    ]);
    // once among what is owned at exit, and once for the call by value
    stand(&proof, 2, &["owned ! u64 (Is u64) (uint-makes 𝓤 H A W w64) v-wide _ is-wide $ fjoin ! $"]);
    stand(&proof, 2, &["owned ! bool (Is bool) (bool-makes 𝓤 H A W) v-whole _ is-whole $ "]);
}

#[test]
fn the_other_call_of_the_module_is_not_changed() {
    assert!(written(&with_numbers(), "rei2_take") == written(MODULE, "rei2_take"));
    stand(&written(MODULE, "rei2_take"), 0, &["denote.Plain", "Ref.{M", "early", "store !", "Tested"]);
}

#[test]
fn arrays_are_lent_by_their_references() {
    let proof = written(PAGE, "rei2_page");
    let (tally, counts) = ("(Array (Array u32 3) 33)", "(Array (Array (Array u8 4) 2) 7)");
    stand(
        &proof,
        1,
        &[
            "(b-tally o-tally : ℕ) (γ-tally : GName) (v-tally : List (List ℕ)) (b-cells",
            "(v-line : List ℕ) (b-counts o-counts : ℕ) (γ-counts : GName) (v-counts : List (List (List ℕ))) (b-text",
            "  s-tally = vptr b-tally o-tally\n",
            &format!("  Own-tally = MutRef (named 1) κ-tally {tally} .own (x-tally v-tally) (s-tally ∷ [])\n"),
            &format!("  Own-counts = ShrRef (named 4) κ-counts {counts} .own (x-counts v-counts) (s-counts ∷ [])\n"),
            &format!("gave-ref (1 ∷ []) tt (plain (λ _. {tally})), (gave-slice (2 ∷ [])"),
            &format!("stay-none-ref (4 ∷ []) tt (plain (λ _. {counts})) yes"),
            &format!("goes-gave-ref 𝓤 H A W 6 1 tt (plain (λ _. {tally}))"),
            &format!("mut-tells (named 1) (κs .1 .0) {tally}, (mut-slice-tells (named 2)"),
            "(a .1 .1 .0 .ptr .0) (a .1 .1 .0 .ptr .1) (a .1 .1 .0 .name) (a .1 .1 .0 .now)\n",
            "(len-seats : length z-seats ≡ length v-seats) (len-cells : length z-cells ≡ length v-cells) →",
            "(len-seats, (tt, (tt, (len-cells, (tt, (tt, (tt, (tt, (tt, tt)))))))))",
        ],
    );
    // both refusals leave it as it was
    stand(
        &proof,
        2,
        &[&format!("use1 W (‵ (fres γ-tally ({tally} .coded .code v-tally))) (W .names .obs-res γ-tally")],
    );
    // two are lent again to the call by value. Each has one local. Before the locals are 16 items: of the 6 references, of
    // the copies of 2 of them, of 6 lifetimes, and two ends
    let at = |local: usize| 16 + 2 * (23 - local);
    let lent = |from: usize, to: usize| {
        let hop = format!("(hop ! (look ! {} refl) (stop !))", at(from));
        format!("assigns ! (addr ! (from ! {hop})) (from ! (stop !)) (init ! {} refl (tt, tt)) $\n", at(to))
    };
    stand(&proof, 1, &[&lent(3, 17), &lent(5, 20)]);
    stand(&proof, 0, &["room-tally", "len-tally", "room-counts", "Array u32 KINDS"]);
}

#[test]
fn the_lengths_of_arrays_are_those_of_the_source() {
    let repo = Repo::new(PAGE);
    assert_eq!(repo.walks(&[]), says(0, "walks: 1 walks written\n", ""));
    repo.has("desk", "limits", "pub const KINDS: usize = FIVE;\npub const FIVE: usize = 5;\n");
    assert_eq!(repo.walks(&["--check"]).0, 1);
    assert_eq!(repo.walks(&[]).0, 0);
    let proof = read(&repo.proof("rei2_page"));
    assert!(proof.contains("(Array (Array u32 5) 33)") && !proof.contains("(Array u32 3)"));
    let literal = edited_pages("[[u32; KINDS]; LETTERS]", "[[u32; 5]; 33]");
    assert!(written(&literal, "rei2_page") == proof);
}

#[test]
fn a_test_comes_before_the_row() {
    let proof = written(PAGE, "rei2_page");
    stand(&proof, 1, &[
        "use Rattle·rei2·specs.specs.inside.Core.{CorePage, TestPage}\n",
        "use Rattle·rei2·proofs.proofs.LentLaws.{refusal-page, done-page, refused-page, early-refusal-page, early-page}\n",
        "use Rattle·rei2·proofs.proofs.lent.test_page as tester\n",
        "use Rattle·rei2·proofs.proofs.lent.no_page as answerer\n",
        "→ r ≡ early-refusal-page v-desk n → TestPage v-counts v-text v-seat n → Dec.eqb n 0 ≡ false → ent",
        "→ r ≡ refusal → TestPage v-counts v-text v-seat 0 → Dec.eqb (length v-seats) seatCount ≡ false → ent",
        "(early-page v-seats v-desk v-tally v-cells v-line v-counts v-text v-seat v-whole n t e)",
        "(refused-page v-seats v-desk v-tally v-cells v-line v-counts v-text v-seat v-whole t e)",
        "(done-page v-seats v-desk v-tally v-cells v-line v-counts v-text v-seat v-whole passed r ",
        "let passed : TestPage v-counts v-text v-seat 0 = subst (λ (k : ℕ). TestPage v-counts v-text v-seat k) \
         (Dec.eqb→eq n 0 (subst Dec.T (sym (is-true (Dec.eqb n 0) none)) tt)) t in\n",
        "  to-early n = ((tt, tt, tt, early-args n, (s-desk ∷ [], (vint w32 n ∷ [], tt))), tt)\n",
        "  test-κs = (κ-counts, (κ-text, tt))\n",
        "  early-args n = (v-desk, (n, tt))\n",
    ]);
    in_order(
        &proof,
        &[
            "    walk =\n",
            "calls-at ! fm (Tested 𝓤 H A at-mem run) known-tested to-tested ",
            "guards ! ",
            "calls-at ! fm (Early 𝓤 H A at-mem run) known-early (to-early n) ",
            "by ! (refuses-early n r w is e t (is-false (Dec.eqb n 0) found))",
            "guards ! ",
            "calls-at ! fm (Refused 𝓤 H A at-mem run) known-refused to-refused ",
            "by ! (refuses r w is e passed (is-false (Dec.eqb (length v-seats) seatCount) differs))",
            "known-load ",
            "calls-at ! fm (Core 𝓤 H A at-mem run) known-core to-core ",
            "known-store ",
            "code.calls-rei2·lent·test-page ",
            "code.calls-rei2·lent·no-page ",
            "code.calls-rei2·lent·no-desk ",
        ],
    );
    // the second test is stored in the local of the first
    stand(&proof, 1, &["(store ! "]);
}

#[test]
fn what_is_tested_is_handed_over_and_put_together_again() {
    let proof = written(PAGE, "rei2_page");
    let counts = "(shr-copy 𝓤 H A W (named 4) κ-counts (Array (Array (Array u8 4) 2) 7) .twice (x-counts v-counts) ";
    let text = "(shr-slice-copy 𝓤 H A W (named 5) κ-text u8 .twice (x-text v-text) ";
    // a copy of each reference for the tester, and one for the call by value
    stand(&proof, 2, &[counts, text]);
    let look = |place: usize| format!("(load ! (from ! (stop !)) (look ! {place} refl))");
    // local k of 24 has the place 2 * (23 - k) after the entry's item, those of 9 parameters, 4 tokens, and two ends
    let tester = [6, 7, 8].map(|k| look(2 * (23 - k) + 1 + 9 + 4 + 2));
    // after the entry's item, the tokens, and what is owned
    let answerer = [2, 10].map(|k| look(2 * (23 - k) + 3));
    in_order(
        &proof,
        &[
            &format!("{counts}(s-counts ∷ [])) $ split ! $ "),
            &format!("{text}(s-text ∷ [])) $ split ! $ nothing ! $ owned ! u32 (Is u32) (uint-makes 𝓤 H A W w32) v-seat _ is-seat"),
            " $ fjoin ! $ move ! (2 ∷ 0 ∷ []) $ fjoin ! $ move ! (3 ∷ 0 ∷ []) $ fjoin ! $ nothing ! $",
            " use1 W (raw (Tested 𝓤 H A at-mem run .pre to-tested)) (∗emp 𝓤 _) $\n",
            &format!("(and-then ! {} (and-then ! {} (and-then ! {} (no-more !))))", tester[0], tester[1], tester[2]),
            "drop ! $ split ! $ move ! (1 ∷ []) $\n",
            "facts ! u32 (Is u32) (shows 𝓤 H A u32) n (w ∷ []) (λ is-n.\n",
            "(ap only (is-n .0)) refl $\n",
            " move ! (2 ∷ 0 ∷ []) $ join ! $\n",
            &format!("assigns ! (bin ! {} (lit ! tt) tt)", look(2 * (23 - 10) + 2)),
            " nothing ! $ owned ! u32 (Is u32) (uint-makes 𝓤 H A W w32) n _ (refl, is-n .1) $ fjoin ! $ owned ! DeskD.the-row",
            &format!("known-early (to-early n) (and-then ! {} (and-then ! {} (no-more !)))", answerer[0], answerer[1]),
        ],
    );
    stand(
        &proof,
        1,
        &[
            "  EarlyArg = Desk × (ℕ × Unit {0})\n",
            "  TestArg = RefT (List (List (List ℕ))) × (RefT (List ℕ) × (ℕ × Unit {0}))\n",
            "  test-args = (x-counts v-counts, (x-text v-text, (v-seat, tt)))\n",
            "use denote.Ref.{MutRef, ShrRef, mut-tells, ptr-vals, shr-copy, shr-tells}\n",
            "shr-tells (named 4) (κs .1 .1 .1 .1 .0) (Array (Array (Array u8 4) 2) 7), (shr-slice-tells (named 5)",
        ],
    );
}

/// The call that stores the row, and the one that stores one seat.
const STORE: &str = "store(seats, out.row);";
const PUT: &str = "put_seat(seats, out.at, out.seat);";

/// The module in which `rei2_take` stores one seat.
fn with_seat() -> String {
    replaced(MODULE, "frame: &[u8]) -> Out {}", "frame: &[u8]) -> One {}").replacen(STORE, PUT, 1)
}

#[test]
fn one_seat_is_stored() {
    let proof = written(&with_seat(), "rei2_take");
    stand(
        &proof,
        1,
        &[
            "use lib.ListN.{length-set, set}\n",
            "use Rattle·rei2·specs.specs.declared.lent.One.{One}\n",
            "use Rattle·rei2·proofs.proofs.Steps.{rowVal, Load, Put, loads, puts}\n",
            "use Rattle·rei2·proofs.proofs.Outs.{one-at-fits, one-seat-is, one-answer-is}\n",
            "use Rattle·rei2·proofs.proofs.LentLaws.{refusal-take, done-take, refused-take}\n",
            "use Rattle·rei2·proofs.proofs.lent.put_seat.Met as put-thm\n",
            "-- the seat is stored\n",
            "code.env #put put-def.routine code.calls-rei2·lent·put-seat (put-thm.met 𝓤 H 𝓜 𝓖 𝓡)",
        ],
    );
    stand(&proof, 0, &["Out}", "OutD", "stores", "Store", "-store", "out-", ".row", "the row is stored"]);
    // local 15 has the seats that are lent again, and local 6 what the call by value returned
    let place = |text: &str| proof.split_once(text).and_then(|(_, rest)| rest.split(' ').next()?.parse().ok());
    let again: usize = place(" ! fm known-put (λ i. (and-then ! (load ! (from ! (stop !)) (look ! ").expect("a place");
    let out = |part: usize| {
        let place = again + 2 * (15 - 6);
        format!("(load ! (from ! (fld ! refl (stop !))) (look-in ! {place} (sub ! {part} refl (whole !))))")
    };
    in_order(
        &proof,
        &[
            "puts 𝓤 H A W at-mem run κ-seats q-seats b-seats o-seats γ-seats v-seats room-seats full (r .at) (r .seat) ",
            "(one-at-fits r (w ∷ []) is) (one-seat-is r (w ∷ []) is) ! fm known-put ",
            &format!("(and-then ! {} (and-then ! {} (no-more !)))", out(0), out(1)),
            "(sub ! 2 refl (whole !))",
            "by ! (exits (r .answer) _ (set v-seats (r .at) (r .seat)) (zs .1 .1 .0) (length-set v-seats (r .at) (r .seat)) ",
            "len-cells (one-answer-is r (w ∷ []) is) (done-take v-seats v-desk v-cells v-frame r (zs .1 .1 .0) e))",
        ],
    );
    // the other call stores the row
    assert!(written(&with_seat(), "rei2_look") == written(MODULE, "rei2_look"));
}

#[test]
fn one_seat_is_stored_after_an_early_test() {
    let proof = written(&edited_page(STORE, PUT), "rei2_page");
    let values = "v-seats v-desk v-tally v-cells v-line v-counts v-text v-seat v-whole passed r ";
    stand(
        &proof,
        1,
        &[
            "(out-at-fits r (w ∷ []) is)",
            &format!("(done-page {values}"),
            ".LentLaws.{refusal-page, done-page, refused-page, early-refusal-page, early-page}\n",
        ],
    );
}

#[test]
fn the_locals_are_those_of_the_compiler() {
    let locals = |module: &str, call: &str| written(module, call).matches("alloc1 ! (λ l").count();
    // the result; the parameters; row, out, the length, the test, the seats for the load and again for the store, the unit
    assert_eq!(locals(MODULE, "rei2_look"), 1 + 2 + 9);
    // and two for the cells
    assert_eq!(locals(MODULE, "rei2_take"), 1 + 4 + 9 + 2);
    // and none for the parts of one seat
    assert_eq!(locals(&with_seat(), "rei2_take"), 1 + 4 + 9 + 2);
    // and one for each array, and the number of the early test
    assert_eq!(locals(PAGE, "rei2_page"), 1 + 9 + 9 + 2 + 2 + 1);
}

#[test]
fn numbers_and_arrays_without_an_early_test() {
    let proof = written(&edited_page(EARLY, ""), "rei2_page");
    let whole = written(PAGE, "rei2_page");
    stand(&proof, 0, &["Test", "test", "early", "Early", "passed", "store !", "tyInt"]);
    assert_eq!(proof.matches("alloc1 ! (λ l").count() + 1, whole.matches("alloc1 ! (λ l").count());
    stand(
        &proof,
        1,
        &[
            "use Rattle·rei2·proofs.proofs.LentLaws.{refusal-page, done-page, refused-page}\n",
            "(done-page v-seats v-desk v-tally v-cells v-line v-counts v-text v-seat v-whole r ",
            "(refused-page v-seats v-desk v-tally v-cells v-line v-counts v-text v-seat v-whole e)",
        ],
    );
}

#[test]
fn parentheses_are_closed() {
    let calls =
        [(MODULE, "rei2_take"), (&with_seat(), "rei2_take"), (&with_numbers(), "rei2_look"), (PAGE, "rei2_page")];
    for (module, call) in calls {
        let proof = written(module, call);
        let depths = proof.chars().scan(0, |depth, c| {
            *depth += i32::from(c == '(') - i32::from(c == ')');
            Some(*depth)
        });
        let depths: Vec<i32> = depths.collect();
        assert!(depths.iter().all(|depth| *depth >= 0) && depths.last() == Some(&0), "{call}");
    }
}

#[test]
fn an_early_test_of_values_only() {
    let module = edited_page("test_page(counts, text, seat);", "test_page(desk, whole);");
    let module = replaced(
        &module,
        "test_page(counts: &[[[u8; 4]; 2]; 7], text: &[u8], seat: u32)",
        "test_page(desk: Desk, whole: bool)",
    );
    let proof = written(&module, "rei2_page");
    stand(
        &proof,
        1,
        &["  test-κs = tt\n", "  test-args = (v-desk, (v-whole, tt))\n", "let passed : TestPage v-desk v-whole 0 = "],
    );
}

// ---- calls that do not have the right form

#[test]
fn the_guard_is_missing_or_another() {
    let guard = "    if seats.len() != SEATS {\n        return no_desk(desk);\n    }\n";
    has_no_form(&edited_look(guard, ""), "rei2_look");
    has_no_form(&edited_look("seats.len() != SEATS", "seats.len() < SEATS"), "rei2_look");
    has_no_form(&edited_look("seats.len() != SEATS", "seats.len() != 17"), "rei2_look");
    has_no_form(&edited_look("return no_desk(desk)", "return no_desk(other)"), "rei2_look");
    has_no_form(&edited("    let row = load(seats); // sixteen seats\n", ""), "rei2_take");
}

#[test]
fn the_parameters_are_handed_on_in_another_order() {
    for handed in ["row, desk, frame, cells", "desk, row, cells, frame", "row, desk, cells", "row, desk cells, frame"] {
        let module = edited("take_row(row, desk, cells, frame)", &format!("take_row({handed})"));
        refuses(&module, "rei2_take hands its parameters on in another order");
    }
}

#[test]
fn the_store_is_left_out_or_another() {
    has_no_form(&edited_look("    store(seats, out.row);\n", ""), "rei2_look");
    has_no_form(&edited_look("store(seats, out.row)", "store(seats, row)"), "rei2_look");
    has_no_form(&edited_look("store(seats, out.row)", "store(cells, out.row)"), "rei2_look");
}

#[test]
fn one_seat_is_stored_in_another_way() {
    for other in [
        "put_seat(seats, out.seat, out.at);",
        "put_seat(out.at, seats, out.seat);",
        "put_seat(out.at, out.seat, seats);",
        "put_seat(seats, out.at, out.answer);",
        "put_seat(seats, 0, out.seat);",
        "put_seat(seats, out.at);",
        "put_seat(seats, out.at, out.seat, out.row);",
        "put_seat(seats, out.row);",
        "put_seat(cells, out.at, out.seat);",
        "put_seat(row, out.at, out.seat);",
        "store(seats, out.at, out.seat);",
        "set_seat(seats, out.at, out.seat);",
        "put_seat(seats, out.at, out.seat)",
        "",
    ] {
        has_no_form(&replaced(&with_seat(), PUT, other), "rei2_take");
    }
    has_no_form(&replaced(&with_seat(), PUT, &[PUT, STORE].concat()), "rei2_take");
    has_no_form(&replaced(&with_seat(), PUT, &[PUT, PUT].concat()), "rei2_take");
}

#[test]
fn another_result() {
    has_no_form(&edited_look("    out.answer\n", "    no_desk(desk)\n"), "rei2_look");
    has_no_form(&edited_look("    out.answer\n", "    out.answer;\n    out.answer\n"), "rei2_look");
    has_no_form(&edited_look(") -> Answer\n", ") -> &[Answer]\n"), "rei2_look");
    has_no_form(&edited_look(") -> Answer\n", ") -> u32\n"), "rei2_look");
    has_no_form(&edited_look(") -> Answer\n", ")\n"), "rei2_look");
}

#[test]
fn another_contract() {
    has_no_form(&edited_look("LookLent", "Looked"), "rei2_look");
    has_no_form(&edited_look(" desk r (now", " r desk (now"), "rei2_look");
    has_no_form(&edited_look(" (now (seats .exit))", ""), "rei2_look");
    has_no_form(&edited_look("    ensures", "    requires { ⌜ ⊤ ⌝ }\n    ensures"), "rei2_look");
}

#[test]
fn other_parameters() {
    let desk = "    seats: &mut [Seat],\n    desk: Desk,\n";
    has_no_form(&edited_look(desk, "    seats: &'a mut [Seat],\n    desk: Desk,\n"), "rei2_look");
    has_no_form(&edited_look(desk, "    seats: &mut [Seat],\n    desk: u32,\n"), "rei2_look"); // no_desk takes a struct
    has_no_form(&edited_look(desk, "    seats: &mut [Seat],\n    desk: [u8; 4],\n"), "rei2_look");
    has_no_form(&edited("frame: &[u8]) -> Answer", "frame: &[u64]) -> Answer"), "rei2_take");
    has_no_form(&edited("fn rei2_take(", "fn rei2_take<'a>("), "rei2_take");
}

#[test]
fn other_numbers() {
    for number in ["u16", "i64", "char", "f32", "&u32", "&mut u32"] {
        has_no_form(&edited_pages("    seat: u32,\n", &format!("    seat: {number},\n")), "rei2_page");
    }
    // a number is not refused for: the answer takes a struct
    let module = edited_page("return no_desk(desk)", "return no_desk(seat)");
    has_no_form(&module.replace("no_page(desk, early)", "no_page(seat, early)"), "rei2_page");
    let order = "rei2_page hands its parameters on in another order";
    refuses(&edited_page("text, seat, whole);\n", "text, whole, seat);\n"), order);
    refuses(&edited_page("text, seat, whole);\n", "text, 7, whole);\n"), order);
}

#[test]
fn other_arrays() {
    let tally = "tally: &mut [[u32; KINDS]; LETTERS]";
    for other in [
        "tally: &mut [[u32; KINDS]]",
        "tally: &mut [[u32]; LETTERS]",
        "tally: &mut [[u32; KINDS]; ]",
        "tally: &mut [u32; KINDS; LETTERS]",
        "tally: &mut [[u64; KINDS]; LETTERS]",
        "tally: &mut [[Seat; KINDS]; LETTERS]",
        "tally: &mut [[u32; 2 + 1]; LETTERS]",
        "tally: &mut &[[u32; KINDS]; LETTERS]",
        "tally: [[u32; KINDS]; LETTERS]",
    ] {
        has_no_form(&edited_pages(tally, other), "rei2_page");
    }
    let exit = "(now (seats .exit)) (now (tally .exit))";
    has_no_form(&edited_page(exit, "(now (seats .exit))"), "rei2_page");
    let order = "rei2_page hands its parameters on in another order";
    refuses(&edited_page("(row, desk, tally, cells, line,", "(row, desk, line, cells, tally,"), order);
}

#[test]
fn lengths_that_are_not_known() {
    let unknown = |length: &str| format!("rei2_page takes an array of {length} elements: what number is {length}?");
    refuses(&edited_page("const LETTERS: usize = 33;\n", ""), &unknown("LETTERS"));
    refuses(&edited_page("const LETTERS: usize = 33;\n", "const LETTERS: usize = 11 * 3;\n"), &unknown("LETTERS"));
    refuses(&edited_page("use desk::limits::KINDS;\n", "use desk::none::KINDS;\n"), &unknown("KINDS"));
    refuses(&edited_page("use desk::limits::KINDS;\n", ""), &unknown("KINDS"));
}

/// The early test of `rei2_page`, and its test of the row.
const EARLY: &str = "    let early = test_page(counts, text, seat);
    if early != 0 {
        return no_page(desk, early);
    }
";
const ROW: &str = "    if seats.len() != SEATS {
        return no_desk(desk);
    }
";

#[test]
fn an_early_test_at_another_place_or_with_another_answer() {
    let early = |old: &str, new: &str| edited_page(EARLY, &replaced(EARLY, old, new));
    has_no_form(&edited_page(&[EARLY, ROW].concat(), &[ROW, EARLY].concat()), "rei2_page");
    has_no_form(&edited_page(EARLY, &[EARLY, EARLY].concat()), "rei2_page");
    has_no_form(&edited_page(ROW, ""), "rei2_page");
    has_no_form(&early("no_page(desk, early)", "no_page(desk)"), "rei2_page");
    has_no_form(&early("no_page(desk, early)", "no_page(early, desk)"), "rei2_page");
    has_no_form(&early("no_page(desk, early)", "no_page(desk, seat)"), "rei2_page");
    has_no_form(&early("no_page(desk, early)", "no_page(other, early)"), "rei2_page");
    has_no_form(&early("no_page(desk, early)", "no_page(desk, early, seat)"), "rei2_page");
    has_no_form(&early("early != 0", "early != 1"), "rei2_page");
    has_no_form(&early("early != 0", "early > 0"), "rei2_page");
    has_no_form(&early("let early", "let line"), "rei2_page");
    has_no_form(&early("let early", "let mut early"), "rei2_page");
}

#[test]
fn an_early_test_of_other_parameters() {
    let early = |handed: &str| edited_page("test_page(counts, text, seat);", &format!("test_page({handed});"));
    for handed in
        ["text, counts, seat", "counts, counts, seat", "counts, other, seat", "counts, text, 7", "counts, *text, seat"]
    {
        refuses(&early(handed), "rei2_page hands test_page its parameters in another order");
    }
    refuses(&early("tally, text, seat"), "rei2_page hands test_page tally, which may change");
    refuses(&early("seats, text, seat"), "rei2_page hands test_page seats, which may change");
}

#[test]
fn an_early_test_that_is_not_in_the_module_or_returns_no_number() {
    refuses(&edited_page("fn test_page(", "fn tested_page("), "rei2_page calls test_page, which is not here");
    for other in ["u64", "bool", "Answer"] {
        let module = edited_page("seat: u32) -> u32 {}", &format!("seat: u32) -> {other} {{}}"));
        refuses(&module, "rei2_page calls test_page, which does not return a u32");
    }
}

#[test]
fn a_parameter_that_a_variable_hides() {
    for name in ["early", "row"] {
        let module = PAGE.replace("whole: bool", &format!("{name}: bool")).replace(" whole", &format!(" {name}"));
        has_no_form(&module, "rei2_page");
    }
    let module = PAGE.replace("whole: bool", "out: bool").replace(" whole", " out");
    assert!(written(&module, "rei2_page").contains("(v-out : Bool)"));
}

#[test]
fn the_call_by_value_is_not_in_the_module() {
    let module = edited("fn look_row(", "fn looked_row(");
    refuses(&module, "rei2_look calls look_row, which is not here");
}
