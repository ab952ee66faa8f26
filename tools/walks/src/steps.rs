//! The steps of a call: from its entry to its returns, and those of its exits.

mod early;

use crate::param::{lawful, Loan, Param};
use crate::source::{Call, Stored};
use crate::text::{joined, product, spaced, step};
use crate::walk::{copy, field, local, operands, Walk};
use std::collections::BTreeMap;

/// The steps from the function's entry to its returns.
pub fn body(c: &Call) -> String {
    let at = Places::new(c);
    let mut steps = Steps { c, w: Walk::new(at.all, &["tokens", "owned"]), at };
    steps.enters();
    if c.early.is_some() {
        steps.tests_early();
    }
    steps.tests_row();
    steps.refused();
    steps.loads();
    steps.hands_over();
    steps.calls();
    steps.stores();
    steps.returns();
    steps.w.text()
}

/// The steps from what is owned of each reference to what the parameters own at exit.
pub fn exit_steps(c: &Call) -> String {
    let names = c.refs().into_iter().map(|p| p.name.as_str());
    let mut w = Walk::new(0, &["true"].into_iter().chain(names).collect::<Vec<_>>());
    let mut args = "true".to_string();
    for p in c.params.iter().rev() {
        if !p.is_ref() {
            w.swap(&p.owned(), 0, &[&p.name]);
        }
        w.front(&[&p.name, &args]);
        args = format!("args from {}", p.name);
        w.swap("fjoin !", 2, &[&args]);
    }
    w.text()
}

/// The steps from what is owned at entry to what is owned of each reference if nothing was changed.
pub fn refuse_steps(c: &Call) -> String {
    let mut w = Walk::new(0, &["tokens", "owned"]);
    w.front(&["owned"]);
    w.split_all("fsplit", &named("own", c.params.iter()), "true");
    for p in c.muts() {
        w.front(&[&own(p)]);
        gives_up(p, &mut w);
    }
    let kept: Vec<String> = ["tokens".to_string()].into_iter().chain(named("own", c.refs())).collect();
    w.keep(&strs(&kept));
    w.text()
}

/// Takes what is owned of a reference that may change, at the head, to the fact that its last value is its first.
fn gives_up(p: &Param, w: &mut Walk) {
    let Param { k, q, g, b, o, v, named, .. } = p;
    let (row, last) = (p.row(), p.last(v));
    if p.is_slice() {
        let law = format!("gives-up {row} {k} {k} {q} {g} {b} {o} {v} 𝓤 H A W {named} {named}");
        w.swap(&format!("use1 W (‵ ({last})) ({law})"), 1, &[&own(p)]);
        return;
    }
    let [place, rest, loan] = ["place", "rest", "loan"].map(|part| format!("{part} {}", p.name));
    w.swap("fsplit !", 1, &[&place, &rest]);
    w.front(&[&rest]);
    w.swap("fsplit !", 1, &[&own(p), &loan]);
    w.swap(&format!("use1 W (‵ ({last})) (W .names .obs-res {g} ({row} .coded .code {v}))"), 1, &[&own(p)]);
}

/// The value that the core leaves in a slice or an array.
fn last(p: &Param) -> String {
    format!("(zs{})", step(p.index))
}

// Names of items in the context.

fn own(p: &Param) -> String {
    format!("own {}", p.name)
}

fn token(p: &Param) -> String {
    format!("token {}", p.name)
}

fn named<'a>(what: &str, params: impl IntoIterator<Item = &'a Param>) -> Vec<String> {
    params.into_iter().map(|p| format!("{what} {}", p.name)).collect()
}

fn strs(names: &[String]) -> Vec<&str> {
    names.iter().map(String::as_str).collect()
}

/// The locals of a call, in the order in which the compiler makes them.
struct Places {
    /// The number that the early test returns, if there is one.
    early: usize,
    row: usize,
    out: usize,
    length: usize,
    test: usize,
    /// The seats, for the load.
    view: (usize, usize),
    /// What is lent again to the core, by its parameter's place.
    lent: BTreeMap<usize, Lent>,
    unit: usize,
    /// The seats, for the store.
    again: (usize, usize),
    /// How many locals there are.
    all: usize,
}

/// The locals of what is lent again.
#[derive(Clone, Copy)]
enum Lent {
    /// Of a slice: one for its pointer and one for itself.
    Slice(usize, usize),
    /// Of an array: one for its reference.
    Array(usize),
}

impl Places {
    fn new(c: &Call) -> Places {
        let is_early = c.early.is_some();
        let count = c.params.len() + usize::from(is_early);
        let mut next = count + 7;
        let mut lent = BTreeMap::new();
        for p in c.core_muts() {
            lent.insert(p.index, if p.is_slice() { Lent::Slice(next, next + 1) } else { Lent::Array(next) });
            next += if p.is_slice() { 2 } else { 1 };
        }
        Places {
            early: count,
            row: count + 1,
            out: count + 2,
            // an early test is made before the length is read
            length: if is_early { count + 4 } else { count + 3 },
            test: if is_early { count + 3 } else { count + 4 },
            view: (count + 5, count + 6),
            lent,
            unit: next,
            again: (next + 1, next + 2),
            all: next + 3,
        }
    }

    /// The local of a parameter.
    fn of(&self, p: &Param) -> usize {
        p.index + 1
    }

    /// The local that is passed to the core for a parameter.
    fn handed(&self, p: &Param) -> usize {
        match self.lent.get(&p.index) {
            Some(Lent::Slice(_, local) | Lent::Array(local)) => *local,
            None if p.is_seats => self.row,
            None => self.of(p),
        }
    }
}

/// A call that was made, with the names that the proof uses.
struct Made<'a> {
    callee: &'a str,
    /// The type of its result, and the row of this type.
    result: &'a str,
    row: &'a str,
    /// The tokens that it returns.
    tokens: &'a str,
    lifetimes: &'a str,
    args: &'a str,
    /// The type of the last values.
    lasts: &'a str,
    /// What it ensures.
    said: &'a str,
    /// The names for the result and for the fact that it ensures this.
    named: [&'a str; 2],
}

/// A call that answers for a refused one.
struct Refusing<'a> {
    /// What was found, and the name of this fact.
    remark: &'a str,
    found: &'a str,
    /// The callee's names: of its contract, of the fact that it meets it, of its module, of what the contract depends on, and
    /// of the arguments.
    contract: &'a str,
    known: &'a str,
    callee: &'a str,
    ghost: &'a str,
    args: &'a str,
    /// The steps after which its arguments are owned, and the locals that are passed.
    owned: Vec<String>,
    locals: Vec<usize>,
    /// The answer.
    says: &'a str,
    /// The proof of the exit.
    exit: &'a str,
}

struct Steps<'a> {
    c: &'a Call,
    w: Walk,
    at: Places,
}

impl Steps<'_> {
    /// From the entry to the first test.
    fn enters(&mut self) {
        let Steps { c, w, at } = self;
        w.allocate();
        w.line("");
        for p in &c.params {
            let init = w.init(at.of(p), &p.typed());
            w.say(&format!("pass1 ! {init} $"));
        }
        w.say("pass0 ! $");
    }

    /// Tests the row's length.
    fn tests_row(&mut self) {
        let Steps { c, w, at } = self;
        let seats = c.seats();
        let length = field(w.cell(at.of(seats)), 1);
        w.assign(at.length, &format!("(of-opd ! {length})"), &format!("(tt, record {{ fits = {} .0 }})", seats.room));
        self.guards(self.at.length);
    }

    /// Tests that a local is not the number in the code.
    fn guards(&mut self, local: usize) {
        let Steps { w, at, .. } = self;
        let test = format!("(bin ! {} (lit ! tt) tt)", copy(w.cell(local)));
        w.assign(at.test, &test, "(tt, tt)");
        w.line(&format!("guards ! {}", copy(w.cell(at.test))));
    }

    /// The branch for a row that does not have sixteen seats.
    fn refused(&mut self) {
        let c = self.c;
        let passed = if c.early.is_some() { "passed" } else { "" };
        let differs = format!("(is-false (Dec.eqb (length {}) seatCount) differs)", c.seats().v);
        self.refuses(&Refusing {
            remark: "not a row of sixteen seats",
            found: "differs",
            contract: "Refused",
            known: "known-refused",
            callee: "refuser",
            ghost: "to-refused",
            args: "refused-args",
            owned: vec![c.state().owned()],
            locals: vec![self.at.of(c.state())],
            says: "refusal",
            exit: &format!("refuses r w is e {passed} {differs}"),
        });
    }

    /// The branch of a refusal: the function that answers is called, and nothing is changed.
    fn refuses(&mut self, refusing: &Refusing) {
        let before = self.w.mark();
        self.calls_refuser(refusing);
        let Steps { c, w, .. } = self;
        w.swap("drop !", 1, &[]);
        w.front(&["result"]);
        w.swap("split !", 1, &["no token", "made"]);
        w.swap("drop !", 1, &[]);
        w.line("");
        w.binds(&facts(&format!("{}D.the-row", c.result), "r", "is"), 1, &[]);
        w.lands(0, &lawful(&c.result, "r", "is"));
        w.line(&format!("returns-within ! Post refl (look ! {} refl) $", w.cell(0)));
        w.free();
        w.ends(&format!("by ! ({})", refusing.exit), before.parens);
        w.back(before);
    }

    fn calls_refuser(&mut self, refusing: &Refusing) {
        let w = &mut self.w;
        let Refusing { remark, found, contract, known, ghost, owned, .. } = refusing;
        w.line(&format!("-- {remark}: refused, and nothing is changed"));
        w.opens(&format!("(λ {found}."));
        w.line("");
        w.swap("nothing !", 0, &["args"]);
        for step in owned.iter().rev() {
            w.swap(step, 0, &["arg"]);
            w.swap("fjoin !", 2, &["args"]);
        }
        w.swap("nothing !", 0, &["no token"]);
        w.swap("join !", 2, &["entry"]);
        w.swap(&format!("use1 W (raw ({contract} 𝓤 H A at-mem run .pre {ghost})) (∗emp 𝓤 _)"), 1, &["entry"]);
        w.line("");
        let handed: Vec<String> = refusing.locals.iter().map(|local| copy(w.cell(*local))).collect();
        let called = format!("calls-at ! fm ({contract} 𝓤 H A at-mem run) {known} {ghost}");
        w.binds(&format!("{called} {} (λ w.", operands(&handed)), 1, &["post"]);
        let result = &self.c.result;
        self.after_call(&Made {
            callee: refusing.callee,
            result,
            row: &format!("{result}D.the-row"),
            tokens: "‵ ftrue",
            lifetimes: "tt",
            args: refusing.args,
            lasts: &product(owned, |_| "Unit {0}".to_string()),
            said: &format!("r ≡ {}", refusing.says),
            named: ["r", "e"],
        });
    }

    /// From the callee's postcondition to its result, the last values zs, and the fact that it ensures.
    fn after_call(&mut self, made: &Made) {
        let Made { callee, result, row, tokens, lifetimes, args, lasts, said, named: [r, e] } = made;
        let w = &mut self.w;
        w.line("");
        let had = format!("(({tokens}) ⊛ ‵ ({row} .own {r} (w ∷ [])))");
        let clauses = format!("{callee}.ended ({callee}.clauses 𝓤 H A at-mem run)");
        let ensured = format!("raw (ensured 𝓤 H A {clauses} {lifetimes} {args} tt {r})");
        let post = format!("(later (some (λ ({r} : {result}). {had} ⊛ {ensured})))");
        w.swap(&format!("use1 W {post} (id⊢ 𝓤 _)"), 1, &["post"]);
        w.say("await ! tt $");
        w.binds(&format!("pick ! (λ {r}."), 1, &["post"]);
        w.swap("split !", 1, &["result", "ensures"]);
        w.front(&["ensures"]);
        w.line("");
        let lists = format!("‵ (lasts {callee}.ended {lifetimes} {args} zs)");
        let some = format!("(some (λ (zs : {lasts}). {lists} ⊛ raw (fact 𝓤 ({said}))))");
        w.swap(&format!("use1 W {some} (id⊢ 𝓤 _)"), 1, &["said"]);
        w.binds("pick ! (λ zs.", 1, &["said"]);
        w.swap("split !", 1, &["lasts", "fact"]);
        w.front(&["fact"]);
        w.line("");
        w.binds(&format!("heard ! ({said}) (λ {e}."), 1, &[]);
    }

    /// Takes the parameters apart and loads the row.
    fn loads(&mut self) {
        let Steps { c, w, at } = self;
        let s = c.seats();
        let (v, test) = (&s.v, format!("Dec.eqb (length {}) seatCount", s.v));
        w.line("-- a row of sixteen seats");
        w.opens("(λ same.");
        w.line(&format!("let whole-row : {test} ≡ true = is-true ({test}) same in"));
        let full = format!("Dec.eqb→eq (length {v}) seatCount (subst Dec.T (sym whole-row) tt)");
        w.line(&format!("let full : length {v} ≡ seatCount = {full} in"));
        w.reborrow(at.of(s), at.view, &s.typed());
        w.line("");
        takes_apart(c, w);
        w.line("");
        w.front(&[&own(s), &token(s)]);
        let handed = operands(&[copy(w.cell(at.view.1))]);
        w.opens(&format!("loads {} ! fm known-load (λ i j. {handed}) (λ is-row.", lent_seats(s)));
        let laws = "SeatD.the-row (LL.lawful SeatD.the-type SeatL.the-laws 𝓤 H A W) seatCount";
        w.lands(at.row, &format!("(array-lawful 𝓤 H A W {laws} .typed {v} _ is-row .0)"));
    }

    /// Passes the core each `&mut` reference itself, a copy of each `&` reference, the values, and the tokens.
    fn hands_over(&mut self) {
        let Steps { c, w, at } = self;
        for p in c.core_muts() {
            match at.lent[&p.index] {
                Lent::Slice(pointer, slice) => w.reborrow(at.of(p), (pointer, slice), &p.typed()),
                Lent::Array(reference) => w.reborrow_array(at.of(p), reference),
            }
        }
        w.line("-- the call by value");
        w.line("");
        let mut args = "true".to_string();
        for p in c.params.iter().rev() {
            if p.is_seats {
                w.swap(&owned_row(p), 0, &["arg"]);
            } else if !p.is_ref() {
                w.swap(&p.owned(), 0, &["arg"]);
            } else {
                w.front(&[&own(p)]);
                w.rename("arg");
            }
            w.front(&["arg", &args]);
            args = format!("args from {}", p.name);
            w.swap("fjoin !", 2, &[&args]);
        }
        let tokens = w.join_all("join", &named("token", c.core_refs()), "no token", "tokens");
        w.front(&[&tokens, &args]);
        w.swap("join !", 2, &["entry"]);
        w.swap("use1 W (raw (Core 𝓤 H A at-mem run .pre to-core)) (∗emp 𝓤 _)", 1, &["entry"]);
    }

    /// Calls the core and takes apart what it returns.
    fn calls(&mut self) {
        let Steps { c, w, at } = self;
        let handed: Vec<String> = c.params.iter().map(|p| copy(w.cell(at.handed(p)))).collect();
        let called = "calls-at ! fm (Core 𝓤 H A at-mem run) known-core to-core";
        w.line("");
        w.binds(&format!("{called} {} (λ w.", operands(&handed)), 1, &["post"]);
        let c = self.c;
        let changed = |p: &Param| p.changes() && !p.is_seats;
        let lasts = product(&c.params, |p| if changed(p) { p.denot() } else { "Unit {0}".to_string() });
        let values = spaced(&c.params, |p| p.v.clone());
        let said = format!("Core{} {values} r{}", c.kind, joined(&c.core_muts(), "", |p| format!(" {}", last(p))));
        self.after_call(&Made {
            callee: "core",
            result: &c.made,
            row: &format!("{}D.the-row", c.made),
            tokens: &tokens(&c.core_refs()),
            lifetimes: "κs′",
            args: "args",
            lasts: &lasts,
            said: &said,
            named: ["r", "e"],
        });
        self.takes_back();
    }

    /// Takes the last values and the result of the core.
    fn takes_back(&mut self) {
        let Steps { c, w, at } = self;
        for p in &c.params {
            let is_array = p.changes() && !p.is_slice();
            w.swap("fsplit !", 1, &[&format!("{} {}", if is_array { "final" } else { "last" }, p.name), "lasts"]);
            if p.changes() && p.is_slice() && !p.is_seats {
                w.swap("fsplit !", 1, &[&format!("final {}", p.name), "its length"]);
                w.front(&["its length"]);
                w.binds(&format!("feqL ! (λ {}.", p.len), 1, &[]);
            }
            w.front(&["lasts"]);
        }
        w.front(&["result"]);
        w.swap("split !", 1, &["tokens back", "made"]);
        w.front(&["made"]);
        w.line("");
        let made = &c.made;
        w.binds(&facts(&format!("{made}D.the-row"), "r", "is"), 1, &[]);
        w.lands(at.out, &lawful(made, "r", "is"));
        let cell = format!("(λ (u : Val). ‵ (fat fullShare {made}L.mir {} 0 u))", local(at.out));
        let place = w.cell(at.out);
        w.say(&format!("rewrite ! {place} {cell} (ap only ({made}L.lowers .val-is r (w ∷ []) is)) refl $"));
    }

    /// Stores the row, or the seat that changed.
    fn stores(&mut self) {
        let Steps { c, w, at } = self;
        let s = c.seats();
        let (noun, fields) = match c.stored {
            Stored::Row => ("row", 0..1),
            Stored::Seat => ("seat", 0..2),
        };
        w.line(&format!("-- the {noun} is stored"));
        w.reborrow(at.of(s), at.again, &s.typed());
        w.line("");
        w.front(&[&own(s), &token(s)]);
        // when the operands are read, there is one item less before the locals
        let parts = fields.map(|part| field(w.cell(at.out) - 1, part));
        let handed: Vec<String> = [copy(w.cell(at.again.1) - 1)].into_iter().chain(parts).collect();
        let (lent, handed, is) = (lent_seats(s), operands(&handed), is_part(c, noun));
        w.line(&match c.stored {
            Stored::Row => format!("stores {lent} (r .row) {is} ! fm known-store (λ i. {handed}) $"),
            Stored::Seat => {
                let fits = format!("({}-at-fits r (w ∷ []) is)", c.out());
                format!("puts {lent} (r .at) (r .seat) {fits} {is} ! fm known-put (λ i. {handed}) $")
            }
        });
        w.rename(&format!("final {}", s.name));
        w.lands(at.unit, "(tt, tt)");
    }

    /// Returns the answer.
    fn returns(&mut self) {
        let Steps { c, w, at } = self;
        let answer_is = is_part(c, "answer");
        let answer = field(w.cell(at.out), if c.stored == Stored::Row { 1 } else { 2 });
        w.assign(0, &format!("(of-opd ! {answer})"), &lawful(&c.result, "(r .answer)", &answer_is));
        w.line(&format!("returns ! (look ! {} refl) $", w.cell(0)));
        w.free();
        w.line("");
        gathers(c, w);
        let v = &c.seats().v;
        let (row, row_length) = match c.stored {
            Stored::Row => ("(r .row)".to_string(), format!("({} .1 .0 .1 ∙ sym full)", is_part(c, "row"))),
            Stored::Seat => (format!("(set {v} (r .at) (r .seat))"), format!("(length-set {v} (r .at) (r .seat))")),
        };
        let finals = spaced(&c.muts(), |p| if p.is_seats { row.clone() } else { last(p) });
        let lengths = spaced(&c.mut_slices(), |p| if p.is_seats { &row_length } else { &p.len }.clone());
        let (values, lasts) = (spaced(&c.params, |p| p.v.clone()), spaced(&c.core_muts(), |p| last(p)));
        let passed = if c.early.is_some() { "passed" } else { "" };
        let said = format!("(done-{} {values} {passed} r {lasts} e)", c.law());
        w.ends(&format!("by ! (exits (r .answer) _ {finals} {lengths} {answer_is} {said})"), 0);
    }
}

/// Splits what is owned: into one item for each `&mut` reference and two for each `&` reference. What is owned of values
/// is dropped. Splits the tokens into one item for each reference.
fn takes_apart(c: &Call, w: &mut Walk) {
    w.front(&["owned"]);
    w.split_all("fsplit", &named("own", &c.params), "true");
    for p in &c.params {
        match p.loan() {
            None => {
                w.front(&[&own(p)]);
                w.swap("drop !", 1, &[]);
            }
            Some(Loan::Shared) => copies(p, w),
            Some(Loan::Mut) => {}
        }
    }
    w.front(&["tokens"]);
    w.split_all("split", &named("token", c.refs()), "no token");
}

/// Makes two items of what is owned of a `&` reference.
fn copies(p: &Param, w: &mut Walk) {
    let had = &p.own;
    w.front(&[&own(p)]);
    w.swap(&format!("use1 W (‵ {had} ⊛ ‵ {had}) {}", p.twice()), 1, &["both"]);
    w.swap("split !", 1, &[&own(p), &format!("copy {}", p.name)]);
}

/// Joins all tokens into one item. What is owned of each reference at exit comes after it.
fn gathers(c: &Call, w: &mut Walk) {
    w.front(&["tokens back"]);
    if c.core_refs().is_empty() {
        w.rename("no token");
    }
    w.split_all("split", &named("token", c.core_refs()), "no token");
    let tokens = w.join_all("join", &named("token", c.refs()), "no token", "tokens");
    let had = |p: &Param| format!("{} {}", if p.changes() { "final" } else { "copy" }, p.name);
    let kept: Vec<String> = [tokens].into_iter().chain(c.refs().into_iter().map(had)).collect();
    w.keep(&strs(&kept));
}

/// The step from the owned value `r` of a row to the fact that it is in its row.
fn facts(row: &str, r: &str, is: &str) -> String {
    format!("facts ! {row} (Is {row}) (shows 𝓤 H A {row}) {r} (w ∷ []) (λ {is}.")
}

/// The tokens of references, as a callee returns them.
fn tokens(refs: &[&Param]) -> String {
    [joined(refs, "", |p| format!("{} ⊛ ", p.token())), "‵ ftrue".to_string()].concat()
}

/// The proof that a field of the struct that the core returned is in its row.
fn is_part(c: &Call, field: &str) -> String {
    format!("({}-{field}-is r (w ∷ []) is)", c.out())
}

/// The arguments about the seats for the load and the store.
fn lent_seats(s: &Param) -> String {
    let Param { k, q, b, o, g, v, room, .. } = s;
    format!("𝓤 H A W at-mem run {k} {q} {b} {o} {g} {v} {room} full")
}

/// The step after which the loaded row is owned.
fn owned_row(s: &Param) -> String {
    let array = "(Array SeatD.the-row seatCount)";
    let seat = "(LL.makes SeatD.the-type SeatL.the-plain 𝓤 H A)";
    let makes = format!("(array-makes 𝓤 H A W SeatD.the-row {seat} seatCount)");
    format!("owned ! {array} (Is {array}) {makes} {} _ is-row", s.v)
}
