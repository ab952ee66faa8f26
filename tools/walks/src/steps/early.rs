//! The steps of an early test, before that of the row.

use super::{copies, facts, named, tokens, Made, Refusing, Steps};
use crate::number::U32;
use crate::text::product;
use crate::walk::{copy, local, operands};

/// The proof that the number n of the early test is in its row, with the value in MIR written out.
const IS_N: &str = "(refl, is-n .1)";

impl Steps<'_> {
    /// From the entry to the test of the row, if there is an early test.
    pub(super) fn tests_early(&mut self) {
        self.lends_tester();
        self.calls_tester();
        self.puts_together();
        self.guards(self.at.early);
        self.refused_early();
        let Steps { c, w, .. } = self;
        w.line("-- the early test found nothing");
        w.opens("(λ none.");
        let is_true = "subst Dec.T (sym (is-true (Dec.eqb n 0) none)) tt";
        let said = format!("subst (λ (k : {}). {}) (Dec.eqb→eq n 0 ({is_true})) t", U32.denot(), c.test("k"));
        w.line(&format!("let passed : {} = {said} in", c.test("0")));
    }

    /// Takes the parameters apart, and passes the tester a copy of each `&` reference, the values, and the tokens.
    fn lends_tester(&mut self) {
        let Steps { c, w, .. } = self;
        w.line("-- what is tested before the row");
        w.line("");
        w.front(&["owned"]);
        w.split_all("fsplit", &named("own", &c.params), "true");
        w.front(&["tokens"]);
        w.split_all("split", &named("token", c.refs()), "no token");
        c.tested_refs().into_iter().for_each(|p| copies(p, w));
        w.swap("nothing !", 0, &["args"]);
        for p in c.tested().into_iter().rev() {
            if p.is_ref() {
                w.front(&[&format!("copy {}", p.name), "args"]);
            } else {
                w.swap(&p.owned(), 0, &["arg"]);
            }
            w.swap("fjoin !", 2, &["args"]);
        }
        w.swap("nothing !", 0, &["no tested token"]);
        let tokens = w.join_all("join", &named("token", c.tested_refs()), "no tested token", "tokens");
        w.front(&[&tokens, "args"]);
        w.swap("join !", 2, &["entry"]);
        w.swap("use1 W (raw (Tested 𝓤 H A at-mem run .pre to-tested)) (∗emp 𝓤 _)", 1, &["entry"]);
    }

    /// Calls the tester. Its result is n.
    fn calls_tester(&mut self) {
        let Steps { c, w, at } = self;
        let handed: Vec<String> = c.tested().into_iter().map(|p| copy(w.cell(at.of(p)))).collect();
        let called = "calls-at ! fm (Tested 𝓤 H A at-mem run) known-tested to-tested";
        w.line("");
        w.binds(&format!("{called} {} (λ w.", operands(&handed)), 1, &["post"]);
        let c = self.c;
        self.after_call(&Made {
            callee: "tester",
            result: U32.denot(),
            row: U32.name(),
            tokens: &tokens(&c.tested_refs()),
            lifetimes: "test-κs",
            args: "test-args",
            lasts: &product(&c.tested(), |_| "Unit {0}".to_string()),
            said: &c.test("n"),
            named: ["n", "t"],
        });
    }

    /// Takes the tester's result, and puts together what was taken apart.
    fn puts_together(&mut self) {
        let Steps { c, w, at } = self;
        w.swap("drop !", 1, &[]);
        w.front(&["result"]);
        w.swap("split !", 1, &["tokens back", "made"]);
        w.front(&["made"]);
        w.line("");
        w.binds(&facts(U32.name(), "n", "is-n"), 1, &[]);
        w.lands(at.early, &U32.lawful("n", "is-n"));
        let cell = format!("(λ (u : Val). ‵ (fat fullShare {} {} 0 u))", U32.mir(), local(at.early));
        w.say(&format!("rewrite ! {} {cell} (ap only (is-n .0)) refl $", w.cell(at.early)));
        w.line("");
        w.front(&["tokens back"]);
        if c.tested_refs().is_empty() {
            w.rename("no tested token");
        }
        w.split_all("split", &named("token", c.tested_refs()), "no tested token");
        w.swap("drop !", 1, &[]);
        w.join_all("fjoin", &named("own", &c.params), "true", "owned");
        w.rename("owned");
        w.join_all("join", &named("token", c.refs()), "no token", "tokens");
        w.rename("tokens");
        w.front(&["tokens", "owned"]);
    }

    /// The branch for an early test that found something.
    fn refused_early(&mut self) {
        let c = self.c;
        self.refuses(&Refusing {
            remark: "the early test found something",
            found: "found",
            contract: "Early",
            known: "known-early",
            callee: "answerer",
            ghost: "(to-early n)",
            args: "(early-args n)",
            owned: vec![c.state().owned(), U32.owned("n", IS_N)],
            locals: vec![self.at.of(c.state()), self.at.early],
            says: &c.early_refusal("n"),
            exit: "refuses-early n r w is e t (is-false (Dec.eqb n 0) found)",
        });
    }
}
