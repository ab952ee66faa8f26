//! Reads the calls on lent seats from the source of a module.

use crate::lengths::{self, Modules};
use crate::lex;
use crate::param::{Kind, Loan, Param, Type};
use crate::text::spaced;

/// The struct of the elements of the lent row.
const SEAT: &str = "Seat";

/// A call on lent seats.
pub struct Call {
    pub crate_name: String,
    pub module: String,
    pub name: String,
    pub params: Vec<Param>,
    pub result: String,
    /// The X of its XLent and CoreX.
    pub kind: String,
    /// What it tests before the row, if it does.
    pub early: Option<Early>,
    /// The function that answers if the row does not have sixteen seats, and the place of the parameter that it takes.
    pub refuser: String,
    state: usize,
    /// The call by value, and the struct that it returns.
    pub core: String,
    pub made: String,
    /// What it stores in the row after the call by value.
    pub stored: Stored,
    /// The structs that the call names, sorted by name, and where they are declared.
    pub homes: Vec<(String, Home)>,
}

/// A test before that of the row: the function that tests, the places of the parameters that it takes, and the function
/// that answers if it returns another number than 0.
pub struct Early {
    pub tester: String,
    takes: Vec<usize>,
    pub answerer: String,
}

/// What a call stores in the row.
#[derive(Clone, Copy, Debug, PartialEq)]
pub enum Stored {
    /// All seats: the call by value returns `row` and `answer`.
    Row,
    /// One seat: the call by value returns `at`, `seat` and `answer`.
    Seat,
}

impl Call {
    /// The row of seats.
    pub fn seats(&self) -> &Param {
        self.params.iter().find(|p| p.is_seats).expect("a call has a row of seats")
    }

    /// The desk's state.
    pub fn state(&self) -> &Param {
        &self.params[self.state]
    }

    /// The slices and the arrays.
    pub fn refs(&self) -> Vec<&Param> {
        self.params.iter().filter(|p| p.is_ref()).collect()
    }

    /// The slices and the arrays that the call may change.
    pub fn muts(&self) -> Vec<&Param> {
        self.params.iter().filter(|p| p.changes()).collect()
    }

    /// The slices that the call may change.
    pub fn mut_slices(&self) -> Vec<&Param> {
        self.params.iter().filter(|p| p.changes() && p.is_slice()).collect()
    }

    /// The slices and the arrays that the call by value takes.
    pub fn core_refs(&self) -> Vec<&Param> {
        self.params.iter().filter(|p| p.is_ref() && !p.is_seats).collect()
    }

    /// The slices and the arrays that the call by value may change.
    pub fn core_muts(&self) -> Vec<&Param> {
        self.params.iter().filter(|p| p.changes() && !p.is_seats).collect()
    }

    /// The parameters that are tested before the row.
    pub fn tested(&self) -> Vec<&Param> {
        let takes = self.early.iter().flat_map(|early| &early.takes);
        takes.map(|place| &self.params[*place]).collect()
    }

    /// The slices and the arrays that are tested before the row.
    pub fn tested_refs(&self) -> Vec<&Param> {
        self.tested().into_iter().filter(|p| p.is_ref()).collect()
    }

    /// What the tester ensures of the number `n`.
    pub fn test(&self, n: &str) -> String {
        format!("Test{} {} {n}", self.kind, spaced(&self.tested(), |p| p.v.clone()))
    }

    /// The answer after an early test that found the number `n`.
    pub fn early_refusal(&self, n: &str) -> String {
        format!("early-refusal-{} {} {n}", self.law(), self.state().v)
    }

    /// The X of its laws `done-x` and `refused-x`.
    pub fn law(&self) -> String {
        self.kind.to_lowercase()
    }

    /// The beginning of the names of the laws about the struct that the call by value returns.
    pub fn out(&self) -> String {
        self.made.to_lowercase()
    }
}

/// Where a struct is declared.
pub struct Home {
    crate_name: String,
    pub module: String,
    /// Is it declared in the call's crate?
    own: bool,
}

impl Home {
    /// The path of the crate's `part`, which is `specs` or `proofs`.
    pub fn part(&self, part: &str) -> String {
        let Home { crate_name, own, .. } = self;
        if *own {
            format!("Rattle·{crate_name}·{part}.{part}")
        } else {
            format!("Rattle·{crate_name}.{part}")
        }
    }
}

/// The calls on lent seats of a module, in their order, or what is wrong with one.
pub fn calls(crate_name: &str, module: &str, text: &str, modules: Modules) -> Result<Vec<Call>, String> {
    let source = Source { crate_name, module, tokens: lex::tokens(text), modules };
    let starts = 0..source.tokens.len();
    starts.filter_map(|at| source.call_at(at).map(|name| source.call(name, at))).collect()
}

struct Source<'a> {
    crate_name: &'a str,
    module: &'a str,
    tokens: Vec<&'a str>,
    modules: Modules<'a>,
}

impl Source<'_> {
    /// The name of the exported function that begins at `at`, if there is one and it is lent seats.
    fn call_at(&self, at: usize) -> Option<&str> {
        let ["pub", "extern", "\"C\"", "fn", name, rest @ ..] = &self.tokens[at..] else { return None };
        let signature = rest.split(|token| *token == "{").next()?;
        signature.windows(4).any(|w| w == ["mut", "[", SEAT, "]"]).then_some(name)
    }

    /// The call `name`, which begins at `at`.
    fn call(&self, name: &str, at: usize) -> Result<Call, String> {
        let form = Form::read(&self.tokens[at..]);
        let mut form = form.ok_or(format!("{name} does not have the form of a call on lent seats"))?;
        let in_order = form.params.iter().map(|p| if p.is_seats { "row" } else { &p.name });
        if !in_order.eq(form.handed.iter().map(String::as_str)) {
            return Err(format!("{name} hands its parameters on in another order"));
        }
        let early = form.early.take().map(|test| self.early(name, &form.params, test)).transpose()?;
        let made = self.result_of(form.core, Reader::structure).ok_or(not_here(name, form.core))?;
        self.count(name, &mut form.params)?;
        Ok(Call {
            crate_name: self.crate_name.to_string(),
            module: self.module.to_string(),
            name: name.to_string(),
            homes: self.homes(&form, made),
            params: form.params,
            result: form.result.to_string(),
            kind: form.kind.to_string(),
            early,
            refuser: form.refuser.to_string(),
            state: form.state,
            core: form.core.to_string(),
            made: made.to_string(),
            stored: form.stored,
        })
    }

    /// The early test of the call `name`. The tester takes some of the parameters in their order, none that may change,
    /// and returns a `u32`.
    fn early(&self, name: &str, params: &[Param], test: Test) -> Result<Early, String> {
        let Test { tester, handed, answerer } = test;
        let mut takes = Vec::new();
        for word in &handed {
            let place = params.iter().position(|p| p.name == *word);
            let place = place.filter(|place| takes.last().is_none_or(|last| last < place));
            takes.push(place.ok_or(format!("{name} hands {tester} its parameters in another order"))?);
        }
        if let Some(place) = takes.iter().find(|place| params[**place].changes()) {
            return Err(format!("{name} hands {tester} {}, which may change", params[*place].name));
        }
        match self.result_of(tester, Reader::word).ok_or(not_here(name, tester))? {
            "u32" => Ok(Early { tester: tester.to_string(), takes, answerer: answerer.to_string() }),
            _ => Err(format!("{name} calls {tester}, which does not return a u32")),
        }
    }

    /// Replaces the names of constants in the lengths of arrays by numbers.
    fn count(&self, name: &str, params: &mut [Param]) -> Result<(), String> {
        for length in params.iter_mut().flat_map(|p| &mut p.lengths) {
            let number = lengths::number(self.modules, self.crate_name, self.module, length);
            *length = number.ok_or(format!("{name} takes an array of {length} elements: what number is {length}?"))?;
        }
        Ok(())
    }

    /// The type that the module's function `name` returns, read by `read`.
    fn result_of<'b>(&'b self, name: &str, read: impl Fn(&mut Reader<'b>) -> Option<&'b str>) -> Option<&'b str> {
        let at = self.tokens.windows(2).position(|w| w == ["fn", name])?;
        let mut reader = Reader { rest: &self.tokens[at + 2..] };
        reader.list()?;
        reader.all("- >")?;
        read(&mut reader)
    }

    /// The structs of a call, sorted by name, each once, and where they are declared.
    fn homes(&self, form: &Form, made: &str) -> Vec<(String, Home)> {
        let of_params = form.params.iter().filter(|p| p.is_of_struct()).map(|p| p.of.as_str());
        let mut names: Vec<&str> = of_params.chain([form.result, made]).collect();
        names.sort_unstable();
        names.dedup();
        names.into_iter().map(|name| (name.to_string(), self.home(name))).collect()
    }

    /// Where the struct `name` is declared: where a `use` imports it from, or in this module.
    fn home(&self, name: &str) -> Home {
        let (from, module) = imported(&self.tokens, name).unwrap_or(("crate", self.module));
        let own = from == "crate";
        Home { crate_name: if own { self.crate_name } else { from }.to_string(), module: module.to_string(), own }
    }
}

/// Where a `use` imports a name from: the crate and the module.
pub fn imported<'a>(tokens: &[&'a str], name: &str) -> Option<(&'a str, &'a str)> {
    tokens.windows(9).find_map(|w| match w {
        ["use", from, ":", ":", module, ":", ":", last, ";"] if *last == name => Some((*from, *module)),
        _ => None,
    })
}

fn not_here(name: &str, function: &str) -> String {
    format!("{name} calls {function}, which is not here")
}

/// The parts of a call, read from its text.
struct Form<'a> {
    params: Vec<Param>,
    result: &'a str,
    kind: &'a str,
    early: Option<Test<'a>>,
    refuser: &'a str,
    /// The place of the parameter that the refuser takes.
    state: usize,
    core: &'a str,
    /// The arguments of the core.
    handed: Vec<String>,
    stored: Stored,
}

/// The parts of an early test: the function that tests, its arguments, and the function that answers.
struct Test<'a> {
    tester: &'a str,
    handed: Vec<String>,
    answerer: &'a str,
}

impl<'a> Form<'a> {
    /// Reads a call from its `pub` to its last brace; nothing if it does not have the form.
    fn read(tokens: &'a [&'a str]) -> Option<Form<'a>> {
        let mut reader = Reader { rest: tokens };
        reader.all("pub extern \"C\" fn")?;
        reader.word()?;
        let params = params(&reader.list()?)?;
        reader.all("- >")?;
        let result = reader.structure()?;
        reader.all("ensures { λ r . ⌜")?;
        let kind = reader.word()?.strip_suffix("Lent").filter(|kind| !kind.is_empty())?;
        reader.all(&said(&params))?;
        reader.all("⌝ } {")?;
        Form::body(&mut reader, params, result, kind)
    }

    /// Reads the call's body, without its first brace.
    fn body(reader: &mut Reader<'a>, mut params: Vec<Param>, result: &'a str, kind: &'a str) -> Option<Form<'a>> {
        let early = if reader.rest.first() == Some(&"let") { Some(Test::read(reader)?) } else { None };
        let (early, early_state) = early.unzip();
        reader.all("if")?;
        let seats = reader.word()?;
        reader.all(". len ( ) ! = SEATS { return")?;
        let refuser = reader.word()?;
        reader.all("(")?;
        let state = reader.word()?;
        reader.all(&format!(") ; }} let row = load ( {seats} ) ; let out ="))?;
        let core = reader.word()?;
        let handed = reader.handed()?;
        reader.all(";")?;
        let stored = Stored::read(reader, seats)?;
        reader.all("; out . answer }")?;
        let row = params.iter_mut().find(|p| p.name == seats && p.kind == Kind::Slice(Loan::Mut) && p.of == SEAT)?;
        row.is_seats = true;
        let same_state = early_state.is_none_or(|early| early == state);
        let state = params.iter().position(|p| p.name == state && p.kind == Kind::Struct && same_state)?;
        // a variable of this name would hide the parameter
        let hidden = |p: &Param| p.name == "row" || p.name == "early" && early.is_some();
        if params.iter().any(hidden) {
            return None;
        }
        Some(Form { params, result, kind, early, refuser, state, core, handed, stored })
    }
}

impl Stored {
    /// Reads the call that stores in the row `seats`.
    fn read(reader: &mut Reader, seats: &str) -> Option<Stored> {
        let (stored, handed) = match reader.word()? {
            "store" => (Stored::Row, "out . row"),
            "put_seat" => (Stored::Seat, "out . at , out . seat"),
            _ => return None,
        };
        reader.all(&format!("( {seats} , {handed} )"))?;
        Some(stored)
    }
}

impl<'a> Test<'a> {
    /// Reads an early test, and the parameter that its answer takes beside the number.
    fn read(reader: &mut Reader<'a>) -> Option<(Test<'a>, &'a str)> {
        reader.all("let early =")?;
        let tester = reader.word()?;
        let handed = reader.handed()?;
        reader.all("; if early ! = 0 { return")?;
        let answerer = reader.word()?;
        reader.all("(")?;
        let state = reader.word()?;
        reader.all(", early ) ; }")?;
        Some((Test { tester, handed, answerer }, state))
    }
}

/// The parameters of a list.
fn params(list: &[&[&str]]) -> Option<Vec<Param>> {
    let mut found: Vec<Param> = Vec::new();
    for tokens in list {
        let (name, of) = match tokens {
            [name, ":", "&", "mut", of @ ..] => (name, lent(Loan::Mut, of)?),
            [name, ":", "&", of @ ..] => (name, lent(Loan::Shared, of)?),
            [name, ":", of] => (name, Type::Value(of)),
            _ => return None,
        };
        let lifetime = found.iter().filter(|p| p.is_ref()).count();
        found.push(Param::new(name, of, found.len(), lifetime)?);
    }
    Some(found)
}

/// The type of a slice or an array that is lent.
fn lent<'a>(loan: Loan, tokens: &[&'a str]) -> Option<Type<'a>> {
    match tokens {
        ["[", of, "]"] => Some(Type::Slice(loan, of)),
        _ => array(tokens).map(|(of, lengths)| Type::Array(loan, of, lengths)),
    }
}

/// The type of an array's elements, and its lengths, from the inside to the outside.
fn array<'a>(tokens: &[&'a str]) -> Option<(&'a str, Vec<&'a str>)> {
    let ["[", inside @ .., ";", length, "]"] = tokens else { return None };
    let (of, mut lengths) = match inside {
        [of] => (*of, Vec::new()),
        _ => array(inside)?,
    };
    lengths.push(*length);
    Some((of, lengths))
}

/// The arguments of XLent in what a call ensures: each parameter at entry, the result, and at exit each parameter that it
/// may change.
fn said(params: &[Param]) -> String {
    let at = |p: &Param, time: &str| format!("( now ( {} . {time} ) )", p.name);
    let entry = params.iter().map(|p| if p.is_ref() { at(p, "entry") } else { p.name.clone() });
    let exit = params.iter().filter(|p| p.changes()).map(|p| at(p, "exit"));
    entry.chain(["r".to_string()]).chain(exit).collect::<Vec<_>>().join(" ")
}

/// Reads tokens.
struct Reader<'a> {
    rest: &'a [&'a str],
}

impl<'a> Reader<'a> {
    /// Reads these tokens, which are separated by blanks; nothing if the next tokens are others.
    fn all(&mut self, tokens: &str) -> Option<()> {
        tokens.split(' ').try_for_each(|token| self.next().filter(|next| *next == token).map(|_| ()))
    }

    fn word(&mut self) -> Option<&'a str> {
        self.next().filter(|token| lex::is_word(token))
    }

    /// Reads the name of a struct.
    fn structure(&mut self) -> Option<&'a str> {
        self.word().filter(|word| word.starts_with(char::is_uppercase))
    }

    /// Reads the arguments of a call.
    fn handed(&mut self) -> Option<Vec<String>> {
        Some(self.list()?.iter().map(|item| item.concat()).collect())
    }

    /// Reads a list in parentheses, split at its commas. There may be a comma after the last item.
    fn list(&mut self) -> Option<Vec<&'a [&'a str]>> {
        self.all("(")?;
        let end = self.rest.iter().position(|token| *token == ")")?;
        let (list, rest) = self.rest.split_at(end);
        self.rest = &rest[1..];
        Some(list.split(|token| *token == ",").filter(|item| !item.is_empty()).collect())
    }

    fn next(&mut self) -> Option<&'a str> {
        let (first, rest) = self.rest.split_first()?;
        self.rest = rest;
        Some(first)
    }
}
