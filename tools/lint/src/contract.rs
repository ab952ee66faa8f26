//! Finds what the contract of a public function lacks, and which form its promise has.

use crate::lex;
use crate::parse::{Function, Implements};

/// The marks between claims. A text with one of them outside parentheses is more than one equation or one predicate.
const BETWEEN_CLAIMS: [&str; 6] = ["≡", "≢", "×", "→", "⊎", "↔"];

/// What a clause calls the returned value.
const RESULT: &str = "result";

/// The words that begin a term that is no predicate with its arguments.
const NO_PREDICATES: [&str; 8] = ["λ", "let", "if", "elim", "do", "unfold", "record", "Type"];

/// The form of a promise.
pub enum Promise {
    /// An equation says what the outcome is, so no second outcome meets it.
    Equation,
    /// The outcome meets the predicate of this name.
    Predicate(String),
    Neither,
}

/// The traits of std whose functions have nothing to say: no contract speaks of what is shown to people.
const SHOWING: [&str; 1] = ["Display"];

/// What the contract lacks. For a function that is only for tests, the only fault is a `requires`. In an `impl` of one of the
/// traits `own`, which the repository declares, a function has the contract of its declaration there. In an `impl` of any
/// other trait a ghost member must say what it does, by an equation, so that no second outcome meets it.
pub fn faults(function: &Function, for_tests: bool, own: &[String]) -> Vec<String> {
    let mut found = Vec::new();
    if clauses(function, "requires").next().is_some() {
        found.push("has a `requires`".to_string());
    }
    if for_tests {
        return found;
    }
    let ensures = || clauses(function, "ensures");
    if let Some(Implements { name, says }) = &function.implements {
        let fixed = says.iter().any(|text| gives_one(text)) || ensures().any(|text| is_equation(function, text));
        if fixed || SHOWING.contains(&name.as_str()) || own.contains(name) {
            return found;
        }
        let nothing = says.is_empty() && ensures().next().is_none();
        let lacks = if nothing { "says what it does" } else { "is an equation of what it gives" };
        found.push(format!("is of the trait {name}, and no ghost member of the `impl` {lacks}"));
        return found;
    }
    if ensures().next().is_none() {
        found.push("has no `ensures`".to_string());
    } else if function.gives && !ensures().any(|text| names(text, RESULT)) {
        found.push("gives a value back, and no `ensures` names it".to_string());
    }
    for name in &function.lent {
        if !ensures().any(|text| names_field(text, name, "new")) {
            found.push(format!("`{name}` is lent by `&mut`, and no `ensures` names `{name}.new`"));
        }
    }
    found
}

/// The form of the function's promise; none if it has no `ensures`. Of several `ensures` one that leaves no second outcome
/// is enough, since the others can only add to it. So an equation counts first, and then the first predicate. With a `ghost`
/// value it is neither, since the promise then holds only of what the caller picks for it. A function in an `impl` of a trait
/// has none of its own.
pub fn promise(function: &Function) -> Option<Promise> {
    if function.implements.is_some() {
        return None;
    }
    let ghost = clauses(function, "ghost").next().is_some();
    let form = |text| if ghost { Promise::Neither } else { form(function, text) };
    let forms = clauses(function, "ensures").map(form);
    forms.min_by_key(|form| match form {
        Promise::Equation => 0,
        Promise::Predicate(_) => 1,
        Promise::Neither => 2,
    })
}

/// The texts of the clauses with this keyword.
fn clauses<'a>(function: &'a Function, wanted: &'a str) -> impl Iterator<Item = &'a [String]> {
    function.clauses.iter().filter(move |(keyword, _)| keyword == wanted).map(|(_, text)| text.as_slice())
}

/// The form of one `ensures`.
fn form(function: &Function, text: &[String]) -> Promise {
    if is_equation(function, text) {
        return Promise::Equation;
    }
    predicate(text).map_or(Promise::Neither, Promise::Predicate)
}

/// Is it `result ≡ ..`, or `x.new ≡ ..` of a function that is lent only x and returns nothing? The right side must not name
/// the result, or what x is at the end.
fn is_equation(function: &Function, text: &[String]) -> bool {
    let left = match function.lent.as_slice() {
        [] => vec![RESULT],
        [lent] if !function.gives => vec![lent, ".", "new"],
        _ => return false,
    };
    let sides = text.split_at_checked(left.len()).filter(|(side, _)| *side == left);
    let Some([mark, right @ ..]) = sides.map(|(_, rest)| rest) else { return false };
    let at_the_end = |lent: &String| names_field(right, lent, "new") || names_field(right, lent, "exit");
    let by_itself = !names(right, RESULT) && !function.lent.iter().any(at_the_end);
    let one = !outside(right).any(|name| BETWEEN_CLAIMS.contains(&name));
    mark == "≡" && !right.is_empty() && by_itself && one
}

/// Is it `λ a .. r. r ≡ ..`, where the right side does not name r? Then it leaves one value for r.
fn gives_one(text: &[String]) -> bool {
    let Some(dot) = text.iter().position(|name| name == ".") else { return false };
    let (binds, said) = (&text[..dot], &text[dot + 1..]);
    let (Some(first), Some(result), [left, mark, right @ ..]) = (binds.first(), binds.last(), said) else { return false };
    let one = !outside(right).any(|name| BETWEEN_CLAIMS.contains(&name));
    let bound = first == "λ" && binds.len() > 1;
    bound && left == result && mark == "≡" && !right.is_empty() && !names(right, result) && one
}

/// The name P of a text `P a (b c) ..` or `M.P a ..`. A module's name begins with a capital; after another name the dot is that
/// of a field.
fn predicate(text: &[String]) -> Option<String> {
    let dots = text.iter().skip(1).step_by(2).take_while(|name| *name == ".").count();
    let head = text.get(2 * dots)?;
    let is_name = head.chars().any(char::is_alphanumeric) && head != RESULT && !NO_PREDICATES.contains(&head.as_str());
    let modules = text.iter().step_by(2).take(dots).all(|name| name.starts_with(char::is_uppercase));
    let applied = text.len() > 2 * dots + 1 && !outside(text).any(is_operator);
    (is_name && modules && applied).then(|| head.clone())
}

/// Is it a name made only of marks, such as `≤`? `[]` and `_` do not count.
fn is_operator(name: &str) -> bool {
    name.chars().all(|c| lex::in_name(c) && !c.is_alphanumeric()) && !["[]", "_"].contains(&name)
}

/// The names and marks of a text that are outside its parentheses and braces.
fn outside(text: &[String]) -> impl Iterator<Item = &str> {
    let mut depth = 0;
    text.iter().map(String::as_str).filter(move |name| {
        depth -= i32::from([")", "}"].contains(name));
        let here = depth == 0;
        depth += i32::from(["(", "{"].contains(name));
        here
    })
}

/// Does the text name `wanted`?
fn names(text: &[String], wanted: &str) -> bool {
    (0..text.len()).any(|i| names_at(text, i, wanted))
}

/// Does the text name `parameter.field`?
fn names_field(text: &[String], parameter: &str, field: &str) -> bool {
    let has = |i: usize| text[i + 1..].starts_with(&[".".to_string(), field.to_string()]);
    (0..text.len()).any(|i| names_at(text, i, parameter) && has(i))
}

/// Does the text name `wanted` at `i`? After a dot the same name would be a field.
fn names_at(text: &[String], i: usize, wanted: &str) -> bool {
    text[i] == wanted && (i == 0 || text[i - 1] != ".")
}
