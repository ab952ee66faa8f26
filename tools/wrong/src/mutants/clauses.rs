//! Finds the statements of a file of definitions by their layout: what each one is, and what part of it may be changed.

use super::items::find;
use super::lexer::{closing, depth_of, Token};
use std::ops::Range;

/// What a statement is.
#[derive(Clone, Copy, Debug, PartialEq, Eq)]
pub enum Form {
    /// A `use`, or the head of a module, a record or a type.
    Head,
    Signature,
    /// A field of a record or a constructor of a type.
    Field,
    Equation,
}

/// A module that contains a statement: where it begins, and the types of the parameters that a caller outside it passes.
#[derive(Clone, Debug, PartialEq, Eq)]
pub struct Module {
    at: usize,
    pub params: Vec<String>,
}

#[derive(Clone, Debug)]
pub struct Statement {
    pub form: Form,
    pub name: String,
    /// Of an equation: what is between the name and the `=`.
    pub patterns: Range<usize>,
    /// What is after the `=` or the colon.
    pub body: Range<usize>,
    pub modules: Vec<Module>,
}

/// A block of statements that begin at the same column.
struct Block {
    column: usize,
    /// Does it belong to a record or a type?
    declares: bool,
    modules: Vec<Module>,
}

const MODIFIERS: [&str; 6] = ["pub", "abbrev", "unfoldable", "opaque", "private", "instance"];

/// The statements of the tokens of a file.
pub fn statements(tokens: &[Token]) -> Vec<Statement> {
    let mut blocks = vec![Block { column: 0, declares: false, modules: Vec::new() }];
    let mut found = Vec::new();
    let mut at = 0;
    while at < tokens.len() {
        while blocks.len() > 1 && tokens[at].start < blocks[blocks.len() - 1].column {
            blocks.pop();
        }
        let block = &blocks[blocks.len() - 1];
        let end = end_of(tokens, at, block.column);
        let statement = statement(tokens, at..end, block);
        let inner = inner_block(tokens, at..end, block, &statement);
        found.push(statement);
        blocks.extend(inner);
        at = end;
    }
    found
}

/// Where the statement that begins at a token ends: after a `where`, or before a line that is not indented further.
fn end_of(tokens: &[Token], at: usize, column: usize) -> usize {
    let mut depth = depth_of(&tokens[at]);
    for i in at + 1..tokens.len() {
        let begins = tokens[i].line > tokens[i - 1].line && tokens[i].start <= column;
        if depth == 0 && begins {
            return i;
        }
        if depth == 0 && tokens[i].is("where") {
            return i + 1;
        }
        depth += depth_of(&tokens[i]);
    }
    tokens.len()
}

fn statement(tokens: &[Token], range: Range<usize>, block: &Block) -> Statement {
    let first = range.clone().find(|at| !MODIFIERS.iter().any(|m| tokens[*at].is(m))).unwrap_or(range.start);
    let name = tokens[first].text.clone();
    let stop = range.end - usize::from(tokens[range.end - 1].is("where"));
    let head = ["use", "mod", "open", "import", "module", "record", "data"].contains(&name.as_str());
    let middle = find(tokens, first..stop, &[":", "="]).filter(|_| !head);
    let form = match middle {
        None => Form::Head,
        Some(at) if tokens[at].is("=") => Form::Equation,
        Some(_) if block.declares => Form::Field,
        Some(_) => Form::Signature,
    };
    let middle = middle.unwrap_or(stop);
    let body = (middle + 1).min(stop)..stop;
    Statement { form, name, patterns: (first + 1).min(middle)..middle, body, modules: block.modules.clone() }
}

/// The block that a statement with `where` opens.
fn inner_block(tokens: &[Token], range: Range<usize>, block: &Block, statement: &Statement) -> Option<Block> {
    let next = tokens.get(range.end).filter(|_| tokens[range.end - 1].is("where"))?;
    let mut modules = block.modules.clone();
    if statement.name == "module" {
        modules.push(Module { at: range.start, params: grouped_types(tokens, range.clone()) });
    }
    let declares = statement.name == "record" || statement.name == "data";
    (next.start > block.column).then_some(Block { column: next.start, declares, modules })
}

/// The types of the groups `(a b : T)` of a range, each once for every name in its group. Groups in braces are left out.
fn grouped_types(tokens: &[Token], range: Range<usize>) -> Vec<String> {
    let mut types = Vec::new();
    let mut at = range.start;
    while at < range.end {
        let end = if depth_of(&tokens[at]) > 0 { closing(tokens, at) } else { at };
        let colon = find(tokens, at + 1..end.max(at + 1), &[":"]);
        if let Some(colon) = colon.filter(|_| tokens[at].is("(")) {
            types.extend(vec![joined(&tokens[colon + 1..end]); colon - at - 1]);
        }
        at = end + 1;
    }
    types
}

fn joined(tokens: &[Token]) -> String {
    tokens.iter().map(|token| token.text.as_str()).collect::<Vec<_>>().join(" ")
}

/// The types that a signature takes, read from the part after its colon.
pub fn taken(tokens: &[Token], body: Range<usize>) -> Vec<String> {
    let mut types = Vec::new();
    let mut start = body.start;
    while let Some(arrow) = find(tokens, start..body.end, &["→"]) {
        let named = depth_of(&tokens[start]) > 0 && find(tokens, start + 1..closing(tokens, start), &[":"]).is_some();
        match named {
            true => types.extend(grouped_types(tokens, start..arrow)),
            false => types.push(joined(&tokens[start..arrow])),
        }
        start = arrow + 1;
    }
    types
}

/// A function's name and what it is applied to.
#[derive(Clone, Debug)]
pub struct Application {
    pub head: usize,
    pub arguments: Vec<Range<usize>>,
}

/// The applications in a range, including those in brackets.
pub fn applications(tokens: &[Token], range: Range<usize>) -> Vec<Application> {
    let mut found = Vec::new();
    let mut current: Option<Application> = None;
    let mut projected = false;
    let mut at = range.start;
    while at < range.end {
        let (atom, inner) = atom_at(tokens, at, range.end);
        let next = atom.end;
        if let Some(inner) = inner {
            found.extend(applications(tokens, inner));
        }
        if breaks(tokens, at) {
            found.extend(current.take());
            projected = false;
        } else if tokens[at].is(".") {
            projected = true;
        } else if !tokens[at].is("{") && !projected {
            match current.as_mut() {
                Some(application) => application.arguments.push(atom),
                None => current = Some(Application { head: at, arguments: Vec::new() }),
            }
        }
        at = next;
    }
    found.extend(current);
    found
}

/// The atom that begins at a token: a bracket with its contents and with fields, as in `(f x).a.b`, a `.field`, a `λ` with
/// its names, or one token. For a bracket the contents are returned too, unless it is a group of names such as `(a b : T)`.
fn atom_at(tokens: &[Token], at: usize, end: usize) -> (Range<usize>, Option<Range<usize>>) {
    if depth_of(&tokens[at]) > 0 {
        let close = closing(tokens, at).min(end - 1);
        let names = tokens[at].is("(") && find(tokens, at + 1..close, &[":"]).is_some();
        let fields =
            usize::from(close + 2 < end && tokens[close + 1].is(".") && tokens[close + 1].touches(&tokens[close]));
        return (at..close + 1 + 2 * fields, (!names).then_some(at + 1..close));
    }
    if tokens[at].is("λ") {
        let dot = (at..end).find(|i| tokens[*i].is(".")).unwrap_or(end - 1);
        return (at..dot + 1, None);
    }
    let field = tokens[at].is(".") && at + 1 < end;
    (at..at + 1 + usize::from(field), None)
}

/// Does a token end an application?
fn breaks(tokens: &[Token], at: usize) -> bool {
    let token = &tokens[at];
    let word = ["λ", "let", "in", "record", "where"].iter().any(|word| token.is(word));
    let mark = token.sort == super::lexer::Sort::Mark && !["(", "{", "."].iter().any(|mark| token.is(mark));
    word || mark
}

#[cfg(test)]
mod tests {
    use super::*;
    use crate::mutants::lexer;

    const TEXT: &str = "\
use a.B.{c, d}
-- a comment = 1
abbrev pub f : ℕ → (a b : ℕ) → {A : Type 0} → List ℕ
f zero y z = record {
  at = 1;
}
f (suc x) y z =
    g x 2
  where
    h : ℕ
    h = 3
pub record R (k : K) : Type 0 where
  pub one : (v : ℕ) → v
      ≡ 4
module _ {A : Type 0} (p q : ℕ) where
  i : ℕ → ℕ
  i n = 5
j = 6
";

    fn forms() -> Vec<(Form, String, usize)> {
        let tokens = lexer::definitions(TEXT);
        let found = statements(&tokens);
        found.iter().map(|s| (s.form, s.name.clone(), s.modules.iter().map(|m| m.params.len()).sum())).collect()
    }

    #[test]
    fn statements_by_layout() {
        let expected = [
            (Form::Head, "use", 0),
            (Form::Signature, "f", 0),
            (Form::Equation, "f", 0),
            (Form::Equation, "f", 0),
            (Form::Signature, "h", 0),
            (Form::Equation, "h", 0),
            (Form::Head, "record", 0),
            (Form::Field, "one", 0),
            (Form::Head, "module", 0),
            (Form::Signature, "i", 2),
            (Form::Equation, "i", 2),
            (Form::Equation, "j", 0),
        ];
        assert_eq!(forms(), expected.map(|(form, name, n)| (form, name.to_string(), n)));
    }

    #[test]
    fn bodies_hold_the_numbers() {
        let tokens = lexer::definitions(TEXT);
        let bodies = statements(&tokens).into_iter().filter(|s| s.form == Form::Equation || s.form == Form::Field);
        let numbers: String = bodies
            .flat_map(|s| tokens[s.body].to_vec())
            .map(|t| t.text)
            .filter(|t| t.len() == 1 && t.chars().all(|c| c.is_ascii_digit()))
            .collect();
        assert_eq!(numbers, "123456");
    }

    #[test]
    fn what_a_signature_takes() {
        let tokens = lexer::definitions("f : ℕ → (a b : List ℕ) → {A : Type 0} → (ℕ → Bool) → ℕ");
        assert_eq!(taken(&tokens, 2..tokens.len()), ["ℕ", "List ℕ", "List ℕ", "( ℕ → Bool )"]);
    }

    #[test]
    fn applications_and_their_arguments() {
        let tokens = lexer::definitions("f a (g b c).d e.d + h (p q : ℕ) x ∷ λ r. i r 1");
        let found = applications(&tokens, 0..tokens.len());
        let shown: Vec<String> = found
            .iter()
            .map(|a| {
                format!(
                    "{} {}",
                    tokens[a.head].text,
                    a.arguments.iter().map(|r| joined(&tokens[r.clone()])).collect::<Vec<_>>().join("|")
                )
            })
            .collect();
        assert_eq!(shown, ["g b|c", "f a|( g b c ) . d|e.d", "h ( p q : ℕ )|x", "i r|1"]);
    }
}
