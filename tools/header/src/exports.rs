//! Reads what a Rattle crate exports, in the form of C declarations: the functions marked
//! `#[unsafe(no_mangle)] pub extern "C"`, and the `#[repr(C)]` structs that these functions or the structs' fields name, in
//! whichever crate they are declared.

use crate::declared::{Declared, Function, Part, Struct};
use crate::lex::{self, Token};
use crate::source::{self, Source};
use std::path::Path;

/// The beginning of a type's name in C.
const PREFIX: &str = "rei2_";

const NUMBERS: [(&str, &str); 12] = [
    ("u8", "uint8_t"),
    ("u16", "uint16_t"),
    ("u32", "uint32_t"),
    ("u64", "uint64_t"),
    ("usize", "size_t"),
    ("i8", "int8_t"),
    ("i16", "int16_t"),
    ("i32", "int32_t"),
    ("i64", "int64_t"),
    ("f32", "float"),
    ("f64", "double"),
    ("bool", "bool"),
];

/// The mark of an exported function.
const MARK: &str = "[ unsafe ( no_mangle ) ]";

/// What the crate `name` below `root` exports.
pub fn exported(root: &Path, name: &str) -> Result<Declared, String> {
    let mut reader = Reader { root, homes: Vec::new(), found: Declared::default() };
    for module in source::modules(root, name)? {
        let source = Source::read(root, name, &module)?;
        for at in 0..source.tokens.len() {
            reader.function_at(&source, at)?;
        }
    }
    Ok(reader.found)
}

struct Reader<'a> {
    root: &'a Path,
    /// The structs found so far: crate, module and name.
    homes: Vec<(String, String, String)>,
    found: Declared,
}

impl Reader<'_> {
    /// Reads the exported function whose `fn` is at `at`, if there is one.
    fn function_at(&mut self, source: &Source, at: usize) -> Result<(), String> {
        let (before, rest) = source.tokens.split_at(at);
        let [keyword, name, open, ..] = rest else { return Ok(()) };
        let foreign = ends_with(before, &["extern", "\"C\""]);
        let attributes = attributes(before);
        let marked = attributes.contains("no_mangle");
        if keyword.text != "fn" || !(foreign || marked) {
            return Ok(());
        }
        if open.text != "(" {
            self.fault(&name.text, &format!("its parameters are not read: {}", open.text));
            return Ok(());
        }
        if !attributes.contains(MARK) || !ends_with(before, &["pub", "extern", "\"C\""]) {
            self.fault(&name.text, "is not exported: `#[unsafe(no_mangle)] pub extern \"C\"` is asked for");
        }
        let list = lex::group(&rest[2..]);
        let mut parameters = Vec::new();
        for parameter in lex::parted(list) {
            parameters.extend(self.parameter(source, &name.text, parameter)?);
        }
        let result = match rest.get(list.len() + 4..).unwrap_or_default() {
            [dash, arrow, kind, ..] if dash.text == "-" && arrow.text == ">" => {
                self.plain(source, &name.text, std::slice::from_ref(kind))?
            }
            _ => "void".to_string(),
        };
        self.found.add_function(Function { name: name.text.clone(), result, parameters });
        Ok(())
    }

    /// The C parameters of `name: type`. A slice has two. An array of arrays has one, which is never const, because C11 has
    /// no conversion from an array of arrays to one of const elements.
    fn parameter(&mut self, source: &Source, function: &str, tokens: &[Token]) -> Result<Vec<Part>, String> {
        let texts: Vec<&str> = tokens.iter().map(|token| token.text.as_str()).collect();
        let (name, mutable, kind) = match texts.as_slice() {
            [name, ":", "&", "mut", "[", .., "]"] => (name, Some(true), &tokens[5..tokens.len() - 1]),
            [name, ":", "&", "[", .., "]"] => (name, Some(false), &tokens[4..tokens.len() - 1]),
            [name, ":", ..] => (name, None, &tokens[2..]),
            _ => {
                self.fault(function, &format!("a parameter is not read: {}", lex::shown(tokens)));
                return Ok(Vec::new());
            }
        };
        let part = |name: String, kind: String| Part { name, kind };
        if let Some((element, lengths)) = table(kind).filter(|_| mutable.is_some()) {
            let element = self.plain(source, function, element)?;
            let kind = self.lengths(source, function, lengths).map(|lengths| element + &lengths);
            return Ok(kind.into_iter().map(|kind| part(name.to_string(), kind)).collect());
        }
        let kind = self.plain(source, function, kind)?;
        Ok(match mutable {
            None => vec![part(name.to_string(), kind)],
            Some(mutable) => {
                let pointer = format!("{}{kind} *", if mutable { "" } else { "const " });
                vec![part(name.to_string(), pointer), part(format!("{name}_len"), "size_t".to_string())]
            }
        })
    }

    /// The lengths of an array of arrays in C: `[rows][columns]`, in numbers.
    fn lengths(&mut self, source: &Source, user: &str, lengths: [&[Token]; 2]) -> Option<String> {
        match lengths.map(|length| source.value(length)) {
            [Some(rows), Some(columns)] => Some(format!("[{rows}][{columns}]")),
            _ => {
                let [rows, columns] = lengths.map(lex::shown);
                self.fault(user, &format!("a length is not read: {rows} or {columns}"));
                None
            }
        }
    }

    /// The C type of a number or a struct. A struct is read too.
    fn plain(&mut self, source: &Source, user: &str, tokens: &[Token]) -> Result<String, String> {
        let [name] = tokens else {
            self.fault(user, &format!("has a type that is not read: {}", lex::shown(tokens)));
            return Ok(lex::shown(tokens));
        };
        if let Some((_, number)) = NUMBERS.iter().find(|(rattle, _)| *rattle == name.text) {
            return Ok(number.to_string());
        }
        let home = source.home(&name.text);
        if !self.homes.contains(&home) {
            self.homes.push(home.clone());
            self.structure(&home)?;
        }
        Ok(c_name(&home.2))
    }

    /// Reads the struct that is declared there, and the structs of its fields.
    fn structure(&mut self, home: &(String, String, String)) -> Result<(), String> {
        let (crate_name, module, name) = home;
        let source = Source::read(self.root, crate_name, module)?;
        let at = source.tokens.windows(3).position(|w| w[0].text == "struct" && w[1].text == *name && w[2].text == "{");
        let Some(at) = at.filter(|at| attributes(&source.tokens[..*at]).contains("[ repr ( C ) ]")) else {
            self.fault(&c_name(name), &format!("{crate_name}::{module} has no `#[repr(C)] struct {name}`"));
            return Ok(());
        };
        let mut fields = Vec::new();
        for field in lex::parted(lex::group(&source.tokens[at + 2..])) {
            fields.push(self.field(&source, name, field)?);
        }
        self.found.add_struct(Struct { name: c_name(name), fields });
        Ok(())
    }

    /// A field `pub name: type` or `pub name: [type; 10]`.
    fn field(&mut self, source: &Source, owner: &str, tokens: &[Token]) -> Result<Part, String> {
        let tokens = if tokens[0].text == "pub" { &tokens[1..] } else { tokens };
        let texts: Vec<&str> = tokens.iter().map(|token| token.text.as_str()).collect();
        let user = c_name(owner);
        match texts.as_slice() {
            [name, ":", "[", _, ";", length, "]"] => {
                let element = self.plain(source, &user, &tokens[3..4])?;
                Ok(Part { name: name.to_string(), kind: format!("{element}[{length}]") })
            }
            [name, ":", ..] => Ok(Part { name: name.to_string(), kind: self.plain(source, &user, &tokens[2..])? }),
            _ => {
                self.fault(&user, &format!("a field is not read: {}", lex::shown(tokens)));
                Ok(Part { name: lex::shown(tokens), kind: String::new() })
            }
        }
    }

    fn fault(&mut self, name: &str, what: &str) {
        self.found.faults.push(format!("{name}: {what}"));
    }
}

/// A struct's name in C: `DeskAnswer` is `rei2_desk_answer`.
pub fn c_name(name: &str) -> String {
    let mut snake = String::new();
    for c in name.chars() {
        if c.is_uppercase() && !snake.is_empty() {
            snake.push('_');
        }
        snake.extend(c.to_lowercase());
    }
    format!("{PREFIX}{snake}")
}

/// The element and the two lengths, rows first, of an array of arrays `[element; columns]; rows`. It is given without its
/// outer brackets.
fn table(tokens: &[Token]) -> Option<(&[Token], [&[Token]; 2])> {
    let end = lex::last_mark(tokens, &[";"])?;
    let (row, rows) = (&tokens[..end], &tokens[end + 1..]);
    let inside = row.first().filter(|token| token.text == "[").map(|_| lex::group(row))?;
    let end = lex::last_mark(inside, &[";"])?;
    Some((&inside[..end], [rows, &inside[end + 1..]]))
}

fn ends_with(tokens: &[Token], words: &[&str]) -> bool {
    tokens.len() >= words.len() && tokens[tokens.len() - words.len()..].iter().zip(words).all(|(t, w)| t.text == *w)
}

/// The attributes directly before a declaration. `tokens` end just before its `fn` or `struct`.
fn attributes(tokens: &[Token]) -> String {
    let head = |token: &Token| ["pub", "extern", "\"C\""].contains(&token.text.as_str());
    let mut end = tokens.iter().rposition(|token| !head(token)).map_or(0, |i| i + 1);
    let last = end;
    while end > 0 && tokens[end - 1].text == "]" {
        end = tokens[..end].iter().rposition(|token| token.text == "#").unwrap_or(0);
    }
    lex::shown(&tokens[end..last])
}
