//! Reads a C header: constants, structs, functions and the assertions about layout. What it cannot read is a fault and is
//! never skipped, because a declaration that is not seen would not be compared.

use crate::declared::{Asserted, Constant, Declared, Function, Part, Struct};
use crate::lex::{self, Language, Token};

/// The macros of the header that assert a size and an offset.
const SIZE: &str = "REI2_SIZE";
const OFFSET: &str = "REI2_OFFSET";

/// What the header declares.
pub fn declared(text: &str) -> Declared {
    let tokens = lex::tokens(text, Language::C);
    let mut found = Declared::default();
    let mut rest = tokens.as_slice();
    while !rest.is_empty() {
        let (item, after) = rest.split_at(item_length(rest));
        if !is_linkage(item) && !read_item(item, &mut found) {
            let start: Vec<Token> = item.iter().take(12).cloned().collect();
            found.faults.push(format!("header, line {}: not read: {}", item[0].line, lex::shown(&start)));
        }
        rest = after;
    }
    found
}

/// Is it the beginning or the end of `extern "C" { .. }`?
fn is_linkage(item: &[Token]) -> bool {
    matches!(lex::shown(item).as_str(), "extern \"C\" {" | "}")
}

/// How many tokens the first item has. It ends at a `;` outside braces, or it is the beginning or end of a linkage.
fn item_length(tokens: &[Token]) -> usize {
    if tokens[0].text == "}" {
        return 1;
    }
    if tokens.len() >= 3 && is_linkage(&tokens[..3]) {
        return 3;
    }
    let mut depth = 0;
    let end = tokens.iter().position(|token| {
        depth += i32::from(token.text == "{") - i32::from(token.text == "}");
        depth == 0 && token.text == ";"
    });
    end.map_or(tokens.len(), |i| i + 1)
}

/// Reads an item and adds it to what was found. Returns whether it could be read.
fn read_item(item: &[Token], found: &mut Declared) -> bool {
    let Some((_, body)) = item.split_last().filter(|(last, _)| last.text == ";") else {
        return false;
    };
    let texts: Vec<&str> = body.iter().map(|token| token.text.as_str()).collect();
    match texts.as_slice() {
        ["enum", name, "{", .., "}"] => read_enum(name, &body[3..body.len() - 1], found),
        ["enum", "{", .., "}"] => read_enum("", &body[2..body.len() - 1], found),
        ["typedef", "struct", tag, "{", .., "}", name] if tag == name => {
            let fields = body[4..body.len() - 2].split_inclusive(|token| token.text == ";");
            let fields: Option<Vec<Part>> = fields.map(field).collect();
            fields.map(|fields| found.add_struct(Struct { name: name.to_string(), fields })).is_some()
        }
        [SIZE, "(", name, ",", _, ")"] => {
            found.asserted.push(Asserted { name: name.to_string(), field: None });
            true
        }
        [OFFSET, "(", name, ",", field, ",", _, ")"] => {
            found.asserted.push(Asserted { name: name.to_string(), field: Some(field.to_string()) });
            true
        }
        _ => function(body, &found.constants).map(|function| found.add_function(function)).is_some(),
    }
}

/// Reads the constants `NAME = NUMBER, ..` of an enum and adds them to what was found. Returns whether they could be read.
fn read_enum(group: &str, list: &[Token], found: &mut Declared) -> bool {
    let parts = list.split(|token| token.text == ",").filter(|part| !part.is_empty());
    let constants: Option<Vec<Constant>> = parts.map(|part| constant(group, part)).collect();
    constants.map(|constants| constants.into_iter().for_each(|c| found.add_constant(c))).is_some()
}

/// A constant `NAME = NUMBER`.
fn constant(group: &str, tokens: &[Token]) -> Option<Constant> {
    let [name, equals, value] = tokens else { return None };
    let value = lex::number(&value.text).filter(|_| equals.text == "=")?;
    Some(Constant { group: group.to_string(), name: name.text.clone(), value })
}

/// A field `type name;` or `type name[10];`.
fn field(tokens: &[Token]) -> Option<Part> {
    let texts: Vec<&str> = tokens.iter().map(|token| token.text.as_str()).collect();
    match texts.as_slice() {
        [kind, name, ";"] => Some(Part { name: name.to_string(), kind: kind.to_string() }),
        [kind, name, "[", length, "]", ";"] => Some(Part { name: name.to_string(), kind: format!("{kind}[{length}]") }),
        _ => None,
    }
}

/// A function `type name(type name, ..)`.
fn function(tokens: &[Token], constants: &[Constant]) -> Option<Function> {
    let open = tokens.iter().position(|token| token.text == "(")?;
    let (before, rest) = tokens.split_at(open);
    let [.., close] = rest else { return None };
    let ([result], [name]) = before.split_at(before.len().checked_sub(1)?) else { return None };
    if close.text != ")" || !lex::is_word(&name.text) {
        return None;
    }
    let list = &rest[1..rest.len() - 1];
    let parameters = if lex::shown(list) == "void" {
        Vec::new()
    } else {
        let parameters = list.split(|token| token.text == ",");
        parameters.map(|tokens| parameter(tokens, constants)).collect::<Option<Vec<Part>>>()?
    };
    Some(Function { name: name.text.clone(), result: result.text.clone(), parameters })
}

/// A parameter `type name`, `type *name`, `const type *name`, or an array of arrays `type name[33][3]`. A length is a number or
/// one of the constants.
fn parameter(tokens: &[Token], constants: &[Constant]) -> Option<Part> {
    let length = |word: &str| {
        let constant = constants.iter().find(|had| had.name == word).map(|had| had.value);
        lex::number(word).or(constant)
    };
    let texts: Vec<&str> = tokens.iter().map(|token| token.text.as_str()).collect();
    let (name, kind) = match texts.as_slice() {
        [kind, name] => (name, kind.to_string()),
        [kind, "*", name] => (name, format!("{kind} *")),
        ["const", kind, "*", name] => (name, format!("const {kind} *")),
        [before @ .., kind, name, "[", rows, "]", "[", columns, "]"] if before.is_empty() || before == ["const"] => {
            let lengths = format!("[{}][{}]", length(rows)?, length(columns)?);
            (name, format!("{}{kind}{lengths}", if before.is_empty() { "" } else { "const " }))
        }
        _ => return None,
    };
    lex::is_word(name).then(|| Part { name: name.to_string(), kind })
}
