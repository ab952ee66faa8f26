//! Finds how a header differs from what a crate exports.

use crate::declared::{Declared, Function, Part, Struct};

/// A line for each difference. It begins with the name of the function or struct.
pub fn differences(source: &Declared, header: &Declared) -> Vec<String> {
    let mut found: Vec<String> = source.faults.iter().chain(&header.faults).cloned().collect();
    for wanted in &source.functions {
        match header.functions.iter().find(|f| f.name == wanted.name) {
            Some(had) => found.extend(function_differences(wanted, had)),
            None => found.push(format!("{}: the header lacks this function", wanted.name)),
        }
    }
    for wanted in &source.structs {
        match header.structs.iter().find(|s| s.name == wanted.name) {
            Some(had) => found.extend(part_differences(&wanted.name, "field", &wanted.fields, &had.fields)),
            None => found.push(format!("{}: the header lacks this struct", wanted.name)),
        }
    }
    found.extend(extra(source, header));
    found.extend(header.structs.iter().flat_map(|had| unasserted(had, header)));
    found
}

/// What the header has and the source does not.
fn extra(source: &Declared, header: &Declared) -> Vec<String> {
    let functions = header.functions.iter().filter(|had| !source.functions.iter().any(|f| f.name == had.name));
    let structs = header.structs.iter().filter(|had| !source.structs.iter().any(|s| s.name == had.name));
    let functions = functions.map(|f| format!("{}: no function that is exported", f.name));
    let structs = structs.map(|s| format!("{}: no struct of an exported function", s.name));
    functions.chain(structs).collect()
}

fn function_differences(wanted: &Function, had: &Function) -> Vec<String> {
    let mut found = Vec::new();
    if wanted.result != had.result {
        found.push(format!("{}: gives {}, in the header {}", wanted.name, wanted.result, had.result));
    }
    found.extend(part_differences(&wanted.name, "parameter", &wanted.parameters, &had.parameters));
    found
}

/// The differences between two lists of parameters or fields, place by place.
fn part_differences(name: &str, what: &str, wanted: &[Part], had: &[Part]) -> Vec<String> {
    let shown = |part: Option<&Part>| part.map_or("nothing".to_string(), Part::shown);
    let places = 0..wanted.len().max(had.len());
    let differing = places.filter(|i| wanted.get(*i) != had.get(*i));
    let line = |i: usize| {
        let (wanted, had) = (shown(wanted.get(i)), shown(had.get(i)));
        format!("{name}: {what} {} is `{wanted}`, in the header `{had}`", i + 1)
    };
    differing.map(line).collect()
}

/// A line for the size and each offset of a struct that the header does not assert.
fn unasserted(had: &Struct, header: &Declared) -> Vec<String> {
    let has = |field: Option<&str>| header.asserted.iter().any(|a| a.name == had.name && a.field.as_deref() == field);
    let size = (!has(None)).then(|| format!("{}: its size is not asserted", had.name));
    let fields = had.fields.iter().filter(|field| !has(Some(&field.name)));
    let offsets = fields.map(|field| format!("{}: the offset of {} is not asserted", had.name, field.name));
    size.into_iter().chain(offsets).collect()
}

/// The differences between an archive's symbols and the exported functions.
pub fn archive_differences(source: &Declared, symbols: &[String]) -> Vec<String> {
    let exported = |name: &String| source.functions.iter().any(|f| f.name == *name);
    let missing = source.functions.iter().filter(|f| !symbols.contains(&f.name));
    let missing = missing.map(|f| format!("{}: the archive lacks this function", f.name));
    let extra = symbols.iter().filter(|name| !exported(name));
    missing.chain(extra.map(|name| format!("{name}: in the archive, and not exported by the crate"))).collect()
}
