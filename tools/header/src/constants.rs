//! Finds how the constants of the header's enums differ from the same numbers in sources and definitions.

use crate::declared::{Constant, Declared};
use crate::exports;
use crate::source::Source;
use crate::spec::Spec;
use std::path::Path;

/// Each constant of `enum rei2_limit`, and the two places below the crates that have its number. The first is a constant of
/// a source. The second is in a file of specs: a definition, a field of a definition, or a case, which is
/// `NAME ≡ NUMBER` or `NAME ≡ record { FIELD = NUMBER }`.
const LIMITS: [(&str, [(&str, &str); 2]); 14] = [
    ("REI2_SEATS", [("desk/src/limits.rt", "SEATS"), ("desk/specs/Limits.antt", "seat_count")]),
    ("REI2_CELLS", [("desk/src/limits.rt", "CELLS"), ("desk/specs/Limits.antt", "most_cells")]),
    ("REI2_CELL_SIZE", [("desk/src/limits.rt", "CELL_SIZE"), ("rei2/specs/Cases.antt", "limits ≡ .cell_size")]),
    ("REI2_LETTERS", [("frames/src/reply.rt", "LETTERS"), ("desk/specs/Tally.antt", "letter_count")]),
    ("REI2_STATUSES", [("frames/src/reply.rt", "STATUSES"), ("desk/specs/Tally.antt", "status_count")]),
    ("REI2_REQUEST_SIZE", [("frames/src/request.rt", "REQUEST_SIZE"), ("frames/specs/Request.antt", "request.size")]),
    ("REI2_REPLY_SIZE", [("frames/src/reply.rt", "REPLY_SIZE"), ("frames/specs/Reply.antt", "reply.size")]),
    ("REI2_DYNAMIC_SIZE", [("frames/src/dynamic.rt", "DYNAMIC_SIZE"), ("frames/specs/Dynamic.antt", "dynamic.size")]),
    ("REI2_REQUEST_LEAD", [("frames/src/request.rt", "REQUEST_LEAD"), ("frames/specs/Request.antt", "request.lead")]),
    ("REI2_REPLY_LEAD", [("frames/src/reply.rt", "REPLY_LEAD"), ("frames/specs/Reply.antt", "reply.lead")]),
    ("REI2_DYNAMIC_LEAD", [("frames/src/dynamic.rt", "DYNAMIC_LEAD"), ("frames/specs/Dynamic.antt", "dynamic.lead")]),
    ("REI2_MOST_INPUT", [("listing/src/lib.rt", "MOST_INPUT"), ("listing/specs/Listing.antt", "most_input")]),
    ("REI2_LONGEST_LIST", [("listing/src/lib.rt", "LONGEST_LIST"), ("listing/specs/Cases.antt", "longest_list ≡")]),
    ("REI2_NAME_SIZE", [("rei2/src/names.rt", "NAME_SIZE"), ("rei2/specs/Names.antt", "name_size")]),
];

/// The table of refusals: a source whose constants are the numbers of the refusals, and the file that defines them.
const REFUSALS: (&str, &str) = ("digits/src/refusal.rt", "digits/specs/Refusals.antt");

/// The refusals that no exported call gives. The header has no constant for them.
const NOT_EXPORTED: [&str; 1] = ["PAGE"];

/// Each enum of kinds, and the function that gives each constructor its number: the field `kind` of a record.
const KINDS: [(&str, &str, &str); 2] =
    [("rei2_timing", "rei2/specs/Reply.antt", "numbers_of"), ("rei2_found", "rei2/specs/Calls.antt", "frame_answer")];

/// The programs that list captures.
const PROGRAMS: [&str; 2] = ["rei2list/src/main.rt", "lists/src/main.rt"];

/// Each array that they lend. Its length is the product of these constants, plus a number.
const LENT: [(&str, &[&str], u64); 4] = [
    // one byte more than can be listed, to notice that a capture is too long
    ("input", &["REI2_MOST_INPUT"], 1),
    ("cells", &["REI2_CELLS", "REI2_CELL_SIZE"], 0),
    ("marks", &["REI2_CELLS"], 0),
    ("out", &["REI2_LONGEST_LIST"], 0),
];

/// A constant that the header must have.
struct Wanted {
    group: &'static str,
    name: String,
    /// Where its number is, and the number, if there is one.
    places: Vec<(String, Option<u64>)>,
}

/// A line for each difference.
pub fn differences(root: &Path, header: &Declared) -> Result<Vec<String>, String> {
    let mut wanted = limits(root)?;
    wanted.extend(refusals(root)?);
    wanted.extend(kinds(root)?);
    let mut found: Vec<String> =
        wanted.iter().flat_map(|wanted| wanted_differences(wanted, &header.constants)).collect();
    let known = |had: &Constant| wanted.iter().any(|w| w.group == had.group && w.name == had.name);
    let unknown = header.constants.iter().filter(|had| !known(had));
    found.extend(unknown.map(|had| format!("{}: not compared: no number is known that it stands for", had.name)));
    found.extend(not_exported_differences(root)?);
    for program in PROGRAMS {
        found.extend(lent_differences(root, program, &header.constants)?);
    }
    Ok(found)
}

fn wanted_differences(wanted: &Wanted, constants: &[Constant]) -> Vec<String> {
    let Wanted { group, name, places } = wanted;
    let Some(had) = constants.iter().find(|had| had.group == *group && had.name == *name) else {
        return vec![format!("{name}: enum {group} of the header lacks this constant")];
    };
    let line = |(place, value): &(String, Option<u64>)| match value {
        Some(value) if *value == had.value => None,
        Some(value) => Some(format!("{name}: {value} in {place}, {} in the header", had.value)),
        None => Some(format!("{name}: no single number in {place}")),
    };
    places.iter().filter_map(line).collect()
}

fn limits(root: &Path) -> Result<Vec<Wanted>, String> {
    let mut found = Vec::new();
    for (name, [(source, constant), (spec, definition)]) in LIMITS {
        let in_source = Source::at(root, source)?.constant(constant);
        let in_spec = Spec::read(root, spec)?.number(definition);
        let places = vec![(format!("{source} ({constant})"), in_source), (format!("{spec} ({definition})"), in_spec)];
        found.push(Wanted { group: "rei2_limit", name: name.to_string(), places });
    }
    Ok(found)
}

fn refusals(root: &Path) -> Result<Vec<Wanted>, String> {
    let (file, definitions) = (Source::at(root, REFUSALS.0)?, Spec::read(root, REFUSALS.1)?);
    let group = "rei2_refusal";
    let done = vec![("the answer of a call that was done".to_string(), Some(0))];
    let mut found = vec![Wanted { group, name: "REI2_DONE".to_string(), places: done }];
    let mut names = file.constants();
    names.extend(definitions.refusals());
    names.sort();
    names.dedup();
    names.retain(|name| !NOT_EXPORTED.contains(&name.as_str()));
    for name in names {
        let in_source = (format!("{} ({name})", REFUSALS.0), file.constant(&name));
        let in_spec = (format!("{} ({name})", REFUSALS.1), definitions.refusal(&name));
        found.push(Wanted { group, name: format!("REI2_{name}"), places: vec![in_source, in_spec] });
    }
    Ok(found)
}

/// The differences between source and definition in the numbers of refusals that the header does not have.
fn not_exported_differences(root: &Path) -> Result<Vec<String>, String> {
    let (file, definitions) = (Source::at(root, REFUSALS.0)?, Spec::read(root, REFUSALS.1)?);
    let shown = |number: Option<u64>| number.map_or("no single number".to_string(), |number| number.to_string());
    let line = |name: &&str| {
        let (in_source, in_spec) = (file.constant(name), definitions.refusal(name));
        let differs = in_source.is_none() || in_source != in_spec;
        let (source, spec) = (shown(in_source), shown(in_spec));
        differs.then(|| format!("{name}: {source} in {} ({name}), {spec} in {} ({name})", REFUSALS.0, REFUSALS.1))
    };
    Ok(NOT_EXPORTED.iter().filter_map(line).collect())
}

fn kinds(root: &Path) -> Result<Vec<Wanted>, String> {
    let mut found = Vec::new();
    for (group, file, function) in KINDS {
        for (constructor, value) in Spec::read(root, file)?.clauses(function, "kind") {
            let name = exports::c_name(&constructor).to_uppercase();
            found.push(Wanted { group, name, places: vec![(format!("{file} ({function} {constructor})"), value)] });
        }
    }
    Ok(found)
}

/// The differences in the lengths of the arrays that a program lends.
fn lent_differences(root: &Path, program: &str, constants: &[Constant]) -> Result<Vec<String>, String> {
    let source = Source::at(root, program)?;
    let value = |name: &&str| constants.iter().find(|had| had.name == **name).map(|had| had.value);
    let mut found = Vec::new();
    for (array, factors, more) in LENT {
        // a constant that the header lacks is reported elsewhere
        let Some(wanted) = factors.iter().map(value).product::<Option<u64>>() else { continue };
        let wanted = wanted + more;
        let lengths = source.lengths(array);
        if lengths.is_empty() {
            found.push(format!("{program}: makes no array {array}"));
        }
        for length in lengths.into_iter().filter(|length| *length != Some(wanted)) {
            let length = length.map_or("a length that is not read".to_string(), |length| length.to_string());
            found.push(format!("{program}: {array} has {length}, by the header {wanted}"));
        }
    }
    Ok(found)
}
