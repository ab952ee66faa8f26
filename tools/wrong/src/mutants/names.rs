//! Replaces a field or a variant by another of the same type.

use super::edit::Edit;
use super::lexer::Sort;
use super::region::Region;
use super::types;
use super::world::World;
use std::collections::BTreeSet;

/// How many other fields or variants are tried at one place.
const MOST: usize = 2;

/// The edits of a region. `used` contains the variants that the crate uses, as `Enum::Variant`.
pub fn edits(region: &Region, used: &BTreeSet<String>) -> Vec<Edit> {
    region.places().into_iter().flat_map(|at| [fields(region, at), variants(region, at, used)].concat()).collect()
}

/// The variants that the code of a crate names.
pub fn used_variants(world: &World) -> BTreeSet<String> {
    let triples = world.own().iter().flat_map(|file| file.tokens.windows(3));
    triples.filter(|t| t[1].is("::")).map(|t| format!("{}::{}", t[0].text, t[2].text)).collect()
}

/// Up to `MOST` names that come after `one` in a list. After the last name the first one follows.
fn next_ones(list: &[String], one: &str) -> Vec<String> {
    let at = list.iter().position(|other| other == one).unwrap_or(0);
    let round = list.iter().cycle().skip(at).take(list.len());
    round.filter(|other| *other != one).take(MOST).cloned().collect()
}

/// Is a token the field of a `name.field` that is not a method call?
fn is_field(region: &Region, at: usize) -> bool {
    let base = at >= region.range.start + 2 && region.is(at - 1, ".") && region.token(at - 2).is_word();
    let inner = base && at >= region.range.start + 3 && (region.is(at - 3, ".") || region.is(at - 3, "::"));
    base && !inner && region.token(at).is_word() && !region.is(at + 1, "(")
}

/// Replaces a field by another one that the same function uses on the same name.
fn fields(region: &Region, at: usize) -> Vec<Edit> {
    if !is_field(region, at) {
        return Vec::new();
    }
    let (base, field) = (&region.token(at - 2).text, &region.token(at).text);
    let mut on_base: Vec<String> = Vec::new();
    for i in region.range.clone().filter(|i| is_field(region, *i) && region.is(i - 2, base)) {
        let name = region.token(i).text.clone();
        if !on_base.contains(&name) {
            on_base.push(name);
        }
    }
    on_base.retain(|other| other == field || is_alike(region, at, other));
    next_ones(&on_base, field).iter().map(|other| Edit::token("field", region.token(at), other)).collect()
}

/// Does another field have the type of the one at a token? If the value is cast, any number type will do. If the type is
/// not known, the answer is yes.
fn is_alike(region: &Region, at: usize, other: &str) -> bool {
    let kind = types::of_name(region, at - 2, &region.token(at - 2).text);
    let Some(fields) = kind.and_then(|kind| region.world.fields(region.file, &kind)) else { return true };
    let kind_of = |name: &str| fields.iter().find(|(field, _)| field == name).map(|(_, kind)| kind.as_str());
    let (own, kind) = (kind_of(&region.token(at).text), kind_of(other));
    let number = |kind: Option<&str>| kind.is_some_and(|kind| super::numeral::most(kind).is_some());
    kind.is_some() && (own == kind || (region.is(at + 1, "as") && number(own) && number(kind)))
}

/// Replaces a variant by another variant of the same enum, both without values.
fn variants(region: &Region, at: usize, used: &BTreeSet<String>) -> Vec<Edit> {
    let path = at >= region.range.start + 2 && region.is(at - 1, "::") && region.token(at).sort == Sort::Word;
    if !path || ["(", "{", "::"].iter().any(|mark| region.is(at + 1, mark)) {
        return Vec::new();
    }
    let owner = &region.token(at - 2).text;
    let Some(variants) = region.world.variants(region.file, owner) else { return Vec::new() };
    let plain = variants.into_iter().filter(|variant| variant.plain).map(|variant| variant.name);
    let names: Vec<String> = plain.filter(|name| used.contains(&format!("{owner}::{name}"))).collect();
    if !names.contains(&region.token(at).text) {
        return Vec::new();
    }
    let others = next_ones(&names, &region.token(at).text);
    others.iter().map(|other| Edit::token("variant", region.token(at), other)).collect()
}
