//! Finds what another crate can reach.
//!
//! These are reached: the `pub` items of a module that is reached, beginning with the root; what a reached `pub use` names;
//! and the `pub` methods of a type that is reached. A type is also reached if a reached item mentions it, for example as
//! the result of a function: whoever has a value can call its methods, even if no path to its type is public.

use crate::parse::{Crate, Kind, Names};

/// For each item of the crate: can another crate reach it?
pub fn reached(krate: &Crate) -> Vec<bool> {
    let mut reached = vec![false; krate.items.len()];
    let mut work = public_items(krate, 0);
    // a method whose type is not found counts as reached, so that no method goes unchecked
    work.extend(methods(krate, |types| types.is_empty()));
    while let Some(i) = work.pop() {
        if !std::mem::replace(&mut reached[i], true) {
            work.extend(leads_to(krate, i));
        }
    }
    reached
}

/// The `pub` items of a module, with those of its `impl` blocks.
fn public_items(krate: &Crate, module: usize) -> Vec<usize> {
    let items = krate.items.iter().enumerate();
    items.filter(|(_, item)| item.public && item.module == module).map(|(i, _)| i).collect()
}

/// The `pub` methods whose type is `wanted`, which is asked about the items that the type may be.
fn methods(krate: &Crate, wanted: impl Fn(&[usize]) -> bool) -> Vec<usize> {
    let items = krate.items.iter().enumerate();
    let is_wanted = |module, kind: &Kind| match kind {
        Kind::Function(f) => f.owner.as_ref().is_some_and(|path| wanted(&meant(krate, module, path, &mut Vec::new()))),
        _ => false,
    };
    items.filter(|(_, item)| item.public && is_wanted(item.module, &item.kind)).map(|(i, _)| i).collect()
}

/// What can be reached because item `i` can.
fn leads_to(krate: &Crate, i: usize) -> Vec<usize> {
    let item = &krate.items[i];
    let mut found = match &item.kind {
        Kind::Module(module) => public_items(krate, *module),
        Kind::Use(path) => meant(krate, item.module, path, &mut vec![i]),
        Kind::Data => methods(krate, |types| types.contains(&i)),
        Kind::Function(_) => Vec::new(),
    };
    for path in &item.mentions {
        let types = meant(krate, item.module, path, &mut Vec::new());
        found.extend(types.into_iter().filter(|&j| matches!(krate.items[j].kind, Kind::Data)));
    }
    found
}

/// The items that `path` may mean in `module`; none if it leads to another crate. `passed` contains each `use` that is
/// being followed, so that none is followed in a circle.
fn meant(krate: &Crate, module: usize, path: &[String], passed: &mut Vec<usize>) -> Vec<usize> {
    let Some((first, rest)) = path.split_first() else {
        return Vec::new();
    };
    let above = match first.as_str() {
        "crate" => Some(0),
        "self" => Some(module),
        "super" => krate.modules[module].parent,
        _ => None,
    };
    if let Some(module) = above {
        return meant(krate, module, rest, passed);
    }
    let mut found = Vec::new();
    for i in named(krate, module, first) {
        match &krate.items[i].kind {
            Kind::Use(used) if !passed.contains(&i) => {
                let after = if krate.items[i].name == "*" { path } else { rest };
                let longer: Names = used.iter().chain(after).cloned().collect();
                passed.push(i);
                found.extend(meant(krate, module, &longer, passed));
                passed.pop();
            }
            Kind::Use(_) => {}
            Kind::Module(inner) if !rest.is_empty() => found.extend(meant(krate, *inner, rest, passed)),
            Kind::Function(_) if !rest.is_empty() => {}
            _ => found.push(i), // for a path to an enum's variant, the enum
        }
    }
    found
}

/// The items of a module that have this name; if none has, its globs.
fn named(krate: &Crate, module: usize, name: &str) -> Vec<usize> {
    let called = |name: &str| -> Vec<usize> {
        let items = krate.items.iter().enumerate();
        items.filter(|(_, item)| item.module == module && item.name == name).map(|(i, _)| i).collect()
    };
    Some(called(name)).filter(|found| !found.is_empty()).unwrap_or_else(|| called("*"))
}
