//! A walk of MIR: its text, and the items in the context at each of its steps.
//!
//! The context is a list of names with the head first. For the local `k` it has `Lk`, its cell, and `Dk`, the right to
//! free it.

use crate::text::{list, spaced};
use std::collections::BTreeSet;

pub struct Walk {
    locals: usize,
    context: Vec<String>,
    /// The locals that have a value.
    full: BTreeSet<usize>,
    /// How many parentheses are open.
    parens: usize,
    lines: Vec<String>,
}

/// A point to which a walk goes back for another branch.
pub struct Mark {
    context: Vec<String>,
    full: BTreeSet<usize>,
    pub parens: usize,
}

/// The text.
impl Walk {
    /// A walk with this number of locals and these other items.
    pub fn new(locals: usize, items: &[&str]) -> Walk {
        let locals_first = (0..locals).rev().flat_map(|k| [format!("L{k}"), format!("D{k}")]);
        let context = locals_first.chain(items.iter().map(|item| item.to_string())).collect();
        Walk { locals, context, full: BTreeSet::new(), parens: 0, lines: vec![String::new()] }
    }

    /// Adds text to the current line.
    pub fn say(&mut self, text: &str) {
        let line = self.lines.last_mut().expect("a walk has a line");
        if !line.is_empty() {
            line.push(' ');
        }
        line.push_str(text);
    }

    /// Begins a new line.
    pub fn line(&mut self, text: &str) {
        self.lines.push(text.to_string());
    }

    /// Begins a new line that ends in an open `(λ x.`
    pub fn opens(&mut self, text: &str) {
        self.line(text);
        self.parens += 1;
    }

    /// Writes the last line of a branch. It closes parentheses until only `parens` are open.
    pub fn ends(&mut self, text: &str, parens: usize) {
        self.line(&format!("{text}{}", ")".repeat(self.parens - parens)));
        self.parens = parens;
    }

    pub fn text(&self) -> String {
        self.lines.join("\n")
    }
}

/// The context.
impl Walk {
    /// The place of an item.
    pub fn at(&self, name: &str) -> usize {
        let place = self.context.iter().position(|item| item == name);
        place.unwrap_or_else(|| panic!("{name} is not in the context: {:?}", self.context))
    }

    fn places(&self, names: &[&str]) -> Vec<usize> {
        names.iter().map(|name| self.at(name)).collect()
    }

    /// Moves these items to the head.
    pub fn front(&mut self, names: &[&str]) {
        let places = self.places(names);
        if !places.iter().copied().eq(0..places.len()) {
            self.say(&format!("move ! ({}) $", list(&places, usize::to_string)));
        }
        self.context.retain(|item| !names.contains(&item.as_str()));
        self.take(0, names);
    }

    /// Keeps these items, and drops the others.
    pub fn keep(&mut self, names: &[&str]) {
        let places = list(&self.places(names), usize::to_string);
        self.say(&format!("keep ! ({places}) $"));
        self.context.clear();
        self.take(0, names);
    }

    /// Writes a step that replaces the first items by others.
    pub fn swap(&mut self, text: &str, taken: usize, given: &[&str]) {
        self.say(&format!("{text} $"));
        self.take(taken, given);
    }

    /// The same, for a step that ends in an open `(λ x.`
    pub fn binds(&mut self, text: &str, taken: usize, given: &[&str]) {
        self.say(text);
        self.parens += 1;
        self.take(taken, given);
    }

    /// Gives the head another name.
    pub fn rename(&mut self, name: &str) {
        self.take(1, &[name]);
    }

    fn take(&mut self, taken: usize, given: &[&str]) {
        self.context.splice(..taken, given.iter().map(|name| name.to_string()));
        let twice = given.iter().find(|name| self.context.iter().filter(|item| item == *name).count() > 1);
        assert!(twice.is_none(), "{twice:?} is in the context twice: {:?}", self.context);
    }

    /// Splits the head into the first part and a rest, the rest into the next part and a rest, and so on. The last rest is
    /// then at the head.
    pub fn split_all(&mut self, step: &str, parts: &[String], rest: &str) {
        for (i, part) in parts.iter().enumerate() {
            let after = if i + 1 == parts.len() { rest.to_string() } else { format!("{rest}/{i}") };
            self.swap(&format!("{step} !"), 1, &[part, &after]);
            self.front(&[&after]);
        }
    }

    /// The reverse: joins the parts and the rest into one item. Returns its name, which begins with `of`.
    pub fn join_all(&mut self, step: &str, parts: &[String], rest: &str, of: &str) -> String {
        parts.iter().rev().fold(rest.to_string(), |rest, part| {
            self.front(&[part, &rest]);
            let whole = format!("{of} from {part}");
            self.swap(&format!("{step} !"), 2, &[&whole]);
            whole
        })
    }

    pub fn mark(&self) -> Mark {
        Mark { context: self.context.clone(), full: self.full.clone(), parens: self.parens }
    }

    pub fn back(&mut self, mark: Mark) {
        (self.context, self.full, self.parens) = (mark.context, mark.full, mark.parens);
    }
}

/// The locals.
impl Walk {
    /// The place of a local's cell.
    pub fn cell(&self, k: usize) -> usize {
        self.at(&format!("L{k}"))
    }

    pub fn allocate(&mut self) {
        let locals: Vec<usize> = (0..self.locals).collect();
        let cells = spaced(&locals, |k| format!("alloc1 ! (λ {}.", local(*k)));
        self.say(&format!("{cells} alloc0 ! $ params1 ! $"));
        self.parens += self.locals;
    }

    /// The step by which a local gets a value. `typed` is the proof that the value has the local's type.
    pub fn init(&mut self, k: usize, typed: &str) -> String {
        let step = if self.full.insert(k) { "init" } else { "store" };
        format!("({step} ! {} refl {typed})", self.cell(k))
    }

    pub fn assign(&mut self, k: usize, value: &str, typed: &str) {
        let init = self.init(k, typed);
        self.line(&format!("assigns ! {value} (from ! (stop !)) {init} $"));
    }

    /// Writes the step by which a call's result gets into a local.
    pub fn lands(&mut self, k: usize, typed: &str) {
        let init = self.init(k, typed);
        self.line(&format!("land ! (from ! (stop !)) {init} $"));
    }

    /// Lends the slice of one local again. It uses two locals, one for the pointer and one for the slice.
    pub fn reborrow(&mut self, source: usize, (pointer, slice): (usize, usize), typed: &str) {
        let inside = format!("(look-in ! {} (sub ! 0 refl (whole !)))", self.cell(source));
        self.assign(pointer, &format!("(addr ! (from ! (fld ! refl (hop ! {inside} (stop !)))))"), "(tt, tt)");
        let parts = operands(&[copy(self.cell(pointer)), field(self.cell(source), 1)]);
        self.assign(slice, &format!("(agg ! {parts})"), typed);
    }

    /// Lends the array of one local again, in another local.
    pub fn reborrow_array(&mut self, source: usize, reference: usize) {
        let inside = format!("(look ! {} refl)", self.cell(source));
        self.assign(reference, &format!("(addr ! (from ! (hop ! {inside} (stop !))))"), "(tt, tt)");
    }

    pub fn free(&mut self) {
        let full: Vec<usize> = self.full.iter().copied().collect();
        let forgets = spaced(&full, |k| format!("forget ! {} refl $", self.cell(*k)));
        self.line(&forgets);
        self.line("");
        for k in 0..self.locals {
            self.front(&[&format!("L{k}"), &format!("D{k}")]);
            self.swap("free1 !", 2, &[]);
        }
        self.say("free0 ! $");
    }
}

/// The name of a local's address.
pub fn local(k: usize) -> String {
    let low = |digit: char| digit.to_digit(10).and_then(|d| char::from_u32('₀' as u32 + d)).unwrap_or(digit);
    format!("l{}", k.to_string().chars().map(low).collect::<String>())
}

/// The value in the cell at a place.
pub fn copy(place: usize) -> String {
    format!("(load ! (from ! (stop !)) (look ! {place} refl))")
}

/// A field of the value in the cell at a place.
pub fn field(place: usize, field: usize) -> String {
    format!("(load ! (from ! (fld ! refl (stop !))) (look-in ! {place} (sub ! {field} refl (whole !))))")
}

pub fn operands(values: &[String]) -> String {
    values.iter().rev().fold("(no-more !)".to_string(), |rest, value| format!("(and-then ! {value} {rest})"))
}

#[cfg(test)]
mod tests;
