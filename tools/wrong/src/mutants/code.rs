//! Mutants of the code.

use super::edit::{self, Edit};
use super::region::Region;
use super::world::{File, World};
use super::{names, shape, values, Mutant};
use std::collections::BTreeSet;
use std::path::Path;

/// All mutants of the code of a crate, by file and place.
pub fn all(folder: &Path, krate: &str) -> Result<Vec<Mutant>, String> {
    let world = World::read(folder, krate)?;
    let used = names::used_variants(&world);
    let of_file = |file: &File| edit::mutants(edits(&world, file, &used), krate, &file.name, &file.lines);
    Ok(world.own().iter().flat_map(of_file).collect())
}

/// The edits of a file.
fn edits(world: &World, file: &File, used: &BTreeSet<String>) -> Vec<Edit> {
    let of_region =
        |region: &Region| [values::edits(region), shape::edits(region), names::edits(region, used)].concat();
    Region::all(world, file).iter().flat_map(of_region).collect()
}
