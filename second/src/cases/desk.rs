//! Scripts of a desk. The first of them begins before anything is lent. Each of the others begins
//! with `lend`, or with `mixes` or `mixes-by-address`, which lend too.

mod addresses;
pub mod bulk;
mod clauses;
pub mod frames;
mod looks;
mod memory;
mod mixes;
mod openings;
mod random;
mod replies;
mod script;
mod spoiled;
mod tally;

use super::Cases;
use crate::random::Random;

pub fn add_all(cases: &mut Cases, seed: u64) {
    memory::add_nothing_lent(cases);
    openings::add_all(cases);
    replies::add_all(cases);
    addresses::add_all(cases);
    clauses::add_all(cases);
    memory::add_all(cases);
    looks::add_all(cases);
    tally::add_all(cases);
    spoiled::add_all(cases, &mut Random::new(seed, "desk spoiled"));
    random::add_all(cases, &mut Random::new(seed, "desk"));
    mixes::add_all(cases);
}
