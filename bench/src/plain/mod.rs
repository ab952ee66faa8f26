//! The same calls in plain Rust, as one would write them by hand from docs/RULES.md and include/rei2.h, and tuned by
//! measurements. The readers and the functions that they call are always inlined, which saves a third of their time. What
//! `tuned` does in other ways is generic here.

pub mod calls;
pub mod desk;
pub mod dynamic;
pub mod fields;
pub mod finder;
mod listing;
pub mod refusal;
pub mod reply;
pub mod request;
pub mod tally;
pub mod test;
pub mod times;
pub mod ways;
