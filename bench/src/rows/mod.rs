//! The rows of the benchmark: which call is made, with which inputs, and what it must answer.

mod captures;
mod desks;
mod frames;
mod numbers;

use crate::abi::Side;
use crate::witness::{Keeper, Nobody, Seen, Witness};

/// The description of a row.
pub struct About {
    pub call: &'static str,
    pub case: String,
    /// The refusal that each call must answer with.
    pub refusal: u32,
    /// Calls in one pass.
    pub calls: usize,
    /// Bytes in one pass, if the row's speed in bytes is printed.
    pub bytes: Option<usize>,
    /// What is cleared or put back before each call. This is timed too.
    pub cleared: &'static str,
}

impl About {
    pub fn new(call: &'static str, case: impl Into<String>, refusal: u32, calls: usize) -> Self {
        About { call, case: case.into(), refusal, calls, bytes: None, cleared: "no" }
    }
}

/// The calls of a row. `make` makes each of them once.
pub trait Calls {
    fn make<W: Witness>(&mut self, side: &Side, witness: &mut W);
}

/// `Calls` in a form that can be used through a pointer.
pub trait Pass {
    fn timed(&mut self, side: &Side);
    fn kept(&mut self, side: &Side) -> Vec<Seen>;
}

impl<C: Calls> Pass for C {
    #[inline(never)]
    fn timed(&mut self, side: &Side) {
        self.make(side, &mut Nobody);
    }

    fn kept(&mut self, side: &Side) -> Vec<Seen> {
        let mut keeper = Keeper::default();
        self.make(side, &mut keeper);
        keeper.0
    }
}

pub struct Row {
    pub about: About,
    pub pass: Box<dyn Pass>,
}

impl Row {
    pub fn new(about: About, calls: impl Calls + 'static) -> Self {
        Row { about, pass: Box::new(calls) }
    }
}

pub fn all() -> Vec<Row> {
    [frames::rows(), captures::rows(), numbers::rows(), desks::rows()].into_iter().flatten().collect()
}
