//! What happens to a call's answer. While calls are timed it is dropped, and while the sides are compared it is kept.

use crate::abi::*;
use std::fmt::Debug;
use std::hint::black_box;

/// An answer and the number of its refusal, which is 0 if it is not refused.
pub trait Answer: Debug {
    fn refusal(&self) -> u32 {
        0
    }
}

macro_rules! answers {
    ($($name:ty),*) => {$(impl Answer for $name { fn refusal(&self) -> u32 { self.refusal } })*};
}

answers!(
    DeskAnswer,
    CapturedAnswer,
    LookedAnswer,
    RequestAnswer,
    ReplyAnswer,
    DynamicAnswer,
    WrittenAnswer,
    RunningAnswer,
    ListedAnswer
);
impl Answer for FrameAnswer {}
impl Answer for CellAnswer {}
impl Answer for u32 {}
impl Answer for usize {}

pub trait Witness {
    /// Is given what was asked, the answer, and the lent memory after the call.
    fn saw(&mut self, asked: &dyn Debug, answer: &impl Answer, memory: &[&dyn Debug]);
}

pub struct Nobody;

impl Witness for Nobody {
    #[inline(always)]
    fn saw(&mut self, _: &dyn Debug, answer: &impl Answer, _: &[&dyn Debug]) {
        black_box(answer);
    }
}

/// What one call was asked, what it answered, and the lent memory after it.
#[derive(PartialEq)]
pub struct Seen {
    pub asked: String,
    pub refusal: u32,
    pub answer: String,
    pub memory: String,
}

#[derive(Default)]
pub struct Keeper(pub Vec<Seen>);

impl Witness for Keeper {
    fn saw(&mut self, asked: &dyn Debug, answer: &impl Answer, memory: &[&dyn Debug]) {
        self.0.push(Seen {
            asked: format!("{asked:?}"),
            refusal: answer.refusal(),
            answer: format!("{answer:?}"),
            memory: format!("{memory:?}"),
        });
    }
}
