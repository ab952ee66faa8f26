//! Calls that take only numbers, and looks at a tally.

use super::{About, Calls, Row};
use crate::abi::*;
use crate::inputs::{running_of, Lent};
use crate::plain::tally::{LETTER_ORDER, STATUS_ORDER};
use crate::random::Random;
use crate::witness::{Answer, Witness};
use std::fmt::Debug;

const INPUTS: usize = 64;

struct Asking<T, C> {
    inputs: Vec<T>,
    call: C,
}

impl<T: Copy + Debug, A: Answer, C: Fn(&Side, T) -> A> Calls for Asking<T, C> {
    fn make<W: Witness>(&mut self, side: &Side, witness: &mut W) {
        for &input in &self.inputs {
            witness.saw(&input, &(self.call)(side, input), &[]);
        }
    }
}

fn row<T: Copy + Debug + 'static, A: Answer + 'static>(
    call: &'static str,
    case: &str,
    refusal: u32,
    inputs: Vec<T>,
    ask: impl Fn(&Side, T) -> A + 'static,
) -> Row {
    Row::new(About::new(call, case, refusal, inputs.len()), Asking { inputs, call: ask })
}

/// The same numbers with one part out of range. `turn` selects the part.
fn one_wrong(mut of: RunningOf, turn: usize) -> RunningOf {
    let parts = [&mut of.tnow, &mut of.tev, &mut of.sign, &mut of.days, &mut of.time];
    *parts.into_iter().nth(turn % 5).expect("one of five") = 864_000_000;
    of
}

/// Looks at the tally of a full desk: with every letter and status by turns, and with bytes of which one is none.
fn looks(random: &mut Random) -> Vec<Row> {
    let tally = Lent::with(random, SEATS, CELLS).tally;
    let good = (0..INPUTS).map(|_| (random.one_of(LETTER_ORDER), random.one_of(STATUS_ORDER))).collect();
    let refused = (0..INPUTS).map(|k| [(b'L', b'R'), (b'P', b'P')][k % 2]).collect();
    let ask = move |side: &Side, (letter, status)| side.look(&tally, letter, status);
    vec![
        row("rei2_look", "any letter and status", 0, good, ask),
        row("rei2_look", "refused, no such letter or status", 17, refused, ask),
    ]
}

pub fn rows() -> Vec<Row> {
    let mut random = Random::new(3);
    let good: Vec<RunningOf> = (0..INPUTS).map(|_| running_of(&mut random)).collect();
    let refused = good.iter().enumerate().map(|(k, &of)| one_wrong(of, k)).collect();
    let states = (0..INPUTS).map(|_| Desk { bits: random.below(1 << SEATS) as u64, count: 0 }).collect();
    let sizes = (0..INPUTS).map(|_| (random.below(20_000), random.below(400))).collect();
    let mut rows = vec![
        row("rei2_running_time", "good", 0, good, Side::running_time),
        row("rei2_running_time", "refused", 8, refused, Side::running_time),
        row("rei2_seats_in_use", "any state", 0, states, Side::seats_in_use),
        row(
            "rei2_refusal_name",
            "1 to 17",
            0,
            (0..INPUTS as u32).map(|k| k % 17 + 1).collect(),
            |side: &Side, refusal| side.refusal_name(refusal, &mut [0; NAME_SIZE]),
        ),
        row("rei2_capacity", "any sizes", 0, sizes, |side: &Side, (cells, marks)| side.capacity(cells, marks)),
    ];
    rows.extend(looks(&mut random));
    rows
}
