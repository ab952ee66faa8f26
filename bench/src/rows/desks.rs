//! Calls on a desk. What a call changed in the seats and in the tally is put back before the next call. This is done on all
//! sides and is timed too. Free cells and marks are not put back, since they may contain anything.

use super::{About, Calls, Row};
use crate::abi::*;
use crate::inputs::{key_of_seat, place_in_tally, reply_with, request_with, Lent};
use crate::random::Random;
use crate::witness::Witness;

/// The number of frames in a row.
const FRAMES: usize = 16;

/// The number of seats in use, if a case does not say otherwise.
const USED: usize = 8;

struct Opening {
    lent: Lent,
    frames: Vec<Vec<u8>>,
}

impl Calls for Opening {
    fn make<W: Witness>(&mut self, side: &Side, witness: &mut W) {
        let Lent { desk, seats, cells, marks, tally } = &mut self.lent;
        let mut answer = DeskAnswer::default();
        for frame in &self.frames {
            side.open(&mut answer, seats, *desk, cells, marks, tally, frame);
            witness.saw(frame, &answer, &[seats, cells, marks, tally]);
            seats[answer.seat as usize] = Seat::default();
        }
    }
}

struct Replying {
    lent: Lent,
    frames: Vec<Vec<u8>>,
    /// For each frame, what it changes.
    before: Vec<Before>,
}

/// The place of a seat and the seat as it was before, and the same for a number of the tally.
struct Before {
    place: usize,
    seat: Seat,
    row: usize,
    column: usize,
    number: u32,
}

impl Before {
    fn of(lent: &Lent, place: usize, frame: &[u8]) -> Self {
        let (row, column) = place_in_tally(frame);
        Before { place, seat: lent.seats[place], row, column, number: lent.tally[row][column] }
    }
}

impl Calls for Replying {
    fn make<W: Witness>(&mut self, side: &Side, witness: &mut W) {
        let Lent { desk, seats, cells, marks, tally } = &mut self.lent;
        let mut answer = DeskAnswer::default();
        for (frame, before) in self.frames.iter().zip(&self.before) {
            side.reply(&mut answer, seats, *desk, cells, marks, tally, frame);
            witness.saw(frame, &answer, &[seats, cells, marks, tally]);
            seats[before.place] = before.seat;
            tally[before.row][before.column] = before.number;
        }
    }
}

struct Resetting {
    lent: Lent,
}

impl Calls for Resetting {
    fn make<W: Witness>(&mut self, side: &Side, witness: &mut W) {
        let Lent { desk, seats, tally, .. } = &mut self.lent;
        let mut answer = DeskAnswer::default();
        for _ in 0..FRAMES {
            side.reset(&mut answer, seats, *desk, tally);
            witness.saw(desk, &answer, &[seats, tally]);
        }
    }
}

/// Finds all records of a seat, one after the other.
struct ReadingBack {
    lent: Lent,
    seat: u32,
}

impl Calls for ReadingBack {
    fn make<W: Witness>(&mut self, side: &Side, witness: &mut W) {
        let Lent { desk, cells, marks, .. } = &self.lent;
        let mut from = 0;
        loop {
            let answer = side.next_held(*desk, cells, marks, self.seat, from);
            witness.saw(&from, &answer, &[]);
            if answer.found == 0 {
                return;
            }
            from = answer.cell + 1;
        }
    }
}

fn opening(held: usize) -> Row {
    let mut random = Random::new(4);
    let lent = Lent::with(&mut random, USED, held);
    let frames = (0..FRAMES).map(|k| request_with(&mut random, (b' ', b'z', 900 + k as u32))).collect();
    let mut about = About::new("rei2_open", format!("opened, {held} cells held, {USED} seats in use"), 0, FRAMES);
    about.cleared = "the seat";
    Row::new(about, Opening { lent, frames })
}

fn replying(used: usize, held: usize, refusal: u32) -> Row {
    let mut random = Random::new(5);
    let lent = Lent::with(&mut random, used, held);
    let seats = || (0..FRAMES).map(|k| k % used);
    let frames: Vec<Vec<u8>> = seats().map(|seat| reply_with(&mut random, key_of_seat(seat))).collect();
    let before = seats().zip(&frames).map(|(seat, frame)| Before::of(&lent, seat, frame)).collect();
    let outcome = if refusal == 0 { "taken" } else { "refused (full)" };
    let plural = if used == 1 { "seat" } else { "seats" };
    let case = format!("{outcome}, {held} cells held, {used} {plural} in use");
    let mut about = About::new("rei2_reply", case, refusal, FRAMES);
    about.cleared = "the seat, a number of the tally";
    Row::new(about, Replying { lent, frames, before })
}

fn reading_back(case: &str, seat: u32, calls: usize) -> Row {
    let lent = Lent::with(&mut Random::new(6), SEATS, CELLS);
    Row::new(About::new("rei2_next_held", case, 0, calls), ReadingBack { lent, seat })
}

pub fn rows() -> Vec<Row> {
    let reset = About::new("rei2_reset", "sixteen seats and the tally", 0, FRAMES);
    let lent = Lent::with(&mut Random::new(7), SEATS, 0);
    let mut rows = vec![Row::new(reset, Resetting { lent })];
    rows.extend([0, 64, 256].map(opening));
    rows.extend(
        [(8, 0, 0), (8, 64, 0), (8, 255, 0), (8, 256, 16), (1, 64, 0), (16, 64, 0)]
            .map(|(used, held, refusal)| replying(used, held, refusal)),
    );
    rows.push(reading_back("one record of a full desk: every 16th of 256 marks", 15, 17));
    rows.push(reading_back("no record: all 256 marks of a full desk passed", 99, 1));
    rows
}
