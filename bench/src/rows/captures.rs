//! Captures that are cut into frames, given to a desk, and listed.

use super::{About, Calls, Row};
use crate::abi::*;
use crate::inputs::{full_capture, mixed_capture, Lent};
use crate::random::Random;
use crate::witness::Witness;

const LONGEST_LIST: usize = 14_687;

/// Finds all frames of a capture, one after the other.
struct Walking {
    capture: Vec<u8>,
}

impl Calls for Walking {
    fn make<W: Witness>(&mut self, side: &Side, witness: &mut W) {
        let mut at = 0;
        let mut found = FrameAnswer::default();
        loop {
            side.next_frame(&mut found, &self.capture, at);
            witness.saw(&at, &found, &[]);
            if found.kind == 0 {
                return;
            }
            at = found.next;
        }
    }
}

struct Taking {
    capture: Vec<u8>,
    lent: Lent,
}

impl Calls for Taking {
    fn make<W: Witness>(&mut self, side: &Side, witness: &mut W) {
        let Lent { desk, seats, cells, marks, tally } = &mut self.lent;
        seats.fill(Seat::default());
        tally.fill([0; STATUSES]);
        let mut answer = CapturedAnswer::default();
        side.capture(&mut answer, seats, *desk, cells, marks, tally, &self.capture);
        witness.saw(&self.capture, &answer, &[seats, cells, marks, tally]);
    }
}

struct Listing {
    capture: Vec<u8>,
    lent: Lent,
    out: Vec<u8>,
}

impl Calls for Listing {
    fn make<W: Witness>(&mut self, side: &Side, witness: &mut W) {
        let Lent { cells, marks, .. } = &mut self.lent;
        let answer = side.list(&self.capture, cells, marks, &mut self.out);
        witness.saw(&self.capture, &answer, &[cells, marks, &self.out]);
    }
}

/// How many calls it takes to find all frames of a capture.
fn calls_to_walk(capture: &[u8]) -> usize {
    capture.iter().filter(|byte| matches!(byte, 0x11..=0x13)).count() + 1
}

pub fn rows() -> Vec<Row> {
    let mut random = Random::new(2);
    let full = ("642 replies to one request", full_capture(&mut random));
    let mixed = ("16 requests, mixed frames", mixed_capture(&mut random));
    let blank = ("no frame in them", vec![b' '; 32_768]);
    let about = |call: &'static str, one: &str, (name, capture): &(&str, Vec<u8>), calls: usize| {
        let mut about = About::new(call, format!("{one}{} bytes: {name}", capture.len()), 0, calls);
        about.bytes = Some(capture.len());
        about
    };
    let mut rows = Vec::new();
    for (one, given) in [("one frame of ", &full), ("one frame of ", &mixed), ("", &blank)] {
        let about = about("rei2_next_frame", one, given, calls_to_walk(&given.1));
        rows.push(Row::new(about, Walking { capture: given.1.clone() }));
    }
    for given in [&full, &mixed] {
        let mut about = about("rei2_capture", "", given, 1);
        about.cleared = "the seats, the tally";
        rows.push(Row::new(about, Taking { capture: given.1.clone(), lent: Lent::empty() }));
    }
    for given in [&full, &mixed] {
        let (capture, lent, out) = (given.1.clone(), Lent::empty(), vec![0xee; LONGEST_LIST]);
        rows.push(Row::new(about("rei2_list", "", given, 1), Listing { capture, lent, out }));
    }
    rows
}
