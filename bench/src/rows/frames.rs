//! Frames that are read to records, and records that are written to frames.

use super::{About, Calls, Row};
use crate::abi::*;
use crate::inputs::*;
use crate::random::Random;
use crate::witness::{Answer, Witness};
use std::fmt::Debug;

/// The number of different frames or records in a row. There are several, so that no side is timed on one repeated input.
const INPUTS: usize = 64;

struct Reading<A, R> {
    frames: Vec<Vec<u8>>,
    answer: A,
    read: R,
}

impl<A: Answer, R: Fn(&Side, &mut A, &[u8])> Calls for Reading<A, R> {
    fn make<W: Witness>(&mut self, side: &Side, witness: &mut W) {
        for frame in &self.frames {
            (self.read)(side, &mut self.answer, frame);
            witness.saw(frame, &self.answer, &[]);
        }
    }
}

struct Writing<T, F> {
    records: Vec<T>,
    out: Vec<u8>,
    write: F,
}

impl<T: Copy + Debug, F: Fn(&Side, T, &mut [u8]) -> WrittenAnswer> Calls for Writing<T, F> {
    fn make<W: Witness>(&mut self, side: &Side, witness: &mut W) {
        for &record in &self.records {
            let answer = (self.write)(side, record, &mut self.out);
            witness.saw(&record, &answer, &[&self.out]);
        }
    }
}

fn many<T>(mut make: impl FnMut(&mut Random) -> T) -> Vec<T> {
    let mut random = Random::new(1);
    (0..INPUTS).map(|_| make(&mut random)).collect()
}

/// The same frames with one byte of each changed.
fn damaged(frames: &[Vec<u8>], at: usize) -> Vec<Vec<u8>> {
    let mut frames = frames.to_vec();
    frames.iter_mut().for_each(|frame| frame[at] = 0x7f);
    frames
}

/// Rows with good frames of a kind, and with the same frames after the lead byte or the last field was damaged.
fn readings<A: Answer + Default + 'static>(
    call: &'static str,
    good: Vec<(&str, Vec<Vec<u8>>)>,
    last: usize,
    read: impl Fn(&Side, &mut A, &[u8]) + Copy + 'static,
) -> Vec<Row> {
    let any: Vec<Vec<u8>> = good.iter().flat_map(|(_, frames)| frames.clone()).collect();
    let row = |case: &str, refusal: u32, frames: Vec<Vec<u8>>| {
        let answer = A::default();
        Row::new(About::new(call, case, refusal, frames.len()), Reading { frames, answer, read })
    };
    let mut rows = Vec::new();
    for (name, frames) in good {
        rows.push(row(name, 0, frames));
    }
    rows.push(row("damaged early (lead byte)", 1, damaged(&any, 0)));
    rows.push(row(&format!("damaged late (field at {last})"), 5, damaged(&any, last)));
    rows
}

/// Rows with good records of a kind, with the same records after their last part was made wrong, and with an output that is
/// too short.
fn writings<T: Copy + Debug + 'static>(
    call: &'static str,
    size: usize,
    good: Vec<(&str, Vec<T>)>,
    spoil: impl Fn(&mut T),
    write: impl Fn(&Side, T, &mut [u8]) -> WrittenAnswer + Copy + 'static,
) -> Vec<Row> {
    let any: Vec<T> = good.iter().flat_map(|(_, records)| records.clone()).collect();
    let mut wrong = any.clone();
    wrong.iter_mut().for_each(spoil);
    let row = |case: &str, refusal: u32, records: Vec<T>, room: usize| {
        let out = vec![0xee; room];
        Row::new(About::new(call, case, refusal, records.len()), Writing { records, out, write })
    };
    let mut rows: Vec<Row> = Vec::new();
    for (name, records) in good {
        rows.push(row(name, 0, records, size));
    }
    rows.push(row("refused, last part wrong", 6, wrong, size));
    rows.push(row("refused, no room", 7, any, size - 1));
    rows
}

pub fn rows() -> Vec<Row> {
    let requests = many(request);
    let dynamics = many(dynamic);
    let replies = [("good, clock", CLOCK), ("good, net", NET), ("good, raw", RAW)]
        .map(|(name, kind)| (name, many(|random| reply(random, kind))));

    let frames = requests.iter().map(request_frame).collect();
    let mut rows = readings("rei2_read_request", vec![("good", frames)], 22, Side::read_request);
    let frames = replies.iter().map(|(name, records)| (*name, records.iter().map(reply_frame).collect()));
    rows.extend(readings("rei2_read_reply", frames.collect(), 48, Side::read_reply));
    let frames = dynamics.iter().map(dynamic_frame).collect();
    rows.extend(readings("rei2_read_dynamic", vec![("good", frames)], 44, Side::read_dynamic));

    let good = vec![("good", requests)];
    let spoil = |record: &mut StaticRequest| record.output = b'X';
    rows.extend(writings("rei2_write_request", REQUEST_SIZE, good, spoil, Side::write_request));
    let spoil = |record: &mut ReplyRecord| record.spare[1] = 0x7f;
    rows.extend(writings("rei2_write_reply", REPLY_SIZE, replies.to_vec(), spoil, Side::write_reply));
    let good = vec![("good", dynamics)];
    let spoil = |record: &mut DynamicRequest| record.output = b'X';
    rows.extend(writings("rei2_write_dynamic", DYNAMIC_SIZE, good, spoil, Side::write_dynamic));
    rows
}
