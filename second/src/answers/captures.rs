//! The answers of the finder: `find` and `find-from`.

use crate::finder::{self, Ending, Found};
use crate::spelling::{parse_capture, parse_place, NotACase};

/// What ends the list of frames, and the answer when no frame is found.
const NOTHING: &str = "nothing";

pub fn find(capture: &str) -> Result<String, NotACase> {
    let capture = parse_capture(capture)?;
    let frames: String = finder::frames(&capture)
        .map(|frame| frame_text(frame) + " ")
        .collect();
    Ok(frames + NOTHING)
}

pub fn find_from(place: &str, capture: &str) -> Result<String, NotACase> {
    let place = parse_place(place)?;
    let capture = parse_capture(capture)?;
    Ok(match finder::first_from(&capture, place) {
        Some(frame) => format!("{} {}", frame_text(frame), frame.next),
        None => NOTHING.to_string(),
    })
}

fn frame_text(frame: Found) -> String {
    let ending = match frame.ending {
        Ending::Whole => "whole",
        Ending::Cut => "cut",
    };
    format!("{ending} {} {}", frame.start, frame.end)
}
