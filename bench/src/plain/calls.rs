//! The calls in the form in which C calls them. No pointer is null here, even if there are no elements.
#![allow(clippy::missing_safety_doc, clippy::too_many_arguments)]

use super::refusal::{put_name, Refusal, DESK};
use super::ways::Ways;
use super::{desk, dynamic, listing, reply, request, tally, times};
use crate::abi::*;
use std::slice::{from_raw_parts, from_raw_parts_mut};

/// Stores an answer where the caller wants it.
#[inline(always)]
unsafe fn store<T>(place: *mut T, answer: T) -> *mut T {
    place.write(answer);
    place
}

#[inline(always)]
fn desk_answer(before: Desk, done: Result<(Desk, usize), Refusal>) -> DeskAnswer {
    match done {
        Ok((desk, seat)) => DeskAnswer { desk, refusal: 0, offset: 0, spoiled: 0, seat: seat as u32 },
        Err(Refusal { number, offset, spoiled }) => {
            DeskAnswer { desk: before, refusal: number, offset, spoiled, seat: 0 }
        }
    }
}

#[inline(always)]
fn written(done: Result<usize, Refusal>) -> WrittenAnswer {
    match done {
        Ok(size) => WrittenAnswer { refusal: 0, offset: 0, size },
        Err(Refusal { number, offset, .. }) => WrittenAnswer { refusal: number, offset, size: 0 },
    }
}

#[inline(never)]
pub unsafe extern "C" fn reset(
    place: *mut DeskAnswer,
    seats: *mut Seat,
    len: usize,
    desk: Desk,
    tally: *mut Tally,
) -> *mut DeskAnswer {
    let seats = from_raw_parts_mut(seats, len);
    if len != SEATS {
        return store(place, desk_answer(desk, Err(DESK)));
    }
    seats.fill(Seat::default());
    (*tally).fill([0; STATUSES]);
    store(place, DeskAnswer::default())
}

#[inline(never)]
pub unsafe extern "C" fn open<W: Ways>(
    place: *mut DeskAnswer,
    seats: *mut Seat,
    seats_len: usize,
    state: Desk,
    cells: *const u8,
    cells_len: usize,
    marks: *const u32,
    marks_len: usize,
    tally: *const Tally,
    frame: *const u8,
    frame_len: usize,
) -> *mut DeskAnswer {
    let seats = from_raw_parts_mut(seats, seats_len);
    let cells = from_raw_parts(cells, cells_len);
    let marks = from_raw_parts(marks, marks_len);
    let done = desk::open::<W>(seats, state, cells, marks, &*tally, from_raw_parts(frame, frame_len));
    store(place, desk_answer(state, done))
}

#[inline(never)]
pub unsafe extern "C" fn reply<W: Ways>(
    place: *mut DeskAnswer,
    seats: *mut Seat,
    seats_len: usize,
    state: Desk,
    cells: *mut u8,
    cells_len: usize,
    marks: *mut u32,
    marks_len: usize,
    tally: *mut Tally,
    frame: *const u8,
    frame_len: usize,
) -> *mut DeskAnswer {
    let seats = from_raw_parts_mut(seats, seats_len);
    let cells = from_raw_parts_mut(cells, cells_len);
    let marks = from_raw_parts_mut(marks, marks_len);
    let done = desk::reply::<W>(seats, state, cells, marks, &mut *tally, from_raw_parts(frame, frame_len));
    store(place, desk_answer(state, done))
}

#[inline(never)]
pub unsafe extern "C" fn capture<W: Ways>(
    place: *mut CapturedAnswer,
    seats: *mut Seat,
    seats_len: usize,
    state: Desk,
    cells: *mut u8,
    cells_len: usize,
    marks: *mut u32,
    marks_len: usize,
    tally: *mut Tally,
    bytes: *const u8,
    bytes_len: usize,
) -> *mut CapturedAnswer {
    let seats = from_raw_parts_mut(seats, seats_len);
    let cells = from_raw_parts_mut(cells, cells_len);
    let marks = from_raw_parts_mut(marks, marks_len);
    let bytes = from_raw_parts(bytes, bytes_len);
    let answer = match desk::capture::<W>(seats, state, cells, marks, &mut *tally, bytes) {
        Ok((desk, counts)) => CapturedAnswer { desk, refusal: 0, counts },
        Err(refusal) => CapturedAnswer { desk: state, refusal: refusal.number, counts: Counts::default() },
    };
    store(place, answer)
}

#[inline(never)]
pub unsafe extern "C" fn look(tally: *const Tally, letter: u8, status: u8) -> LookedAnswer {
    match tally::look(&*tally, letter, status) {
        Ok(held) => LookedAnswer { refusal: 0, held },
        Err(refusal) => LookedAnswer { refusal: refusal.number, held: 0 },
    }
}

#[inline(never)]
pub unsafe extern "C" fn seats_in_use(desk: Desk) -> u32 {
    desk.bits.count_ones()
}

#[inline(never)]
pub unsafe extern "C" fn capacity(cells: usize, marks: usize) -> usize {
    desk::capacity(cells, marks)
}

#[inline(never)]
pub unsafe extern "C" fn next_held(
    state: Desk,
    cells: *const u8,
    cells_len: usize,
    marks: *const u32,
    marks_len: usize,
    seat: u32,
    from: usize,
) -> CellAnswer {
    let cells = from_raw_parts(cells, cells_len);
    let marks = from_raw_parts(marks, marks_len);
    desk::next_held(state, cells, marks, seat, from).map_or(CellAnswer::default(), |cell| CellAnswer { found: 1, cell })
}

#[inline(never)]
pub unsafe extern "C" fn read_request(place: *mut RequestAnswer, frame: *const u8, len: usize) -> *mut RequestAnswer {
    let answer = match request::read(from_raw_parts(frame, len)) {
        Ok(request) => RequestAnswer { refusal: 0, offset: 0, spoiled: 0, request },
        Err(Refusal { number, offset, spoiled }) => {
            RequestAnswer { refusal: number, offset, spoiled, request: StaticRequest::default() }
        }
    };
    store(place, answer)
}

#[inline(never)]
pub unsafe extern "C" fn write_request(record: StaticRequest, out: *mut u8, len: usize) -> WrittenAnswer {
    written(request::write(&record, from_raw_parts_mut(out, len)))
}

#[inline(never)]
pub unsafe extern "C" fn read_reply<W: Ways>(
    place: *mut ReplyAnswer,
    frame: *const u8,
    len: usize,
) -> *mut ReplyAnswer {
    let answer = match W::read_reply(from_raw_parts(frame, len)) {
        Ok(reply) => ReplyAnswer { refusal: 0, offset: 0, spoiled: 0, reply },
        Err(Refusal { number, offset, spoiled }) => {
            ReplyAnswer { refusal: number, offset, spoiled, reply: ReplyRecord::default() }
        }
    };
    store(place, answer)
}

#[inline(never)]
pub unsafe extern "C" fn write_reply(record: ReplyRecord, out: *mut u8, len: usize) -> WrittenAnswer {
    written(reply::write(&record, from_raw_parts_mut(out, len)))
}

#[inline(never)]
pub unsafe extern "C" fn read_dynamic<W: Ways>(
    place: *mut DynamicAnswer,
    frame: *const u8,
    len: usize,
) -> *mut DynamicAnswer {
    let answer = match W::read_dynamic(from_raw_parts(frame, len)) {
        Ok(request) => DynamicAnswer { refusal: 0, offset: 0, spoiled: 0, request },
        Err(Refusal { number, offset, spoiled }) => {
            DynamicAnswer { refusal: number, offset, spoiled, request: DynamicRequest::default() }
        }
    };
    store(place, answer)
}

#[inline(never)]
pub unsafe extern "C" fn write_dynamic(record: DynamicRequest, out: *mut u8, len: usize) -> WrittenAnswer {
    written(dynamic::write(&record, from_raw_parts_mut(out, len)))
}

#[inline(never)]
pub unsafe extern "C" fn next_frame<W: Ways>(
    place: *mut FrameAnswer,
    capture: *const u8,
    len: usize,
    at: usize,
) -> *mut FrameAnswer {
    let found = W::next_frame(from_raw_parts(capture, len), at);
    store(place, found.unwrap_or(FrameAnswer { next: len, ..FrameAnswer::default() }))
}

#[inline(never)]
pub unsafe extern "C" fn list<W: Ways>(
    bytes: *const u8,
    bytes_len: usize,
    cells: *mut u8,
    cells_len: usize,
    marks: *mut u32,
    marks_len: usize,
    out: *mut u8,
    out_len: usize,
) -> ListedAnswer {
    let capture = from_raw_parts(bytes, bytes_len);
    let cells = from_raw_parts_mut(cells, cells_len);
    let marks = from_raw_parts_mut(marks, marks_len);
    match listing::list::<W>(capture, cells, marks, from_raw_parts_mut(out, out_len)) {
        Ok(size) => ListedAnswer { refusal: 0, size },
        Err(refusal) => ListedAnswer { refusal: refusal.number, size: 0 },
    }
}

#[inline(never)]
pub unsafe extern "C" fn running_time(of: RunningOf) -> RunningAnswer {
    match times::running_time(&of) {
        Ok(ticks) => RunningAnswer { refusal: 0, ticks },
        Err(refusal) => RunningAnswer { refusal: refusal.number, ticks: 0 },
    }
}

#[inline(never)]
pub unsafe extern "C" fn refusal_name(refusal: u32, out: *mut u8, len: usize) -> WrittenAnswer {
    written(put_name(refusal, from_raw_parts_mut(out, len)))
}
