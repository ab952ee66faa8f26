//! The structs of include/rei2.h, and its calls, which all sides have.

use crate::{plain, tuned};

pub const SEATS: usize = 16;
pub const CELLS: usize = 256;
pub const CELL_SIZE: usize = 51;
pub const NAME_SIZE: usize = 14;
pub const LETTERS: usize = 33;
pub const STATUSES: usize = 3;

/// A row for each letter of a reply, and in it a number for each status.
pub type Tally = [[u32; STATUSES]; LETTERS];

pub const RAW: u32 = 0;
pub const CLOCK: u32 = 1;
pub const NET: u32 = 2;

/// Declares structs with the layout of C.
macro_rules! structs {
    ($($name:ident { $($field:ident: $type:ty),* $(,)? })*) => {$(
        #[repr(C)]
        #[derive(Clone, Copy, Debug, Default, PartialEq)]
        pub struct $name { $(pub $field: $type),* }
    )*};
}

structs! {
    Desk { bits: u64, count: u32 }
    Seat { address: u32, requester: u32, number: u32, held: u32, ended: u32 }
    DeskAnswer { desk: Desk, refusal: u32, offset: u32, spoiled: u32, seat: u32 }
    Counts { opened: usize, collected: usize, dynamic: usize, refused: usize }
    CapturedAnswer { desk: Desk, refusal: u32, counts: Counts }
    StaticRequest {
        address: u8, requester: u8, number: u32, bib: u32, information: u8, channel: u32, run: u32, group: u32,
        output: u8,
    }
    RequestAnswer { refusal: u32, offset: u32, spoiled: u32, request: StaticRequest }
    TimingNumbers { kind: u32, ticks: u32, day: u32, month: u32, year: u32, net: i64 }
    ReplyHead {
        address: u8, program: u8, mode: u8, status: u8, requester: u8, number: u32, bib: u32, group: u32, run: u32,
        physical: u32, channel: u32, information: u8,
    }
    ReplyRecord {
        head: ReplyHead, timing: TimingNumbers, raw_time: [u8; 10], raw_date: [u8; 8], spare: [u8; 2],
    }
    ReplyAnswer { refusal: u32, offset: u32, spoiled: u32, reply: ReplyRecord }
    DynamicRequest {
        address: u8, requester: u8, order: u8, bib: u32, channel: u32, run: u32, stop_bib: u32, stop_channel: u32,
        stop_run: u32, sign: u32, time: u32, days: u32, period: u32, output: u8,
    }
    DynamicAnswer { refusal: u32, offset: u32, spoiled: u32, request: DynamicRequest }
    WrittenAnswer { refusal: u32, offset: u32, size: usize }
    FrameAnswer { kind: u32, start: usize, end: usize, next: usize }
    CellAnswer { found: u32, cell: usize }
    LookedAnswer { refusal: u32, held: u32 }
    RunningOf { bib: u32, tnow: u32, tev: u32, sign: u32, days: u32, time: u32 }
    RunningAnswer { refusal: u32, ticks: i64 }
    ListedAnswer { refusal: u32, size: usize }
}

/// The function of a call on a side of plain Rust. A call that is tuned is generic, and the other ones are made in one way.
macro_rules! on_side {
    (tuned $call:ident $ways:ty) => {
        plain::calls::$call::<$ways>
    };
    (as_plain $call:ident $ways:ty) => {
        plain::calls::$call
    };
}

/// Declares the calls, and the three sides as tables of pointers to them. The calls of all sides have the same types. They
/// are made through the pointers, so that none is inlined. A call is `tuned`, or it is made on the tuned side `as_plain`.
macro_rules! calls {
    ($($call:ident $exported:ident $how:ident($($name:ident: $type:ty),* $(,)?) -> $answer:ty;)*) => {
        extern "C" { $(fn $exported($($name: $type),*) -> $answer;)* }

        pub struct Side { $(pub $call: unsafe extern "C" fn($($type),*) -> $answer),* }

        pub static PROVED: Side = Side { $($call: $exported),* };
        pub static PLAIN: Side = Side { $($call: on_side!($how $call plain::ways::Plain)),* };
        pub static TUNED: Side = Side { $($call: on_side!($how $call tuned::Tuned)),* };

        /// Has this call a function of its own on the tuned side?
        pub fn is_tuned(call: &str) -> bool {
            match call {
                $(stringify!($exported) => stringify!($how) == "tuned",)*
                _ => panic!("no call {call}"),
            }
        }
    };
}

// An answer of more than 16 bytes is stored where the first argument points, and the call returns that pointer. On x86-64
// C does the same if a function returns such a struct.
calls! {
    reset rei2_reset as_plain(
        answer: *mut DeskAnswer, seats: *mut Seat, seats_len: usize, desk: Desk, tally: *mut Tally,
    ) -> *mut DeskAnswer;
    open rei2_open tuned(
        answer: *mut DeskAnswer, seats: *mut Seat, seats_len: usize, desk: Desk, cells: *const u8, cells_len: usize,
        marks: *const u32, marks_len: usize, tally: *const Tally, frame: *const u8, frame_len: usize,
    ) -> *mut DeskAnswer;
    reply rei2_reply tuned(
        answer: *mut DeskAnswer, seats: *mut Seat, seats_len: usize, desk: Desk, cells: *mut u8, cells_len: usize,
        marks: *mut u32, marks_len: usize, tally: *mut Tally, frame: *const u8, frame_len: usize,
    ) -> *mut DeskAnswer;
    capture rei2_capture tuned(
        answer: *mut CapturedAnswer, seats: *mut Seat, seats_len: usize, desk: Desk, cells: *mut u8, cells_len: usize,
        marks: *mut u32, marks_len: usize, tally: *mut Tally, capture: *const u8, capture_len: usize,
    ) -> *mut CapturedAnswer;
    look rei2_look as_plain(tally: *const Tally, letter: u8, status: u8) -> LookedAnswer;
    seats_in_use rei2_seats_in_use as_plain(desk: Desk) -> u32;
    capacity rei2_capacity as_plain(cells: usize, marks: usize) -> usize;
    next_held rei2_next_held as_plain(
        desk: Desk, cells: *const u8, cells_len: usize, marks: *const u32, marks_len: usize, seat: u32, from: usize,
    ) -> CellAnswer;
    read_request rei2_read_request as_plain(
        answer: *mut RequestAnswer, frame: *const u8, frame_len: usize,
    ) -> *mut RequestAnswer;
    write_request rei2_write_request as_plain(record: StaticRequest, out: *mut u8, out_len: usize) -> WrittenAnswer;
    read_reply rei2_read_reply tuned(answer: *mut ReplyAnswer, frame: *const u8, frame_len: usize) -> *mut ReplyAnswer;
    write_reply rei2_write_reply as_plain(record: ReplyRecord, out: *mut u8, out_len: usize) -> WrittenAnswer;
    read_dynamic rei2_read_dynamic tuned(
        answer: *mut DynamicAnswer, frame: *const u8, frame_len: usize,
    ) -> *mut DynamicAnswer;
    write_dynamic rei2_write_dynamic as_plain(record: DynamicRequest, out: *mut u8, out_len: usize) -> WrittenAnswer;
    next_frame rei2_next_frame tuned(
        answer: *mut FrameAnswer, capture: *const u8, capture_len: usize, at: usize,
    ) -> *mut FrameAnswer;
    list rei2_list tuned(
        capture: *const u8, capture_len: usize, cells: *mut u8, cells_len: usize, marks: *mut u32, marks_len: usize,
        out: *mut u8, out_len: usize,
    ) -> ListedAnswer;
    running_time rei2_running_time as_plain(of: RunningOf) -> RunningAnswer;
    refusal_name rei2_refusal_name as_plain(refusal: u32, out: *mut u8, out_len: usize) -> WrittenAnswer;
}
