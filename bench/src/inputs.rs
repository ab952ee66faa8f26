//! Makes well formed records, and frames, desks and captures from them.

use crate::abi::*;
use crate::plain;
use crate::plain::tally::{column_of, row_of};
use crate::random::Random;

pub const REQUEST_SIZE: usize = 24;
pub const REPLY_SIZE: usize = 51;
pub const DYNAMIC_SIZE: usize = 46;

const ADDRESSES: &[u8] = b" 0123456789";
const REQUESTERS: &[u8] = b"0123456789ABCDEFGHIJKLMNOPQRSTUVWXYZabcdefghijklmnopqrstuvwxyz";
const OUTPUTS: &[u8] = b"SABT";
const REQUEST_LETTERS: &[u8] = b"0123456789AQPaSsTKLtR*GHhIiJjpkugWwXlbcd";
const CLOCK_LETTERS: &[u8] = b"0KSsa";
const NET_LETTERS: &[u8] = b"123";
const RAW_LETTERS: &[u8] = b"456789AQPTRGHhIiJjpkugWwX";
const LAST_TICK: u32 = 863_999_999;

/// An address, a requester and a number.
pub type Key = (u8, u8, u32);

pub fn request(random: &mut Random) -> StaticRequest {
    StaticRequest {
        address: random.one_of(ADDRESSES),
        requester: random.one_of(REQUESTERS),
        number: random.between(0, 999),
        bib: random.between(0, 59_999),
        information: random.one_of(REQUEST_LETTERS),
        channel: random.between(0, 240),
        run: random.between(0, 250),
        group: random.between(0, 199),
        output: random.one_of(OUTPUTS),
    }
}

/// A reply with status R and a timing of this kind.
pub fn reply(random: &mut Random, kind: u32) -> ReplyRecord {
    let head = ReplyHead {
        address: random.one_of(ADDRESSES),
        program: random.raw::<1>()[0],
        mode: random.raw::<1>()[0],
        status: b'R',
        requester: random.one_of(REQUESTERS),
        number: random.between(0, 999),
        bib: random.between(0, 59_999),
        group: random.between(0, 199),
        run: random.between(1, 250),
        physical: random.between(0, 999),
        channel: random.between(0, 240),
        information: random.one_of([RAW_LETTERS, CLOCK_LETTERS, NET_LETTERS][kind as usize]),
    };
    let timing = TimingNumbers { kind, ..TimingNumbers::default() };
    let mut record = ReplyRecord { head, timing, spare: random.raw(), ..ReplyRecord::default() };
    match kind {
        CLOCK => record.timing = clock_timing(random),
        NET => record.timing.net = net_value(random),
        _ => (record.raw_time, record.raw_date) = (random.raw(), random.raw()),
    }
    record
}

fn clock_timing(random: &mut Random) -> TimingNumbers {
    TimingNumbers {
        kind: CLOCK,
        ticks: random.between(0, LAST_TICK),
        day: random.between(1, 28),
        month: random.between(1, 12),
        year: random.between(2000, 2099),
        net: 0,
    }
}

/// A net value of up to nine million days before or after zero.
fn net_value(random: &mut Random) -> i64 {
    let days = i64::from(random.between(0, 18_000_000)) - 9_000_000;
    days * 864_000_000 + i64::from(random.between(0, LAST_TICK))
}

pub fn dynamic(random: &mut Random) -> DynamicRequest {
    DynamicRequest {
        address: random.one_of(ADDRESSES),
        requester: random.one_of(REQUESTERS),
        order: random.one_of(b"ABabTt"),
        bib: random.between(0, 60_000),
        channel: random.between(0, 240),
        run: random.between(0, 250),
        stop_bib: random.between(1, 60_000),
        stop_channel: random.between(0, 240),
        stop_run: random.between(0, 250),
        sign: random.between(0, 1),
        time: random.between(0, LAST_TICK),
        days: random.between(0, 9),
        period: random.between(1, 99_999),
        output: random.one_of(OUTPUTS),
    }
}

pub fn running_of(random: &mut Random) -> RunningOf {
    RunningOf {
        bib: random.between(1, 59_999),
        tnow: random.between(0, LAST_TICK),
        tev: random.between(0, LAST_TICK),
        sign: random.between(0, 1),
        days: random.between(0, 9),
        time: random.between(0, LAST_TICK),
    }
}

pub fn request_frame(record: &StaticRequest) -> Vec<u8> {
    let mut frame = vec![0; REQUEST_SIZE];
    assert!(plain::request::write(record, &mut frame).is_ok(), "{record:?}");
    frame
}

pub fn reply_frame(record: &ReplyRecord) -> Vec<u8> {
    let mut frame = vec![0; REPLY_SIZE];
    assert!(plain::reply::write(record, &mut frame).is_ok(), "{record:?}");
    frame
}

pub fn dynamic_frame(record: &DynamicRequest) -> Vec<u8> {
    let mut frame = vec![0; DYNAMIC_SIZE];
    assert!(plain::dynamic::write(record, &mut frame).is_ok(), "{record:?}");
    frame
}

/// The key of a seat. Each seat has a different key: seats 0 and 1 differ in the address alone, and so do 2 and 3, and so on.
pub fn key_of_seat(seat: usize) -> Key {
    let pair = seat / 2;
    (ADDRESSES[seat % 2], REQUESTERS[(7 * pair + 10) % REQUESTERS.len()], 61 * pair as u32 + 7)
}

pub fn request_with(random: &mut Random, (address, requester, number): Key) -> Vec<u8> {
    request_frame(&StaticRequest { address, requester, number, ..request(random) })
}

/// The same record with this key.
pub fn with_key(record: ReplyRecord, (address, requester, number): Key) -> ReplyRecord {
    ReplyRecord { head: ReplyHead { address, requester, number, ..record.head }, ..record }
}

/// A reply with any kind of timing, this key and status R.
pub fn reply_with(random: &mut Random, key: Key) -> Vec<u8> {
    let kind = random.between(RAW, NET);
    reply_frame(&with_key(reply(random, kind), key))
}

/// A desk with all memory that is lent to it.
#[derive(Clone)]
pub struct Lent {
    pub desk: Desk,
    pub seats: [Seat; SEATS],
    pub cells: Vec<u8>,
    pub marks: Vec<u32>,
    pub tally: Tally,
}

/// The row and the column of a reply in the tally. A reply that is not good may have none.
pub fn place_in_tally(frame: &[u8]) -> (usize, usize) {
    (row_of(frame[29]), column_of(frame[5]))
}

impl Lent {
    /// A desk with `used` seats in use and `held` cells, which belong to these seats in turn.
    pub fn with(random: &mut Random, used: usize, held: usize) -> Self {
        let mut lent = Lent::empty();
        lent.desk = Desk { bits: (1 << used) - 1, count: held as u32 };
        for (place, seat) in lent.seats[..used].iter_mut().enumerate() {
            let (address, requester, number) = key_of_seat(place);
            *seat = Seat { address: address.into(), requester: requester.into(), number, held: 0, ended: 0 };
        }
        for cell in 0..held {
            let seat = cell % used;
            lent.cells[cell * CELL_SIZE..][..CELL_SIZE].copy_from_slice(&reply_with(random, key_of_seat(seat)));
            lent.marks[cell] = seat as u32;
            lent.seats[seat].held += 1;
        }
        lent.count_again();
        lent
    }

    /// Makes the tally the count over the held cells.
    pub fn count_again(&mut self) {
        self.tally = [[0; STATUSES]; LETTERS];
        for cell in self.cells.chunks_exact(CELL_SIZE).take(self.desk.count as usize) {
            let (row, column) = place_in_tally(cell);
            if let Some(number) = self.tally.get_mut(row).and_then(|row| row.get_mut(column)) {
                *number += 1;
            }
        }
    }

    pub fn empty() -> Self {
        Lent {
            desk: Desk::default(),
            seats: Default::default(),
            cells: vec![0xee; CELLS * CELL_SIZE],
            marks: vec![0xeeee_eeee; CELLS],
            tally: [[0; STATUSES]; LETTERS],
        }
    }
}

/// One request and 642 replies to it: 32,766 bytes.
pub fn full_capture(random: &mut Random) -> Vec<u8> {
    let key = key_of_seat(0);
    let mut bytes = request_with(random, key);
    for _ in 0..642 {
        bytes.extend(reply_with(random, key));
    }
    bytes
}

/// Sixteen requests, and then replies to them, dynamic requests and damaged frames, with a line feed after each of these.
/// It is 32,768 bytes long, and the last frame is cut off.
pub fn mixed_capture(random: &mut Random) -> Vec<u8> {
    let mut bytes = Vec::new();
    for seat in 0..SEATS {
        bytes.extend(request_with(random, key_of_seat(seat)));
    }
    while bytes.len() < 32_768 {
        let seat = random.below(SEATS);
        let mut frame = match random.below(8) {
            0 => dynamic_frame(&dynamic(random)),
            _ => reply_with(random, key_of_seat(seat)),
        };
        if random.below(8) == 0 {
            let place = random.below(frame.len());
            frame[place] = random.between(0, 255) as u8;
        }
        bytes.extend(frame);
        bytes.push(b'\n');
    }
    bytes.truncate(32_768);
    bytes
}
