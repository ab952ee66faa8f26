//! Calls beyond those of the rows on which all sides must agree: damaged frames, records, desks and captures.

mod edges;

use crate::abi::*;
use crate::compare::same;
use crate::inputs::*;
use crate::random::Random;

/// Numbers at or near the limits of some part.
const LIMITS: [u32; 39] = [
    0,
    1,
    2,
    3,
    9,
    10,
    12,
    13,
    28,
    29,
    30,
    31,
    32,
    33,
    47,
    48,
    57,
    58,
    99,
    100,
    199,
    200,
    240,
    241,
    245,
    248,
    249,
    250,
    251,
    255,
    999,
    1000,
    2000,
    59_999,
    60_000,
    60_001,
    99_999,
    863_999_999,
    u32::MAX,
];

/// Makes all these calls, and returns how many there were.
pub fn all() -> usize {
    let mut random = Random::new(8);
    damaged_frames(&mut random)
        + spoiled_records(&mut random)
        + damaged_cells(&mut random)
        + spoiled_desks(&mut random)
        + captures(&mut random)
        + numbers(&mut random)
        + edges::all(&mut random)
}

/// The answer of a call that stores it.
fn got<A: Default>(call: impl FnOnce(&mut A)) -> A {
    let mut answer = A::default();
    call(&mut answer);
    answer
}

fn read_by_all(frame: &[u8]) {
    same(&frame, |side| got(|answer| side.read_request(answer, frame)));
    same(&frame, |side| got(|answer| side.read_reply(answer, frame)));
    same(&frame, |side| got(|answer| side.read_dynamic(answer, frame)));
}

/// A few frames with each byte changed to each of its values, and frames of other lengths.
fn damaged_frames(random: &mut Random) -> usize {
    let mut calls = 0;
    let kinds = [CLOCK, NET, RAW].map(|kind| reply_frame(&reply(random, kind)));
    let others = [request_frame(&request(random)), dynamic_frame(&dynamic(random))];
    for frame in kinds.into_iter().chain(others) {
        for place in 0..frame.len() {
            read_by_all(&frame[..place]);
            for byte in 0..=u8::MAX {
                let mut damaged = frame.clone();
                damaged[place] = byte;
                read_by_all(&damaged);
                calls += 3;
            }
        }
        read_by_all(&[&frame[..], b"\r"].concat());
        calls += 3 * (frame.len() + 1);
    }
    calls
}

fn write<T: Copy + std::fmt::Debug>(record: T, room: usize, call: impl Fn(&Side, T, &mut [u8]) -> WrittenAnswer) {
    same(&(record, room), |side| {
        let mut out = vec![0xee; room];
        (call(side, record, &mut out), out)
    });
}

/// Records with one number or byte that may be wrong.
fn spoiled_records(random: &mut Random) -> usize {
    const TIMES: usize = 20_000;
    for _ in 0..TIMES {
        let (value, byte) = (random.one_of(&LIMITS), random.between(0, 255) as u8);
        let kind = random.between(RAW, NET);
        let (mut a, mut b, mut c) = (request(random), reply(random, kind), dynamic(random));
        spoil_request(&mut a, random.below(10), value, byte);
        spoil_reply(&mut b, random.below(25), value, byte);
        spoil_dynamic(&mut c, random.below(15), value, byte);
        let spare = random.below(3);
        write(a, REQUEST_SIZE - 1 + spare, Side::write_request);
        write(b, REPLY_SIZE - 1 + spare, Side::write_reply);
        write(c, DYNAMIC_SIZE - 1 + spare, Side::write_dynamic);
    }
    3 * TIMES
}

fn spoil_request(record: &mut StaticRequest, part: usize, value: u32, byte: u8) {
    match part {
        0 => record.requester = byte,
        1 => record.number = value,
        2 => record.bib = value,
        3 => record.information = byte,
        4 => record.channel = value,
        5 => record.run = value,
        6 => record.group = value,
        7 => record.output = byte,
        8 => record.address = byte,
        _ => (),
    }
}

fn spoil_reply(record: &mut ReplyRecord, part: usize, value: u32, byte: u8) {
    let head = &mut record.head;
    match part {
        0 => head.program = byte,
        1 => head.mode = byte,
        2 => head.status = byte,
        3 => head.requester = byte,
        4 => head.number = value,
        5 => head.bib = value,
        6 => head.group = value,
        7 => head.run = value,
        8 => head.physical = value,
        9 => head.channel = value,
        10 => head.information = byte,
        11 => record.timing.kind = value,
        12 => record.timing.ticks = value,
        13 => record.timing.day = value,
        14 => record.timing.month = value,
        15 => record.timing.year = value,
        16 => record.timing.net = i64::from(value) * 10_000_000 - 8_640_000_000_000_000,
        17 => record.timing.net = i64::from(value) * -10_000_000 + 8_640_000_000_000_000,
        18 => record.raw_time[usize::from(byte) % 10] = byte,
        19 => record.raw_date[usize::from(byte) % 8] = byte,
        20 => record.spare[usize::from(byte) % 2] = byte,
        21 => head.status = b'Z',
        22 => (head.status, head.run) = (b'E', value),
        23 => head.address = byte,
        _ => (),
    }
}

fn spoil_dynamic(record: &mut DynamicRequest, part: usize, value: u32, byte: u8) {
    match part {
        0 => record.requester = byte,
        1 => record.order = byte,
        2 => record.bib = value,
        3 => record.channel = value,
        4 => record.run = value,
        5 => record.stop_bib = value,
        6 => record.stop_channel = value,
        7 => record.stop_run = value,
        8 => record.sign = value,
        9 => record.time = value,
        10 => record.days = value,
        11 => record.period = value,
        12 => record.output = byte,
        13 => record.address = byte,
        _ => (),
    }
}

/// Desks in which each byte of a held cell is changed to each of its values. Each desk is given a reply, with the tally as it
/// was and with one that was counted again.
fn damaged_cells(random: &mut Random) -> usize {
    for kind in [CLOCK, NET, RAW] {
        let mut lent = Lent::with(random, 2, 3);
        let cell = reply_frame(&with_key(reply(random, kind), key_of_seat(0)));
        let frame = reply_with(random, key_of_seat(0));
        for place in 0..CELL_SIZE {
            for byte in 0..=u8::MAX {
                lent.cells[..CELL_SIZE].copy_from_slice(&cell);
                lent.count_again();
                lent.cells[place] = byte;
                reply_to(&lent, &frame);
                lent.count_again();
                reply_to(&lent, &frame);
            }
        }
    }
    6 * CELL_SIZE * 256
}

fn reply_to(lent: &Lent, frame: &[u8]) {
    same(&(lent.desk, lent.seats, frame), |side| {
        let Lent { desk, mut seats, mut cells, mut marks, mut tally } = lent.clone();
        let answer = got(|answer| side.reply(answer, &mut seats, desk, &mut cells, &mut marks, &mut tally, frame));
        (answer, seats, cells, marks, tally)
    });
}

/// Desks with one thing that may be wrong. Each is given a request, a reply, and a capture with both.
fn spoiled_desks(random: &mut Random) -> usize {
    const TIMES: usize = 4_000;
    for _ in 0..TIMES {
        let used = 1 + random.below(SEATS);
        let held = random.below(40);
        let mut lent = Lent::with(random, used, held);
        spoil_desk(&mut lent, random);
        spoil_tally(&mut lent, random);
        let key = key_of_seat(random.below(SEATS + 1));
        let request = request_with(random, key);
        let mut reply = reply_with(random, key);
        reply[5] = random.one_of(b"RREZ");
        let capture = [&request[..], b"\n", &reply, &reply[..30]].concat();
        same(&(lent.desk, lent.seats, &request), |side| {
            let Lent { desk, mut seats, cells, marks, tally } = lent.clone();
            (got(|answer| side.open(answer, &mut seats, desk, &cells, &marks, &tally, &request)), seats, tally)
        });
        reply_to(&lent, &reply);
        same(&(lent.desk, lent.seats, &capture), |side| {
            let Lent { desk, mut seats, mut cells, mut marks, mut tally } = lent.clone();
            let answer =
                got(|answer| side.capture(answer, &mut seats, desk, &mut cells, &mut marks, &mut tally, &capture));
            (answer, seats, cells, marks, tally)
        });
    }
    3 * TIMES
}

fn spoil_desk(lent: &mut Lent, random: &mut Random) {
    let held = lent.desk.count as usize;
    let seat = random.below(SEATS);
    let value = random.one_of(&LIMITS);
    let cell = random.below(held + 1);
    match random.below(15) {
        0 => lent.desk.bits ^= 1 << random.below(64),
        1 => lent.desk.count = value,
        2 => lent.seats[seat].requester = value,
        3 => lent.seats[seat].number = value,
        4 => lent.seats[seat].held = value,
        5 => lent.seats[seat].ended = value,
        6 => lent.marks[cell] = value,
        7 => lent.cells[cell * CELL_SIZE + random.below(CELL_SIZE)] = random.between(0, 255) as u8,
        8 => lent.cells[cell * CELL_SIZE + 5] = random.one_of(b"EZ"),
        9 => lent.seats[seat] = lent.seats[0],
        10 => lent.cells.truncate(held * CELL_SIZE + random.below(CELL_SIZE + 1)),
        11 => lent.marks.truncate(held + random.below(2)),
        12 => end_seat(lent, random),
        13 => lent.seats[seat].address = value,
        _ => (),
    }
}

/// Makes the tally wrong, leaves it as it was before the desk was spoiled, or counts it again.
fn spoil_tally(lent: &mut Lent, random: &mut Random) {
    let [row, other] = [random.below(LETTERS), random.below(LETTERS)];
    let [column, another] = [random.below(STATUSES), random.below(STATUSES)];
    match random.below(8) {
        0 => lent.tally[row][column] = random.one_of(&LIMITS),
        1 => lent.tally[row][column] = lent.tally[row][column].wrapping_sub(1),
        2 => {
            let number = lent.tally[row][column];
            lent.tally[row][column] = lent.tally[other][another];
            lent.tally[other][another] = number;
        }
        3 => (),
        _ => lent.count_again(),
    }
}

/// Changes the last record of a seat to status E and marks the seat as ended. With its tally this leaves the desk good.
fn end_seat(lent: &mut Lent, random: &mut Random) {
    let seat = random.below(SEATS);
    let held = lent.desk.count as usize;
    if let Some(cell) = (0..held).rev().find(|&cell| lent.marks[cell] as usize == seat) {
        lent.cells[cell * CELL_SIZE + 5] = b'E';
        lent.seats[seat].ended = 1;
    }
}

/// Captures that are listed, with cells, marks and outputs of many sizes, and searched for frames.
fn captures(random: &mut Random) -> usize {
    const TIMES: usize = 300;
    for time in 0..TIMES {
        let mut capture = mixed_capture(random);
        capture.truncate(random.below(32_769));
        if time == 0 {
            capture = vec![b' '; 32_769];
        }
        let (cells, marks) = (random.below(CELLS * CELL_SIZE + 200), random.below(CELLS + 20));
        let room = random.one_of(&[15, 67, 5_000, 14_000, 14_687]);
        same(&(&capture, cells, marks, room), |side| {
            let (mut cells, mut marks, mut out) = (vec![0xee; cells], vec![7; marks], vec![0xee; room]);
            (side.list(&capture, &mut cells, &mut marks, &mut out), cells, marks, out)
        });
        let at = random.below(capture.len() + 10);
        same(&(&capture, at), |side| got(|answer| side.next_frame(answer, &capture, at)));
        same(&&capture, |side| got(|answer| side.next_frame(answer, &capture, usize::MAX)));
    }
    3 * TIMES
}

/// Calls on numbers, searches for cells with any state, looks at a tally, and resets of rows of several lengths.
fn numbers(random: &mut Random) -> usize {
    const TIMES: usize = 5_000;
    let lent = Lent::with(random, SEATS, CELLS);
    for _ in 0..TIMES {
        let [bib, tnow, tev, sign, days, time] = std::array::from_fn(|_| random.one_of(&LIMITS));
        let of = RunningOf { bib, tnow, tev: tev * (bib % 2), sign: sign % 3, days: days % 11, time };
        let desk = Desk { bits: u64::from(time) * u64::from(tnow), count: random.between(0, 300) };
        let (cells, marks) = (random.below(lent.cells.len() + 1), random.below(CELLS + 1));
        let (seat, from) = (random.between(0, 17), random.below(300));
        same(&(of, desk, cells, marks, seat, from), |side| {
            let held = side.next_held(desk, &lent.cells[..cells], &lent.marks[..marks], seat, from);
            (side.running_time(of), side.seats_in_use(desk), side.capacity(cells, marks), held)
        });
        let length = random.one_of(&[SEATS, SEATS, SEATS - 1, 0]);
        same(&(desk, length), |side| {
            let (mut seats, mut tally) = (lent.seats, [[time; STATUSES]; LETTERS]);
            (got(|answer| side.reset(answer, &mut seats[..length], desk, &mut tally)), seats, tally)
        });
    }
    5 * TIMES + looks(random) + names()
}

/// Each letter with each status, on the tally of a full desk and on one of any numbers.
fn looks(random: &mut Random) -> usize {
    let any = std::array::from_fn(|_| std::array::from_fn(|_| random.one_of(&LIMITS)));
    let tallies = [Lent::with(random, SEATS, CELLS).tally, any];
    for tally in &tallies {
        for letter in 0..=u8::MAX {
            for status in 0..=u8::MAX {
                same(&(letter, status), |side| side.look(tally, letter, status));
            }
        }
    }
    tallies.len() * 256 * 256
}

/// Every refusal's name, with outputs of each length up to one byte more than the longest name needs.
fn names() -> usize {
    let refusals = || (0..20).chain([255, 256, u32::MAX]);
    for refusal in refusals() {
        for room in 0..=NAME_SIZE + 1 {
            same(&(refusal, room), |side| {
                let mut out = [7; NAME_SIZE + 1];
                (side.refusal_name(refusal, &mut out[..room]), out)
            });
        }
    }
    refusals().count() * (NAME_SIZE + 2)
}
