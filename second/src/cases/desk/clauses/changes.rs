//! A good desk, and changes to it that break a clause or are harmless.

use crate::cases::desk::frames::{reply, Key, E, R, REPLY_DAMAGES, Z};
use crate::cases::desk::script::seat_of;
use crate::desk::{Seat, CELL};
use crate::reply::at;
use crate::script::Change;

/// The keys of the desk that is spoiled, by seat. Seat 0 holds R, R and E in cells 0, 2 and 3. Seat
/// 1 holds an R in cell 1, seat 2 holds nothing, and seat 3 holds a Z in cell 4. Two more cells are
/// free.
pub const KEYS: [Key; 4] = [
    (b' ', b'1', 7),
    (b' ', b'A', 12),
    (b' ', b'z', 0),
    (b' ', b'a', 999),
];
pub const RECORDS: [(u8, usize); 5] = [(R, 0), (R, 1), (R, 0), (E, 0), (Z, 3)];
pub const CELLS: usize = 7;
pub const BITS: u64 = 0xf;
pub const COUNT: u32 = 5;

/// The first unused seat.
pub const UNUSED: usize = 4;

/// The keys that the spoiled and the mended desk are asked about. The mended desk takes both.
pub const NEW_KEY: Key = (b' ', b'b', 5);
pub const OPEN_KEY: Key = KEYS[1];

/// The largest number that a seat or a mark can hold.
const LARGEST: u32 = u32::MAX;

/// The record of a seat of the good desk.
pub fn seat_at(seat: usize) -> Seat {
    let held = RECORDS.iter().filter(|&&(_, at)| at == seat).count();
    let ended = RECORDS
        .iter()
        .any(|&(status, at)| at == seat && status != R);
    seat_of(KEYS[seat], held as u32, ended.into())
}

/// A seat of the good desk, but with this number of records held.
fn holding(seat: usize, held: u32) -> Change {
    let record = seat_at(seat);
    Change::Seat(seat, Seat { held, ..record })
}

fn ended(seat: usize, ended: u32) -> Change {
    let record = seat_at(seat);
    Change::Seat(seat, Seat { ended, ..record })
}

pub fn put(cell: usize, (offset, text): (usize, &[u8])) -> Change {
    Change::Cell(cell * CELL + offset, text.to_vec())
}

fn status(cell: usize, status: u8) -> Change {
    put(cell, (at::STATUS, &[status]))
}

/// After each of these lists of changes there is no desk.
pub fn breaks() -> Vec<Vec<Change>> {
    [
        bits(),
        illegal_keys(),
        shared_keys(),
        unused_seats(),
        counts(),
        marks(),
        cells(),
        keys_of_cells(),
        records_held(),
        orders(),
        ends(),
        cells_of_minus_zero(),
    ]
    .concat()
}

fn bits() -> Vec<Vec<Change>> {
    [16, 17, 31, 32, 40, 48, 62]
        .map(|bit| vec![Change::Bits(BITS | 1 << bit)])
        .to_vec()
}

fn illegal_keys() -> Vec<Vec<Change>> {
    let mut breaks = Vec::new();
    for requester in [0, 1, 47, 58, 64, 91, 96, 123, 176, 304, 65_584, LARGEST] {
        breaks.push(Seat {
            requester,
            ..seat_at(2)
        });
    }
    for number in [1_000, 1_007, 65_536, LARGEST] {
        breaks.push(Seat {
            number,
            ..seat_at(2)
        });
    }
    let mut breaks: Vec<Vec<Change>> = breaks
        .into_iter()
        .map(|seat| vec![Change::Seat(2, seat)])
        .collect();
    // Only a bit is set, with nothing at its seat.
    for seat in [UNUSED, 15] {
        breaks.push(vec![Change::Bits(BITS | 1 << seat)]);
    }
    breaks
}

fn shared_keys() -> Vec<Vec<Change>> {
    [0, 1, 3]
        .map(|other| vec![Change::Seat(2, seat_of(KEYS[other], 0, 0))])
        .to_vec()
}

fn unused_seats() -> Vec<Vec<Change>> {
    let mut breaks = Vec::new();
    for value in [1, LARGEST] {
        let numbers: [fn(u32) -> Seat; 4] = [
            |requester| Seat {
                requester,
                ..Seat::default()
            },
            |number| Seat {
                number,
                ..Seat::default()
            },
            |held| Seat {
                held,
                ..Seat::default()
            },
            |ended| Seat {
                ended,
                ..Seat::default()
            },
        ];
        for number in numbers {
            let place = if value == 1 { UNUSED } else { 15 };
            breaks.push(vec![Change::Seat(place, number(value))]);
        }
    }
    breaks.push(vec![Change::Seat(UNUSED, seat_of(NEW_KEY, 0, 0))]);
    // The bit of a used seat is cleared: once of a seat that holds nothing, once of a seat that
    // holds a record.
    breaks.push(vec![Change::Bits(BITS & !0b0100)]);
    breaks.push(vec![Change::Bits(BITS & !0b0010)]);
    breaks
}

/// Counts that are not the number of records. Counts above a small capacity are in
/// `add_short_memory`.
fn counts() -> Vec<Vec<Change>> {
    let mut breaks: Vec<Vec<Change>> = [0, 4, 6, 7, 8, 256 + COUNT, 65_536 + COUNT, LARGEST]
        .map(|count| vec![Change::Count(count)])
        .to_vec();
    // One record more that is good in itself but is not counted by its seat; and one record less.
    breaks.push(vec![
        Change::Count(6),
        Change::Mark(5, 1),
        put(5, (0, &reply(R, KEYS[1]))),
    ]);
    breaks.push(vec![Change::Count(4), holding(3, 0)]);
    breaks
}

/// A mark that names no used seat, once with the seat's records held corrected and once without.
fn marks() -> Vec<Vec<Change>> {
    let mut breaks = Vec::new();
    for mark in [4, 15, 16, 17, 255, 256, 257, 65_537, LARGEST] {
        breaks.push(vec![Change::Mark(1, mark), holding(1, 0)]);
        breaks.push(vec![Change::Mark(1, mark)]);
    }
    breaks
}

/// A cell that does not hold a reply.
fn cells() -> Vec<Vec<Change>> {
    let mut breaks: Vec<Vec<Change>> = REPLY_DAMAGES.map(|damage| vec![put(1, damage)]).to_vec();
    breaks.push(vec![put(4, (at::RUN, b"251"))]);
    breaks.push(vec![put(4, (at::TIME, b"\x7f"))]);
    // Only a Z may have run 000.
    breaks.push(vec![put(4, (at::RUN, b"000")), status(4, E)]);
    breaks.push(vec![put(0, (at::CR, b"\n"))]);
    breaks.push(vec![put(0, (0, &[0; CELL]))]);
    breaks
}

/// A cell that holds a good reply, but with another key than its seat's.
fn keys_of_cells() -> Vec<Vec<Change>> {
    let mut breaks = Vec::new();
    for requester in [b"a", b"1", b"B"] {
        breaks.push(vec![put(1, (at::REQUESTER, requester))]);
    }
    for number in [b"00013", b"00007", b"01012", b"65548", b"99999"] {
        breaks.push(vec![put(1, (at::NUMBER, number))]);
    }
    breaks.push(vec![put(1, (0, &reply(R, KEYS[0])))]);
    breaks.push(vec![put(1, (0, &reply(R, NEW_KEY)))]);
    // The mark names another seat, and the records held of both seats agree with that.
    breaks.push(vec![Change::Mark(1, 2), holding(1, 0), holding(2, 1)]);
    breaks.push(vec![Change::Mark(0, 1), holding(0, 2), holding(1, 2)]);
    // The seat has another key.
    let other = seat_of(NEW_KEY, 1, 0);
    breaks.push(vec![Change::Seat(1, other)]);
    breaks
}

fn records_held() -> Vec<Vec<Change>> {
    let mut breaks = Vec::new();
    for (seat, values) in [
        (0, vec![0, 2, 4, 259, LARGEST]),
        (1, vec![0, 2, 257, 65_537]),
        (2, vec![1, 256, LARGEST]),
        (3, vec![0, 2, 257]),
    ] {
        breaks.extend(values.into_iter().map(|held| vec![holding(seat, held)]));
    }
    breaks
}

/// Sets the statuses of seat 0, with `ended` as the last status requires.
fn statuses(statuses: &[u8; 3]) -> Vec<Change> {
    let [first, second, last] = *statuses;
    let mut changes = vec![status(0, first), status(2, second), status(3, last)];
    changes.push(ended(0, (last != R).into()));
    changes
}

/// An E or Z that is not the last, and a Z that is not alone.
fn orders() -> Vec<Vec<Change>> {
    [
        b"ERE", b"REE", b"ZRE", b"RZE", b"RRZ", b"EEE", b"ZZZ", b"ERR", b"RER", b"ZRR", b"RZR",
    ]
    .map(statuses)
    .to_vec()
}

/// `ended` does not say whether the last record is E or Z.
fn ends() -> Vec<Vec<Change>> {
    let mut breaks = Vec::new();
    for (seat, values) in [
        (0, vec![0, 2, 69, 256, 257, LARGEST]),
        (1, vec![1, 2, 256, LARGEST]),
        (2, vec![1, 2]),
        (3, vec![0, 2, 90]),
    ] {
        breaks.extend(values.into_iter().map(|value| vec![ended(seat, value)]));
    }
    // The status changes and `ended` stays.
    for (cell, other) in [(3, R), (1, E), (1, Z), (4, R)] {
        breaks.push(vec![status(cell, other)]);
    }
    breaks
}

/// A net reply of minus with neither days nor time, in a record and in a last record.
fn cells_of_minus_zero() -> Vec<Vec<Change>> {
    [(1, b"10000000000-0000000"), (3, b"20000000000-0000000")]
        .map(|(cell, timed)| vec![put(cell, (at::INFORMATION, timed))])
        .to_vec()
}

/// After each of these lists of changes there is a desk, and it takes what it is asked.
pub fn harmless() -> Vec<Vec<Change>> {
    let mut changes = Vec::new();
    // Free marks and cells may hold anything.
    for mark in [0, 4, 16, LARGEST] {
        changes.push(vec![Change::Mark(5, mark), Change::Mark(6, mark)]);
    }
    changes.push(vec![put(5, (0, &reply(Z, KEYS[0])))]);
    changes.push(vec![put(5, (0, &[0; CELL])), put(6, (CELL - 1, b"\r"))]);
    changes.push(vec![put(6, (0, &reply(E, KEYS[2])))]);
    // Fields that are not part of the key.
    changes.push(vec![
        put(1, (at::PROGRAM, b"~ ")),
        put(1, (at::BIB, b"59999")),
    ]);
    changes.push(vec![put(4, (at::RUN, b"000"))]);
    changes.push(vec![put(1, (at::INFORMATION, b"K235959999929022024"))]);
    // Other seats and other ends that are good.
    changes.push(vec![Change::Seat(2, seat_of((b' ', b'A', 999), 0, 0))]);
    changes.push(vec![Change::Seat(2, seat_of((b' ', b'0', 12), 0, 0))]);
    changes.push(vec![status(4, E)]);
    changes.push(statuses(b"RRR"));
    changes.push(vec![
        Change::Seat(15, seat_of((b' ', b'9', 0), 0, 0)),
        Change::Bits(BITS | 1 << 15),
    ]);
    changes.push(vec![
        Change::Seat(2, Seat::default()),
        Change::Bits(BITS & !0b0100),
    ]);
    // One record less, and one record more.
    changes.push(vec![
        Change::Count(4),
        Change::Seat(3, seat_of(KEYS[3], 0, 0)),
    ]);
    changes.push(vec![
        put(5, (0, &reply(Z, KEYS[2]))),
        Change::Mark(5, 2),
        Change::Seat(2, seat_of(KEYS[2], 1, 1)),
        Change::Count(6),
    ]);
    // Minus and no days, with a time; and without one in a cell that is not available.
    for timed in [b"10000000001-0000000", b"30000010000-0000000"] {
        changes.push(vec![put(1, (at::INFORMATION, timed))]);
    }
    changes.push(vec![put(4, (at::INFORMATION, b"10000000000-0000000"))]);
    changes
}
