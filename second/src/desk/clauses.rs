//! What makes a desk: one function for each clause, in the order of the scope paper, and last the
//! clause of the tally. The clause of the sixteen seats is missing, because the type of the row
//! fixes it. Every function takes any state and any memory.

use super::{Desk, Key, Seat, Tally, CELL};
use crate::frame::{is_address, is_requester, Kind};
use crate::reply::{at, Reply, LAST_RECORD, NOT_AVAILABLE};
use crate::request;

const CLAUSES: [fn(&Desk) -> bool; 11] = [
    no_bit_is_above_the_seats,
    used_keys_are_a_requests,
    no_two_used_seats_share_a_key,
    unused_seats_are_all_zero,
    the_count_is_at_most_the_capacity,
    marks_name_used_seats,
    cells_are_replies_with_their_seats_key,
    held_is_how_many_marks_name_the_seat,
    only_the_last_is_e_or_z_and_z_is_alone,
    ended_says_whether_the_last_is_e_or_z,
    the_tally_is_the_count_over_the_cells_held,
];

pub fn make_a_desk(desk: &Desk) -> bool {
    CLAUSES.iter().all(|clause| clause(desk))
}

fn no_bit_is_above_the_seats(desk: &Desk) -> bool {
    desk.bits >> desk.seats.len() == 0
}

fn used_keys_are_a_requests(desk: &Desk) -> bool {
    desk.used_seats().all(|(_, seat)| is_a_requests(seat.key()))
}

fn is_a_requests(key: Key) -> bool {
    u8::try_from(key.address).is_ok_and(is_address)
        && u8::try_from(key.requester).is_ok_and(is_requester)
        && request::is_number(key.number)
}

fn no_two_used_seats_share_a_key(desk: &Desk) -> bool {
    // Each used seat must be the first one with its key. If it is not, it shares the key with the
    // first one.
    desk.used_seats()
        .all(|(place, seat)| desk.seat_with(seat.key()) == Some(place))
}

fn unused_seats_are_all_zero(desk: &Desk) -> bool {
    let mut seats = desk.seats.iter().enumerate();
    seats.all(|(place, &seat)| desk.is_used(place) || seat == Seat::default())
}

fn the_count_is_at_most_the_capacity(desk: &Desk) -> bool {
    desk.below_the_count() <= desk.capacity()
}

fn marks_name_used_seats(desk: &Desk) -> bool {
    marks_below_the_count(desk).all(|&mark| used_seat_named(desk, mark).is_some())
}

fn cells_are_replies_with_their_seats_key(desk: &Desk) -> bool {
    records_below_the_count(desk).all(|(&mark, cell)| match used_seat_named(desk, mark) {
        Some(seat) => {
            let key = Reply::read(cell).map(|reply| Key::of_reply(&reply));
            key == Ok(seat.key())
        }
        None => false,
    })
}

fn held_is_how_many_marks_name_the_seat(desk: &Desk) -> bool {
    desk.used_seats().all(|(place, seat)| {
        let naming = marks_below_the_count(desk).filter(|&&mark| names(mark, place));
        usize::try_from(seat.held) == Ok(naming.count())
    })
}

fn only_the_last_is_e_or_z_and_z_is_alone(desk: &Desk) -> bool {
    desk.used_seats()
        .all(|(place, _)| match statuses_at(desk, place).split_last() {
            Some((&last, before)) => {
                let only_the_last = !before.iter().copied().any(is_an_end);
                only_the_last && (last != NOT_AVAILABLE || before.is_empty())
            }
            None => true,
        })
}

/// A seat without records is not ended.
fn ended_says_whether_the_last_is_e_or_z(desk: &Desk) -> bool {
    desk.used_seats().all(|(place, seat)| {
        let last = statuses_at(desk, place).last().copied();
        seat.ended == u32::from(last.is_some_and(is_an_end))
    })
}

fn the_tally_is_the_count_over_the_cells_held(desk: &Desk) -> bool {
    desk.tally == Tally::counted(desk)
}

fn is_an_end(status: u8) -> bool {
    matches!(status, LAST_RECORD | NOT_AVAILABLE)
}

fn names(mark: u32, seat: usize) -> bool {
    usize::try_from(mark) == Ok(seat)
}

fn used_seat_named(desk: &Desk, mark: u32) -> Option<&Seat> {
    let mut seats = desk.used_seats();
    seats.find_map(|(place, seat)| names(mark, place).then_some(seat))
}

/// The marks below the count, as far as they are lent.
fn marks_below_the_count(desk: &Desk) -> impl Iterator<Item = &u32> {
    desk.marks.iter().take(desk.below_the_count())
}

/// Marks and cells below the count, as far as both are lent.
fn records_below_the_count(desk: &Desk) -> impl Iterator<Item = (&u32, &[u8])> {
    marks_below_the_count(desk).zip(desk.cells.chunks_exact(CELL))
}

/// The status byte of each of the seat's records, in order.
fn statuses_at(desk: &Desk, seat: usize) -> Vec<u8> {
    records_below_the_count(desk)
        .filter(|&(&mark, _)| names(mark, seat))
        .map(|(_, cell)| cell[at::STATUS])
        .collect()
}

#[cfg(test)]
mod tests {
    use super::*;
    use crate::desk::tests::{addressed, desk_of, reply, request};
    use crate::desk::{MOST_CELLS, SEATS};

    /// The places of the clauses in `CLAUSES`.
    const BITS: usize = 0;
    const KEYS: usize = 1;
    const SHARED_KEYS: usize = 2;
    const UNUSED_SEATS: usize = 3;
    const COUNT: usize = 4;
    const MARKS: usize = 5;
    const CELLS: usize = 6;
    const HELD: usize = 7;
    const ORDER: usize = 8;
    const ENDED: usize = 9;
    const TALLY: usize = 10;

    /// Seat 0 holds R, R, E, seat 1 an R, seat 2 nothing and seat 3 a Z. One cell is free.
    fn mixed() -> Desk {
        let mut desk = desk_of(6);
        for (requester, number) in [(b'1', 7), (b'A', 12), (b'z', 0), (b'a', 999)] {
            assert!(desk.open(&request(requester, number)).is_ok());
        }
        for (status, requester, number) in [
            (b'R', b'1', 7),
            (b'R', b'A', 12),
            (b'R', b'1', 7),
            (b'E', b'1', 7),
            (b'Z', b'a', 999),
        ] {
            assert!(desk.reply(&reply(status, requester, number)).is_ok());
        }
        desk
    }

    fn put(desk: &mut Desk, cell: usize, offset: usize, text: &[u8]) {
        let first = cell * CELL + offset;
        desk.cells[first..first + text.len()].copy_from_slice(text);
    }

    /// Checks that exactly these clauses no longer hold once the desk is spoiled. The tally goes
    /// along with the cells.
    fn check(expected: &[usize], spoil: impl FnOnce(&mut Desk)) {
        check_as_it_is(expected, |desk| {
            spoil(desk);
            desk.tally = Tally::counted(desk);
        });
    }

    /// The same, but the tally stays as it is.
    fn check_as_it_is(expected: &[usize], spoil: impl FnOnce(&mut Desk)) {
        let mut desk = mixed();
        assert!(make_a_desk(&desk));
        spoil(&mut desk);
        let broken: Vec<usize> = (0..CLAUSES.len())
            .filter(|&clause| !CLAUSES[clause](&desk))
            .collect();
        assert_eq!(broken, expected, "{desk:?}");
        assert_eq!(make_a_desk(&desk), expected.is_empty());
    }

    #[test]
    fn bits() {
        for bit in [16, 17, 40, 62, 63] {
            check(&[BITS], |desk| desk.bits |= 1 << bit);
        }
        check(&[], |desk| {
            desk.bits |= 1 << 15;
            desk.seats[15].address = b' '.into();
            desk.seats[15].requester = b'0'.into();
        });
    }

    #[test]
    fn keys() {
        for requester in [0, 0x2f, 0x3a, 0x40, 0x5b, 0x60, 0x7b, 304, u32::MAX] {
            check(&[KEYS], |desk| {
                desk.seats[2].requester = requester;
            });
        }
        for number in [1_000, 65_536, u32::MAX] {
            check(&[KEYS], |desk| {
                desk.seats[2].number = number;
            });
        }
        check(&[], |desk| desk.seats[2].number = 999);
        check(&[SHARED_KEYS], |desk| {
            desk.seats[2] = Seat {
                held: 0,
                ..desk.seats[1]
            };
        });
        check(&[SHARED_KEYS], |desk| {
            desk.bits |= 1 << 15;
            desk.seats[15] = desk.seats[2];
        });
        check(&[], |desk| desk.seats[2].requester = b'A'.into());
        check(&[], |desk| desk.seats[2].number = 12);
    }

    #[test]
    fn addresses_of_used_seats() {
        for address in [0, 0x1f, 0x21, 0x2d, 0x2f, 0x3a, 288, 304, u32::MAX] {
            check(&[KEYS], |desk| {
                desk.seats[2].address = address;
            });
        }
        for &address in b" 0123456789" {
            check(&[], |desk| desk.seats[2].address = address.into());
        }
    }

    /// Two used seats may differ in the address alone, but not share all three parts of the key.
    #[test]
    fn seats_that_differ_in_the_address_alone() {
        check(&[], |desk| {
            desk.seats[2] = Seat {
                address: b'0'.into(),
                held: 0,
                ..desk.seats[1]
            };
        });
        check(&[], |desk| {
            desk.bits |= 1 << 15;
            desk.seats[15] = Seat {
                address: b'9'.into(),
                ..desk.seats[2]
            };
        });
        check(&[SHARED_KEYS], |desk| {
            desk.seats[2].address = b'9'.into();
            desk.bits |= 1 << 15;
            desk.seats[15] = desk.seats[2];
        });
    }

    #[test]
    fn unused_seats() {
        let spoils: [fn(&mut Seat); 6] = [
            |seat| seat.address = 32,
            |seat| seat.address = 48,
            |seat| seat.requester = 48,
            |seat| seat.number = 1,
            |seat| seat.held = 1,
            |seat| seat.ended = 1,
        ];
        for spoil in spoils {
            for seat in [4, SEATS - 1] {
                check(&[UNUSED_SEATS], |desk| {
                    spoil(&mut desk.seats[seat]);
                });
            }
        }
        check(&[UNUSED_SEATS], |desk| desk.bits &= !4);
    }

    #[test]
    fn counts() {
        // A sixth mark that could be good, but its cell is not lent whole.
        check(&[COUNT], |desk| {
            desk.cells.truncate(5 * CELL + 50);
            desk.marks[5] = 1;
            desk.count = 6;
            desk.seats[1].held = 2;
        });
        check(&[COUNT], |desk| {
            desk.marks.truncate(5);
            desk.count = 6;
        });
        check(&[], |desk| {
            desk.marks.truncate(5);
            desk.cells.truncate(5 * CELL);
        });
        check(&[], |desk| {
            desk.count = 4;
            desk.seats[3].held = 0;
            desk.seats[3].ended = 0;
        });
        check(&[HELD], |desk| {
            desk.count = 4;
            desk.seats[3].ended = 0;
        });
    }

    #[test]
    fn no_more_cells_than_256() {
        let mut desk = desk_of(MOST_CELLS + 1);
        assert!(desk.open(&request(b'1', 7)).is_ok());
        desk.cells = reply(b'R', b'1', 7).repeat(MOST_CELLS + 1);
        desk.marks.fill(0);
        for count in [MOST_CELLS, MOST_CELLS + 1] {
            desk.count = count as u32;
            desk.seats[0].held = count as u32;
            desk.tally.0[P][0] = count as u32;
            assert_eq!(make_a_desk(&desk), count == MOST_CELLS);
        }
    }

    #[test]
    fn marks() {
        for mark in [4, 15, 16, 255, 256, 257, 65_537, u32::MAX] {
            check(&[MARKS, CELLS], |desk| {
                desk.marks[1] = mark;
                desk.seats[1].held = 0;
            });
        }
        check(&[CELLS], |desk| {
            desk.marks[1] = 2;
            desk.seats[1].held = 0;
            desk.seats[2].held = 1;
        });
    }

    #[test]
    fn cells() {
        use crate::reply::at;
        let damages: [(usize, &[u8]); 12] = [
            (0, b"\x11"),
            (1, b" "),
            (2, b"R"),
            (at::PROGRAM, b"\x1f"),
            (at::REQUESTER, b"a"),
            (at::NUMBER, b"01012"),
            (at::NUMBER, b"65548"),
            (at::BIB, b"60000"),
            (at::RUN, b"000"),
            (at::INFORMATION, b"L"),
            (at::SPARE, b"\x7f"),
            (at::CR, b"\0"),
        ];
        for (offset, text) in damages {
            check(&[CELLS], |desk| {
                put(desk, 1, offset, text);
            });
        }
        // The key of its seat but for the address, once of the cell and once of the seat.
        for address in [b"0", b"9", b"-"] {
            check(&[CELLS], |desk| put(desk, 1, at::ADDRESS, address));
        }
        check(&[CELLS], |desk| desk.seats[1].address = b'0'.into());
        check(&[], |desk| {
            desk.seats[1].address = b'0'.into();
            put(desk, 1, at::ADDRESS, b"0");
        });
        check(&[], |desk| put(desk, 1, at::BIB, b"59999"));
        check(&[], |desk| put(desk, 4, at::RUN, b"000"));
    }

    /// A net reply of minus and no days in a cell, with a time and without.
    #[test]
    fn cells_of_minus_zero() {
        let offset = crate::reply::at::INFORMATION;
        for timed in [b"10000000001-0000000", b"30000010000-0000000"] {
            check(&[], |desk| put(desk, 1, offset, timed));
        }
        let minus_zero = b"10000000000-0000000";
        check(&[CELLS], |desk| put(desk, 1, offset, minus_zero));
        // Cell 4 holds a Z, whose time and date are raw.
        check(&[], |desk| put(desk, 4, offset, minus_zero));
    }

    #[test]
    fn records_held() {
        for (seat, held) in [(0, 2), (0, 4), (0, 259), (1, 0), (2, 1), (2, 256)] {
            check(&[HELD], |desk| {
                desk.seats[seat].held = held;
            });
        }
    }

    fn put_statuses(desk: &mut Desk, statuses: &[u8; 3]) {
        for (cell, &status) in [0, 2, 3].into_iter().zip(statuses) {
            put(desk, cell, at::STATUS, &[status]);
        }
    }

    #[test]
    fn order_of_statuses() {
        for statuses in [b"ERE", b"REE", b"ZRE", b"RZE", b"RRZ", b"EEE", b"ZZZ"] {
            check(&[ORDER], |desk| {
                put_statuses(desk, statuses);
            });
        }
        for statuses in [b"ERR", b"RER", b"ZRR", b"RZR"] {
            check(&[ORDER], |desk| {
                put_statuses(desk, statuses);
                desk.seats[0].ended = 0;
            });
        }
    }

    #[test]
    fn ended() {
        let wrong: [(usize, &[u32]); 4] = [
            (0, &[0, 2, 257, u32::MAX]),
            (1, &[1, 2, 256]),
            (2, &[1, 2]),
            (3, &[0, 2, 90]),
        ];
        for (seat, values) in wrong {
            for &ended in values {
                check(&[ENDED], |desk| {
                    desk.seats[seat].ended = ended;
                });
            }
        }
        check(&[ENDED], |desk| {
            put_statuses(desk, b"RRR");
        });
        check(&[], |desk| {
            put_statuses(desk, b"RRR");
            desk.seats[0].ended = 0;
        });
        for status in [b'E', b'Z'] {
            check(&[], |desk| {
                put(desk, 1, at::STATUS, &[status]);
                desk.seats[1].ended = 1;
            });
        }
    }

    #[test]
    fn free_cells_and_marks_hold_anything() {
        for mark in [0, 1, 16, u32::MAX] {
            check(&[], |desk| desk.marks[5] = mark);
        }
        check(&[], |desk| put(desk, 5, 0, &reply(b'Z', b'1', 7)));
        check(&[], |desk| {
            put(desk, 5, 0, &addressed(b'3', reply(b'Z', b'1', 7)));
        });
        check(&[], |desk| put(desk, 5, 50, b"\0"));
    }

    /// The row of the letter that the records have.
    const P: usize = 12;

    #[test]
    fn each_number_of_the_tally() {
        for (row, column) in Tally::places() {
            for more in [1, 2, 256, 65_536, 1 << 31, u32::MAX] {
                check_as_it_is(&[TALLY], |desk| {
                    let number = &mut desk.tally.0[row][column];
                    *number = number.wrapping_add(more);
                });
            }
        }
    }

    #[test]
    fn sums_of_the_tally_are_not_enough() {
        let wrong: [[[u32; 3]; 2]; 4] = [
            [[2, 2, 1], [0, 0, 0]],
            [[3, 0, 1], [0, 1, 0]],
            [[2, 1, 1], [0, 0, 1]],
            [[2, 1, 2], [1, 0, u32::MAX]],
        ];
        for [of_p, of_next] in wrong {
            check_as_it_is(&[TALLY], |desk| {
                assert_eq!(desk.tally.0[P], [3, 1, 1]);
                (desk.tally.0[P], desk.tally.0[P + 1]) = (of_p, of_next);
            });
        }
    }

    #[test]
    fn the_tally_goes_along_with_letters_and_statuses() {
        let change: fn(&mut Desk) = |desk| put(desk, 1, at::INFORMATION, b"X");
        check_as_it_is(&[TALLY], change);
        check(&[], change);
        let change: fn(&mut Desk) = |desk| put(desk, 4, at::STATUS, b"E");
        check_as_it_is(&[TALLY], change);
        check(&[], change);
        // Other fields do not matter.
        check_as_it_is(&[], |desk| put(desk, 1, at::BIB, b"59999"));
    }

    /// Only the cells below the count are in the tally.
    #[test]
    fn the_tally_leaves_free_cells_out() {
        let put_free = |desk: &mut Desk| put(desk, 5, 0, &reply(b'R', b'A', 12));
        check_as_it_is(&[], put_free);
        check_as_it_is(&[TALLY], |desk| {
            put_free(desk);
            desk.tally.0[P][0] += 1;
        });
        let take = |desk: &mut Desk| {
            put_free(desk);
            (desk.marks[5], desk.count, desk.seats[1].held) = (1, 6, 2);
        };
        check_as_it_is(&[TALLY], take);
        check_as_it_is(&[], |desk| {
            take(desk);
            desk.tally.0[P][0] += 1;
        });
        let free = |desk: &mut Desk| {
            desk.count = 4;
            (desk.seats[3].held, desk.seats[3].ended) = (0, 0);
        };
        check_as_it_is(&[TALLY], free);
        check_as_it_is(&[], |desk| {
            free(desk);
            desk.tally.0[P][2] = 0;
        });
    }

    #[test]
    fn nothing_lent_is_a_desk() {
        assert!(make_a_desk(&Desk::default()));
    }
}
