use super::*;
use crate::reply::LAST_RECORD;

const Z: u8 = NOT_AVAILABLE;
const E: u8 = LAST_RECORD;
const R: u8 = RECORD;

pub fn request(requester: u8, number: u32) -> Vec<u8> {
    request_for(requester, number, b'P')
}

fn request_for(requester: u8, number: u32, information: u8) -> Vec<u8> {
    let mut frame = b"\x11R ".to_vec();
    frame.push(requester);
    frame.extend(format!("{number:03}00000").bytes());
    frame.push(information);
    frame.extend(b"000002000S\r");
    frame
}

pub fn reply(status: u8, requester: u8, number: u32) -> Vec<u8> {
    reply_with_bib(status, requester, number, 15)
}

fn reply_with_bib(status: u8, requester: u8, number: u32, bib: u32) -> Vec<u8> {
    let mut frame = b"\x12R SO".to_vec();
    frame.extend([status, requester]);
    frame.extend(format!("{number:05}{bib:05}").bytes());
    frame.extend(b"000002000000P000000000000000000  \r");
    frame
}

/// The frame with this address.
pub fn addressed(address: u8, mut frame: Vec<u8>) -> Vec<u8> {
    frame[crate::frame::ADDRESS] = address;
    frame
}

/// An empty desk with this many cells.
pub fn desk_of(cells: usize) -> Desk {
    Desk::with(vec![0xee; cells * CELL], vec![0xeeee_eeee; cells])
}

/// A desk on which these keys have been opened, in this order.
fn opened(cells: usize, keys: &[(u8, u32)]) -> Desk {
    let mut desk = desk_of(cells);
    for (seat, &(requester, number)) in keys.iter().enumerate() {
        assert_eq!(desk.open(&request(requester, number)), Ok(seat));
    }
    desk
}

fn sixteen_keys() -> Vec<(u8, u32)> {
    (b'A'..=b'P').map(|requester| (requester, 7)).collect()
}

fn check_refused(desk: &Desk, refusal: Refusal, call: impl FnOnce(&mut Desk) -> Outcome) {
    let mut after = desk.clone();
    assert_eq!(call(&mut after), Err(refusal));
    assert_eq!(&after, desk, "{refusal:?} changed something");
}

type Outcome = Result<usize, Refusal>;

/// The seat's records, in order.
fn records_at(desk: &Desk, seat: u32) -> Vec<&[u8]> {
    let mut records = Vec::new();
    let mut place = 0;
    while let Some(cell) = desk.next_held(seat, place) {
        records.push(&desk.cells[cell * CELL..][..CELL]);
        place = cell + 1;
    }
    records
}

#[test]
fn the_example_of_the_listing() {
    let first = b"\x12R SOR10000700015000002000000P000000000000000000  \r";
    let second = b"\x12R SOEA000120004100000101525510001125400+0000000  \r";
    let third = b"\x12R SOE10000700022000002000000P000000000000000000  \r";
    let mut desk = desk_of(256);
    assert_eq!(desk.open(b"\x11R 100700000P000002000S\r"), Ok(0));
    assert_eq!(desk.open(b"\x11R A012000411255001000S\r"), Ok(1));
    assert_eq!(desk.reply(first), Ok(0));
    assert_eq!(desk.reply(second), Ok(1));
    assert_eq!(desk.reply(third), Ok(0));
    check_refused(&desk, Refusal::Ended, |desk| desk.reply(second));
    assert_eq!(records_at(&desk, 0), [first, third]);
    assert_eq!(records_at(&desk, 1), [second]);
    assert_eq!((desk.bits, desk.count, desk.seats_in_use()), (3, 3, 2));
}

#[test]
fn an_opening_fills_its_seat_alone() {
    let mut desk = desk_of(1);
    assert_eq!(desk.open(&request(b'z', 999)), Ok(0));
    let mut expected = desk_of(1);
    expected.bits = 1;
    expected.seats[0] = Seat {
        address: 32,
        requester: 122,
        number: 999,
        held: 0,
        ended: 0,
    };
    assert_eq!(desk, expected);
    assert_eq!(desk.open(&addressed(b'9', request(b'z', 999))), Ok(1));
    expected.bits = 3;
    expected.seats[1] = Seat {
        address: 57,
        ..expected.seats[0]
    };
    assert_eq!(desk, expected);
}

#[test]
fn a_taken_reply_changes_next_cell_mark_seat_count_and_tally() {
    let mut desk = opened(3, &[(b'1', 7), (b'A', 12)]);
    assert_eq!(desk.reply(&reply(R, b'1', 7)), Ok(0));
    let mut expected = desk.clone();
    let frame = reply(E, b'A', 12);
    assert_eq!(desk.reply(&frame), Ok(1));
    expected.cells[51..102].copy_from_slice(&frame);
    expected.marks[1] = 1;
    expected.seats[1].held = 1;
    expected.seats[1].ended = 1;
    expected.count = 2;
    expected.tally.0[12][1] = 1;
    assert_eq!(desk, expected);
}

#[test]
fn an_opening_takes_the_lowest_clear_bit() {
    for gap in 0..SEATS {
        let mut desk = opened(0, &sixteen_keys());
        desk.bits &= !(1 << gap);
        desk.seats[gap] = Seat::default();
        assert_eq!(desk.open(&request(b'z', 0)), Ok(gap));
        assert_eq!(desk.bits, 0xffff);
    }
}

#[test]
fn sixteen_seats_and_no_seventeenth() {
    let desk = opened(1, &sixteen_keys());
    assert_eq!(desk.bits, 0xffff);
    check_refused(&desk, Refusal::NoSeat, |desk| desk.open(&request(b'z', 7)));
    // IN USE comes before NO SEAT, and NO ANSWER DUE comes before IN USE.
    check_refused(&desk, Refusal::InUse, |desk| desk.open(&request(b'P', 7)));
    check_refused(&desk, Refusal::NoAnswerDue, |desk| {
        desk.open(&request_for(b'P', 7, b'q'))
    });
    check_refused(&desk, Refusal::Field(4, 6), |desk| {
        desk.open(b"\x11R P00x00000q000000000S\r")
    });
}

#[test]
fn a_key_is_in_use_also_when_ended() {
    let mut desk = opened(1, &[(b'1', 7)]);
    check_refused(&desk, Refusal::InUse, |desk| desk.open(&request(b'1', 7)));
    assert_eq!(desk.reply(&reply(Z, b'1', 7)), Ok(0));
    check_refused(&desk, Refusal::InUse, |desk| desk.open(&request(b'1', 7)));
    // Other keys are free.
    assert_eq!(desk.open(&request(b'1', 8)), Ok(1));
    assert_eq!(desk.open(&request(b'A', 7)), Ok(2));
    assert_eq!(desk.open(&request(b'a', 7)), Ok(3));
}

#[test]
fn every_letter_but_q_is_opened() {
    for &information in crate::request::INFORMATION {
        let outcome = desk_of(1).open(&request_for(b'1', 7, information));
        let expected = if information == b'q' {
            Err(Refusal::NoAnswerDue)
        } else {
            Ok(0)
        };
        assert_eq!(outcome, expected);
    }
}

#[test]
fn an_e_ends_also_as_first_record() {
    let mut desk = opened(4, &[(b'1', 7)]);
    assert_eq!(desk.reply(&reply(E, b'1', 7)), Ok(0));
    for status in [R, E, Z] {
        check_refused(&desk, Refusal::Ended, |desk| {
            desk.reply(&reply(status, b'1', 7))
        });
    }
}

#[test]
fn a_z_is_taken_only_as_first_record_and_ends() {
    let mut desk = opened(4, &[(b'1', 7), (b'A', 7)]);
    assert_eq!(desk.reply(&reply(Z, b'1', 7)), Ok(0));
    for status in [R, E, Z] {
        check_refused(&desk, Refusal::Ended, |desk| {
            desk.reply(&reply(status, b'1', 7))
        });
    }
    assert_eq!(desk.reply(&reply(R, b'A', 7)), Ok(1));
    check_refused(&desk, Refusal::OutOfPlace, |desk| {
        desk.reply(&reply(Z, b'A', 7))
    });
    assert_eq!(desk.reply(&reply(R, b'A', 7)), Ok(1));
    assert_eq!(desk.reply(&reply(E, b'A', 7)), Ok(1));
    assert_eq!(desk.seats.map(|seat| seat.held)[..3], [1, 3, 0]);
    assert_eq!(desk.seats.map(|seat| seat.ended)[..3], [1, 1, 0]);
}

#[test]
fn the_same_reply_twice_is_two_records() {
    let mut desk = opened(2, &[(b'1', 7)]);
    let frame = reply(R, b'1', 7);
    assert_eq!(desk.reply(&frame), Ok(0));
    assert_eq!(desk.reply(&frame), Ok(0));
    assert_eq!(records_at(&desk, 0), [&frame[..], &frame]);
}

/// The reply is stored as it came. The one that is minus zero leaves nothing behind.
#[test]
fn a_reply_one_second_behind_is_taken() {
    let timed = |status, text: &[u8]| {
        let mut frame = reply(status, b'1', 7);
        frame[29..48].copy_from_slice(text);
        frame
    };
    let mut desk = opened(2, &[(b'1', 7)]);
    let minus_zero = timed(R, b"10000000000-0000000");
    let wrong = Refusal::Field(40, 40);
    check_refused(&desk, wrong, |desk| desk.reply(&minus_zero));
    let behind = timed(R, b"10000010000-0000000");
    assert_eq!(desk.reply(&behind), Ok(0));
    check_refused(&desk, wrong, |desk| desk.reply(&minus_zero));
    assert_eq!(records_at(&desk, 0), [&behind[..]]);
    let absent = timed(Z, b"10000000000-0000000");
    let mut other = opened(1, &[(b'1', 7)]);
    assert_eq!(other.reply(&absent), Ok(0));
}

#[test]
fn records_stay_in_the_order_they_came_in() {
    let mut desk = opened(3, &[(b'1', 7)]);
    let frames = [30, 10, 20].map(|bib| reply_with_bib(R, b'1', 7, bib));
    for frame in &frames {
        assert_eq!(desk.reply(frame), Ok(0));
    }
    assert_eq!(desk.cells, frames.concat());
}

#[test]
fn strays() {
    let mut desk = opened(2, &[(b'A', 7), (b'A', 999)]);
    for number in [0, 6, 8, 70, 700, 998, 1_000, 1_007, 1_999, 65_543, 99_999] {
        check_refused(&desk, Refusal::Stray, |desk| {
            desk.reply(&reply(R, b'A', number))
        });
    }
    for requester in *b"a1BZ" {
        check_refused(&desk, Refusal::Stray, |desk| {
            desk.reply(&reply(R, requester, 7))
        });
    }
    assert_eq!(desk.reply(&reply(R, b'A', 7)), Ok(0));
    assert_eq!(desk.reply(&reply(R, b'A', 999)), Ok(1));
}

const ADDRESSES: &[u8; 11] = b" 0123456789";

#[test]
fn the_address_is_part_of_the_key() {
    let mut desk = desk_of(22);
    for (seat, &address) in ADDRESSES.iter().enumerate() {
        let request = addressed(address, request(b'1', 7));
        assert_eq!(desk.open(&request), Ok(seat));
        check_refused(&desk, Refusal::InUse, |desk| desk.open(&request));
    }
    for status in [R, E] {
        for (seat, &address) in ADDRESSES.iter().enumerate().rev() {
            let reply = addressed(address, reply(status, b'1', 7));
            assert_eq!(desk.reply(&reply), Ok(seat));
            assert_eq!(records_at(&desk, seat as u32).last(), Some(&&reply[..]));
        }
    }
    for &address in ADDRESSES {
        let reply = addressed(address, reply(R, b'1', 7));
        check_refused(&desk, Refusal::Ended, |desk| desk.reply(&reply));
    }
}

#[test]
fn another_address_is_a_stray() {
    for &own in ADDRESSES {
        let mut desk = desk_of(1);
        assert_eq!(desk.open(&addressed(own, request(b'1', 7))), Ok(0));
        for &other in ADDRESSES.iter().filter(|&&other| other != own) {
            let frame = addressed(other, reply(R, b'1', 7));
            check_refused(&desk, Refusal::Stray, |desk| desk.reply(&frame));
        }
        assert_eq!(desk.reply(&addressed(own, reply(R, b'1', 7))), Ok(0));
    }
}

#[test]
fn a_wrong_address_is_refused_before_the_key_is_looked_up() {
    let desk = opened(1, &[(b'1', 7)]);
    for address in [0x00, 0x1f, 0x21, 0x2d, 0x2f, 0x3a] {
        let frame = addressed(address, request(b'1', 7));
        check_refused(&desk, Refusal::Address, |desk| desk.open(&frame));
        let frame = addressed(address, request_for(b'1', 8, b'q'));
        check_refused(&desk, Refusal::Address, |desk| desk.open(&frame));
        let frame = addressed(address, reply(R, b'1', 7));
        check_refused(&desk, Refusal::Address, |desk| desk.reply(&frame));
    }
    let frame = addressed(b'5', request_for(b'1', 7, b'q'));
    check_refused(&desk, Refusal::NoAnswerDue, |desk| desk.open(&frame));
}

#[test]
fn on_a_full_desk_the_other_refusals_go_first() {
    let mut desk = opened(2, &[(b'1', 7), (b'A', 7), (b'z', 7)]);
    assert_eq!(desk.reply(&reply(R, b'1', 7)), Ok(0));
    assert_eq!(desk.reply(&reply(E, b'A', 7)), Ok(1));
    for (frame, refusal) in [
        (reply(R, b'z', 8), Refusal::Stray),
        (reply(R, b'A', 7), Refusal::Ended),
        (reply(Z, b'A', 7), Refusal::Ended),
        (reply(Z, b'1', 7), Refusal::OutOfPlace),
        (reply(R, b'1', 7), Refusal::Full),
        (reply(E, b'1', 7), Refusal::Full),
        (reply(Z, b'z', 7), Refusal::Full),
        (reply(b'X', b'z', 8), Refusal::Field(5, 5)),
    ] {
        check_refused(&desk, refusal, |desk| desk.reply(&frame));
    }
    // Opening needs no cell.
    assert_eq!(desk.open(&request(b'z', 8)), Ok(3));
}

#[test]
fn no_desk_is_told_before_anything_about_the_frame() {
    let mut desk = opened(2, &[(b'1', 7)]);
    desk.bits |= 1 << 16;
    for frame in [Vec::new(), request(b'1', 7), request_for(b'1', 7, b'q')] {
        check_refused(&desk, Refusal::Desk, |desk| desk.open(&frame));
    }
    for frame in [Vec::new(), reply(R, b'1', 7), reply(R, b'1', 8)] {
        check_refused(&desk, Refusal::Desk, |desk| desk.reply(&frame));
    }
}

#[test]
fn a_call_takes_its_own_kind_of_frame() {
    let desk = opened(2, &[(b'1', 7)]);
    let dynamic = b"\x13R 1a000150000020004125500301234567898200100S\r";
    for frame in [reply(R, b'1', 7), dynamic.to_vec(), Vec::new()] {
        check_refused(&desk, Refusal::Kind, |desk| desk.open(&frame));
    }
    for frame in [request(b'A', 7), dynamic.to_vec(), Vec::new()] {
        check_refused(&desk, Refusal::Kind, |desk| desk.reply(&frame));
    }
}

#[test]
fn the_capacity_is_the_least_of_three() {
    for (bytes, marks, capacity) in [
        (0, 0, 0),
        (50, 2, 0),
        (51, 2, 1),
        (101, 2, 1),
        (102, 2, 2),
        (102, 1, 1),
        (102, 0, 0),
        (13_056, 255, 255),
        (13_056, 256, 256),
        (13_055, 257, 255),
        (15_300, 256, 256),
        (15_300, 300, 256),
    ] {
        let desk = Desk::with(vec![0; bytes], vec![0; marks]);
        assert_eq!(desk.capacity(), capacity, "{bytes} bytes, {marks} marks");
    }
}

#[test]
fn a_desk_is_full_at_its_capacity() {
    for (bytes, marks) in [(0, 4), (50, 4), (101, 4), (204, 2), (15_300, 300)] {
        let mut desk = Desk::with(vec![0xee; bytes], vec![0xeeee_eeee; marks]);
        assert_eq!(desk.open(&request(b'1', 7)), Ok(0));
        for _ in 0..desk.capacity() {
            assert_eq!(desk.reply(&reply(R, b'1', 7)), Ok(0));
        }
        check_refused(&desk, Refusal::Full, |desk| desk.reply(&reply(E, b'1', 7)));
        assert_eq!(desk.count as usize, desk.capacity());
    }
}

#[test]
fn a_reset_takes_any_state_and_leaves_cells_and_marks() {
    let seat = Seat {
        address: 32,
        requester: 1,
        number: 2,
        held: 3,
        ended: 4,
    };
    let mut desk = Desk {
        bits: u64::MAX,
        count: u32::MAX,
        tally: Tally([[u32::MAX; 3]; 33]),
        seats: [seat; SEATS],
        cells: vec![1, 2, 3],
        marks: vec![4, 5],
    };
    desk.reset();
    assert_eq!(desk, Desk::with(vec![1, 2, 3], vec![4, 5]));
}

#[test]
fn seats_in_use_are_the_ones_of_the_whole_number() {
    let mut desk = desk_of(0);
    for (bits, ones) in [(0, 0), (5, 2), (0xffff, 16), (1 << 63 | 1, 2), (!0, 64)] {
        desk.bits = bits;
        assert_eq!(desk.seats_in_use(), ones);
    }
}

#[test]
fn the_next_held_cell_is_below_the_count_and_the_capacity() {
    let mut desk = Desk::with(vec![0; 3 * CELL + 50], vec![7, 9, 7, 7, 7]);
    desk.count = 2;
    assert_eq!(desk.next_held(7, 0), Some(0));
    assert_eq!(desk.next_held(7, 1), None);
    assert_eq!(desk.next_held(9, 0), Some(1));
    assert_eq!(desk.next_held(0, 0), None);
    desk.count = u32::MAX;
    assert_eq!(desk.next_held(7, 1), Some(2));
    // There are three whole cells. Past them there are only marks.
    assert_eq!(desk.next_held(7, 3), None);
    assert_eq!(desk.next_held(7, usize::MAX), None);
    desk.marks.truncate(2);
    assert_eq!(desk.next_held(7, 1), None);
    desk.marks[1] = u32::MAX;
    assert_eq!(desk.next_held(u32::MAX, 0), Some(1));
    assert_eq!(desk.next_held(255, 0), None);
}

#[test]
fn no_cell_past_256_is_held() {
    let mut desk = desk_of(300);
    desk.count = 300;
    desk.marks[256..].fill(3);
    assert_eq!(desk.next_held(3, 0), None);
    assert_eq!(desk.next_held(3, 256), None);
    desk.marks[255] = 3;
    assert_eq!(desk.next_held(3, 0), Some(255));
    desk.count = 255;
    assert_eq!(desk.next_held(3, 0), None);
}

/// A reply with this letter, and with a time and a date that suit it.
fn reply_for(status: u8, requester: u8, number: u32, letter: u8) -> Vec<u8> {
    let timed: &[u8; 18] = match letter {
        b'0' | b'K' | b'S' | b's' | b'a' => b"235959999929022024",
        b'1' | b'2' | b'3' => b"0000000001-0000000",
        _ => b" --:--.---no date!",
    };
    let mut frame = reply(status, requester, number);
    frame[29] = letter;
    frame[30..48].copy_from_slice(timed);
    frame
}

const LETTERS: &[u8; 33] = b"0123456789AQPaSsTKRGHhIiJjpkugWwX";

#[test]
fn a_taken_reply_is_counted_once_at_its_letter_and_status() {
    for (row, &letter) in LETTERS.iter().enumerate() {
        for (column, status) in [R, E, Z].into_iter().enumerate() {
            let mut desk = opened(2, &[(b'1', 7), (b'A', 7)]);
            assert_eq!(desk.reply(&reply_for(status, b'1', 7, letter)), Ok(0));
            let mut expected = Tally::default();
            expected.0[row][column] = 1;
            assert_eq!(desk.tally, expected);
            assert_eq!(desk.look(letter, status), Ok(1));
            assert_eq!(desk.reply(&reply_for(status, b'A', 7, letter)), Ok(1));
            assert_eq!(desk.look(letter, status), Ok(2));
        }
    }
}

#[test]
fn looks_count_the_cells_held() {
    let mut desk = opened(6, &[(b'1', 7), (b'A', 7), (b'z', 0)]);
    for (status, requester, number, letter) in [
        (R, b'1', 7, b'P'),
        (R, b'A', 7, b'K'),
        (R, b'1', 7, b'P'),
        (E, b'1', 7, b'P'),
        (Z, b'z', 0, b'K'),
    ] {
        let frame = reply_for(status, requester, number, letter);
        assert!(desk.reply(&frame).is_ok());
    }
    let numbers = |letter| [R, E, Z].map(|status| desk.look(letter, status));
    assert_eq!(numbers(b'P'), [Ok(2), Ok(1), Ok(0)]);
    assert_eq!(numbers(b'K'), [Ok(1), Ok(0), Ok(1)]);
    assert_eq!(numbers(b'X'), [Ok(0); 3]);
    assert_eq!(desk.tally, Tally::counted(&desk));
}

#[test]
fn looks_outside_the_lists() {
    let mut desk = desk_of(0);
    for code in 0..=u8::MAX {
        for (letter, status) in [(code, R), (b'P', code)] {
            let known = LETTERS.contains(&letter) && [R, E, Z].contains(&status);
            let expected = if known { Ok(0) } else { Err(Refusal::NoSuch) };
            assert_eq!(desk.look(letter, status), expected);
        }
    }
    // It need not be a desk. The number is what the table has.
    desk.bits = u64::MAX;
    desk.tally.0[12][0] = u32::MAX;
    assert_eq!(desk.look(b'P', R), Ok(u32::MAX));
    for letter in *b"Lt*lbcdq" {
        assert_eq!(desk.look(letter, R), Err(Refusal::NoSuch));
        assert_eq!(desk.look(letter, b'X'), Err(Refusal::NoSuch));
    }
    assert_eq!(Refusal::NoSuch.number(), 17);
    assert_eq!(
        (Refusal::NoSuch.offset(), Refusal::NoSuch.spoiled()),
        (0, 0)
    );
}

#[test]
fn a_wrong_tally_is_no_desk() {
    let mut desk = opened(2, &[(b'1', 7)]);
    assert_eq!(desk.reply(&reply(R, b'1', 7)), Ok(0));
    for (row, column, number) in [(12, 0, 0), (12, 0, 2), (12, 1, 1), (0, 0, 1), (32, 2, 1)] {
        let mut wrong = desk.clone();
        wrong.tally.0[row][column] = number;
        check_refused(&wrong, Refusal::Desk, |desk| desk.open(&request(b'A', 7)));
        check_refused(&wrong, Refusal::Desk, |desk| desk.reply(&reply(R, b'1', 7)));
        check_refused(&wrong, Refusal::Desk, |desk| desk.open(&[]));
    }
    assert_eq!(desk.open(&request(b'A', 7)), Ok(1));
    assert_eq!(desk.reply(&reply(R, b'1', 7)), Ok(0));
    assert_eq!(desk.look(b'P', R), Ok(2));
}

#[test]
fn after_a_reset_counting_begins_at_zero() {
    let mut desk = opened(3, &[(b'1', 7)]);
    for status in [R, R, E] {
        assert_eq!(desk.reply(&reply(status, b'1', 7)), Ok(0));
    }
    desk.reset();
    // The cells still hold the old records.
    assert_eq!(desk.look(b'P', R), Ok(0));
    assert_eq!(desk.open(&request(b'A', 7)), Ok(0));
    assert_eq!(desk.reply(&reply_for(R, b'A', 7, b'X')), Ok(0));
    assert_eq!((desk.look(b'X', R), desk.look(b'P', R)), (Ok(1), Ok(0)));
    assert_eq!(desk.look(b'P', E), Ok(0));
}
