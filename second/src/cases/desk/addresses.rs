//! Scripts about keys that differ in the address alone, and about addresses that make no desk.

use super::frames::{reply, reply_with_bib, request, request_for, Key, E, R, Z};
use super::script::{seat_of, Script};
use crate::cases::frames::{ADDRESSES, ADDRESS_EDGES};
use crate::cases::Cases;
use crate::desk::{Seat, CELL, SEATS};
use crate::reply::at;
use crate::script::Change;

/// Numbers that a used seat may have as its address.
const GOOD: [u32; 3] = [32, 48, 57];

/// Numbers that it may not have. The last three would be good if cut to 8 bits.
const WRONG: [u32; 10] = [0, 31, 33, 45, 47, 58, u32::MAX, 288, 304, 65_593];

pub fn add_all(cases: &mut Cases) {
    add_eleven(cases);
    add_space_and_zero(cases);
    add_other_addresses(cases);
    add_sixteen(cases);
    add_shared_keys(cases);
    add_used_seats(cases);
    add_unused_seats(cases);
    add_cells(cases);
}

/// The same requester and number under this address.
fn key_with(address: u8) -> Key {
    (address, b'1', 7)
}

fn all_keys() -> [Key; 11] {
    ADDRESSES.map(key_with)
}

/// A request under each address, each of them twice. Then replies to all of them, from the last to
/// the first and back.
fn add_eleven(cases: &mut Cases) {
    let keys = all_keys();
    let mut script = Script::lend_cells(cases, 2 * keys.len() - 1);
    for key in keys {
        script.open(&request(key));
        script.open(&request(key));
    }
    script.used();
    for (bib, &key) in keys.iter().enumerate().rev() {
        script.reply(&reply_with_bib(R, key, bib));
    }
    // For the last of these there is no free cell.
    for (bib, &key) in keys.iter().enumerate() {
        script.reply(&reply_with_bib(E, key, bib));
    }
    for key in [keys[0], keys[1], keys[10]] {
        script.reply(&reply(Z, key));
        script.open(&request(key));
        script.open(&request_for(key, b'q'));
    }
    for seat in [0, 1, 10] {
        script.held(seat, 0);
        script.held(seat, keys.len());
    }
    script.reset();
    script.reply(&reply(R, keys[0]));
}

/// A space is not the same address as `0`.
fn add_space_and_zero(cases: &mut Cases) {
    let (space, zero) = (key_with(b' '), key_with(b'0'));
    for (first, second) in [(space, zero), (zero, space)] {
        let mut script = Script::lend_cells(cases, 3);
        script.open(&request(first));
        script.reply(&reply(R, second));
        script.open(&request(second));
        script.reply(&reply(Z, second));
        script.reply(&reply(R, first));
        script.reply(&reply(R, second));
    }
}

/// Two requests. Replies with all other addresses are strays, and bytes that are no address are
/// refused by both calls.
fn add_other_addresses(cases: &mut Cases) {
    let mut script = Script::lend_cells(cases, 2);
    let own = [key_with(b'0'), key_with(b'5')];
    script.open_all(&own);
    for key in all_keys() {
        if !own.contains(&key) {
            script.reply(&reply(Z, key));
        }
    }
    for address in ADDRESS_EDGES {
        if !ADDRESSES.contains(&address) {
            script.open(&request(key_with(address)));
            script.reply(&reply(R, key_with(address)));
        }
    }
    for key in own {
        script.reply(&reply(Z, key));
    }
}

/// All seats are in use: eleven keys that differ in the address alone, and five with the same
/// addresses and another requester or number.
fn add_sixteen(cases: &mut Cases) {
    let others = [
        (b' ', b'1', 8),
        (b' ', b'2', 7),
        (b'0', b'2', 7),
        (b'0', b'2', 8),
        (b'9', b'2', 8),
    ];
    let keys = [&all_keys()[..], &others].concat();
    let mut script = Script::lend_cells(cases, SEATS);
    script.open_all(&keys);
    script.used();
    for key in [
        (b'9', b'1', 8),
        (b'1', b'2', 7),
        keys[0],
        keys[10],
        keys[15],
    ] {
        script.open(&request(key));
    }
    for key in [(b'9', b'1', 8), (b'1', b'2', 7)] {
        script.reply(&reply(R, key));
    }
    for (bib, &key) in keys.iter().enumerate().rev() {
        script.reply(&reply_with_bib(R, key, bib));
    }
    script.reset();
    script.used();
}

/// Calls that change nothing, whether there is a desk or not: the key is in use, and the reply is a
/// stray.
fn ask(script: &mut Script, in_use: Key) {
    script.open(&request(in_use));
    script.reply(&reply(R, (b'7', b'z', 999)));
}

/// The first and the last seat have the same requester and number, with the same address or with
/// different ones.
fn add_shared_keys(cases: &mut Cases) {
    let mut script = Script::lend_cells(cases, 1);
    script.change(&Change::Bits(0x8001));
    for (first, last) in [
        (b' ', b' '),
        (b' ', b'0'),
        (b'0', b'0'),
        (b'9', b'0'),
        (b'9', b'9'),
    ] {
        script.change(&Change::Seat(0, seat_of(key_with(first), 0, 0)));
        script.change(&Change::Seat(15, seat_of(key_with(last), 0, 0)));
        ask(&mut script, key_with(last));
    }
    script.reset();
}

/// A used seat with numbers that are addresses, and with others. The last state is reset.
fn add_used_seats(cases: &mut Cases) {
    let mut script = Script::lend_cells(cases, 1);
    script.open_all(&[key_with(b'3'), key_with(b'4')]);
    let seat = script.desk().seats[1];
    for address in GOOD.into_iter().chain(WRONG) {
        script.change(&Change::Seat(1, Seat { address, ..seat }));
        ask(&mut script, key_with(b'3'));
    }
    script.reset();
}

/// An unused seat must be zero, so a space is wrong there too. The last state is reset.
fn add_unused_seats(cases: &mut Cases) {
    let mut script = Script::lend_cells(cases, 1);
    script.open_all(&[key_with(b' ')]);
    let good = script.desk().clone();
    for (place, address) in [(1, 32), (1, 48), (15, 1), (15, u32::MAX), (15, 32)] {
        let zeros = Seat::default();
        script.change(&Change::Seat(place, Seat { address, ..zeros }));
        ask(&mut script, key_with(b' '));
        script.put_back(&good);
    }
    ask(&mut script, key_with(b' '));
    script.change(&Change::Seat(1, seat_of((b' ', 0, 0), 0, 0)));
    script.reset();
    script.open_all(&[key_with(b' ')]);
}

/// A cell whose reply has the key of its seat but for the address, and changes that make it agree
/// again.
fn add_cells(cases: &mut Cases) {
    let mut script = Script::lend_cells(cases, 3);
    let keys = [key_with(b' '), key_with(b'0')];
    script.open_all(&keys);
    for key in keys {
        script.reply(&reply(R, key));
    }
    let good = script.desk().clone();
    for (change, and_more) in mismatches(&good.seats) {
        script.change(&change);
        ask(&mut script, keys[1]);
        script.change_all(&and_more);
        ask(&mut script, keys[1]);
        script.put_back(&good);
    }
    ask(&mut script, keys[1]);
    script.reply(&reply(E, keys[0]));
}

/// A change after which a cell and its seat have different addresses, and changes that mend it or do
/// not.
fn mismatches(seats: &[Seat; SEATS]) -> Vec<(Change, Vec<Change>)> {
    let put = |cell: usize, address: u8| Change::Cell(cell * CELL + at::ADDRESS, vec![address]);
    let seat_with = |place: usize, address: u8| {
        let mut seat = seats[place];
        seat.address = address.into();
        Change::Seat(place, seat)
    };
    vec![
        // Another address in the cell, and then at the seat too.
        (put(0, b'9'), vec![seat_with(0, b'9')]),
        (put(0, b'-'), vec![seat_with(0, b'-')]),
        // Both cells have the address of the other seat. Then the marks name the other seat too.
        (
            put(0, b'0'),
            vec![put(1, b' '), Change::Mark(0, 1), Change::Mark(1, 0)],
        ),
        (put(1, b' '), vec![put(0, b'0')]),
        // Another address at the seat, and then in the other seat's cell.
        (seat_with(0, b'5'), vec![put(1, b'5')]),
    ]
}

#[cfg(test)]
mod tests {
    use super::*;
    use crate::cases::desk::script::tests::outcomes;

    const IN_USE: &str = "11 0 0 0";
    const STRAY: &str = "13 0 0 0";
    const NO_DESK: [&str; 2] = ["9 0 0 0"; 2];
    const DESK: [&str; 2] = [IN_USE, STRAY];

    #[test]
    fn eleven_requests_have_eleven_seats() {
        let answers = outcomes(add_eleven);
        for (seat, pair) in answers[1..23].chunks(2).enumerate() {
            assert_eq!(pair, [format!("0 0 0 {seat}"), IN_USE.to_string()]);
        }
        assert_eq!(answers[23], "11");
        for (reply, answer) in answers[24..34].iter().enumerate() {
            assert_eq!(answer, &format!("0 0 0 {}", 10 - reply));
        }
        for (seat, answer) in answers[35..45].iter().enumerate() {
            assert_eq!(answer, &format!("0 0 0 {seat}"));
        }
        assert_eq!(answers[45], "16 0 0 0");
        let ended = ["14 0 0 0", IN_USE, "10 0 0 0"];
        let held = ["15 0 0 0", IN_USE, "10 0 0 0"];
        assert_eq!(answers[46..55], [ended, ended, held].concat());
        assert_eq!(answers[55..61], ["10", "11", "9", "12", "0", "none"]);
        assert_eq!(answers[61..], ["0 0 0 0", STRAY]);
    }

    #[test]
    fn a_space_is_not_a_zero() {
        let answers = outcomes(add_space_and_zero);
        let expected = [
            "3", "0 0 0 0", STRAY, "0 0 0 1", "0 0 0 1", "0 0 0 0", "14 0 0 0",
        ];
        assert_eq!(answers, [expected, expected].concat());
    }

    #[test]
    fn other_addresses_are_strays_or_refused() {
        let answers = outcomes(add_other_addresses);
        assert_eq!(answers[3..12], [STRAY; 9]);
        assert_eq!(answers[12..22], ["4 0 0 0"; 10]);
        assert_eq!(answers[22..], ["0 0 0 0", "0 0 0 1"]);
    }

    #[test]
    fn sixteen_seats_are_in_use() {
        let answers = outcomes(add_sixteen);
        let calls = ["12 0 0 0", "12 0 0 0", IN_USE, IN_USE, IN_USE, STRAY, STRAY];
        assert_eq!(answers[17], "16");
        assert_eq!(answers[18..25], calls);
        for (reply, answer) in answers[25..41].iter().enumerate() {
            assert_eq!(answer, &format!("0 0 0 {}", 15 - reply));
        }
        assert_eq!(answers[41..], ["0 0 0 0", "0"]);
    }

    #[test]
    fn whole_keys_are_not_shared() {
        let answers = outcomes(add_shared_keys);
        let calls: Vec<&[String]> = answers[2..]
            .chunks_exact(4)
            .map(|lines| &lines[2..])
            .collect();
        let expected = [NO_DESK, DESK, NO_DESK, DESK, NO_DESK];
        assert_eq!(calls, expected);
    }

    #[test]
    fn used_seats_have_an_address() {
        let answers = outcomes(add_used_seats);
        let calls: Vec<&[String]> = answers[3..]
            .chunks_exact(3)
            .map(|lines| &lines[1..])
            .collect();
        assert_eq!(calls[..3], [DESK; 3]);
        assert_eq!(calls[3..], [NO_DESK; 10]);
    }

    #[test]
    fn unused_seats_have_none() {
        let answers = outcomes(add_unused_seats);
        let (spoiled, rest) = answers[2..].split_at(4 * 5);
        for lines in spoiled.chunks(4) {
            assert_eq!(lines, ["set", "9 0 0 0", "9 0 0 0", "set"]);
        }
        assert_eq!(rest, [IN_USE, STRAY, "set", "0 0 0 0", "0 0 0 0"]);
    }

    #[test]
    fn cells_have_the_address_of_their_seat() {
        let answers = outcomes(add_cells);
        let after: Vec<bool> = answers[5..]
            .windows(2)
            .filter(|pair| pair[0] == "set" && pair[1] != "set")
            .map(|pair| pair[1] != "9 0 0 0")
            .collect();
        let mended = [
            false, true, false, false, false, true, false, false, false, false,
        ];
        assert_eq!(after[..10], mended);
        let rest = &answers[answers.len() - 3..];
        assert_eq!(rest, [IN_USE, STRAY, "0 0 0 0"]);
    }
}
