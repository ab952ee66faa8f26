//! Scripts that only look: seats in use and held cells. Looks at the tally are in `tally`.

use super::frames::{reply_with_bib, Key, E, R};
use super::script::Script;
use crate::cases::Cases;
use crate::desk::CELL;
use crate::script::Change;

const KEYS: [Key; 2] = [(b' ', b'1', 7), (b' ', b'A', 7)];

/// What a mark holds if nothing was written to it.
const LENT_MARK: u32 = 4_008_636_142;

const LARGEST: u32 = u32::MAX;

pub fn add_all(cases: &mut Cases) {
    add_used(cases);
    add_held_by_replies(cases);
    add_any_seats(cases);
    add_counts_beyond_what_is_lent(cases);
    add_more_than_256(cases);
}

/// Counts the ones of many numbers, including numbers that make no desk.
fn add_used(cases: &mut Cases) {
    let mut script = Script::lend(cases, 0, 0);
    for bits in [
        0,
        1,
        2,
        0x5555,
        0x8000,
        0xffff,
        0x1_0000,
        0x1_ffff,
        0xffff_ffff,
        0x1_0000_0000,
        0x5555_5555_5555_5555,
        0x2aaa_aaaa_aaaa_aaaa,
        1 << 62,
        (1 << 63) - 2,
        (1 << 63) - 1,
    ] {
        script.change(&Change::Bits(bits));
        script.used();
    }
    script.reset();
    script.used();
}

/// Looks for both seats from every place, for seats that hold nothing, and for numbers that are no
/// seats.
fn add_held_by_replies(cases: &mut Cases) {
    let mut script = Script::lend_cells(cases, 6);
    script.open_all(&KEYS);
    for (bib, (status, key)) in [(R, 0), (R, 1), (R, 1), (R, 0), (E, 1)]
        .into_iter()
        .enumerate()
    {
        script.reply(&reply_with_bib(status, KEYS[key], bib));
    }
    for seat in [0, 1] {
        for place in (0..=7).chain([256, 65_536, LARGEST as usize]) {
            script.held(seat, place);
        }
    }
    for seat in [2, 15, 16, 17, 256, 257, 65_536, LENT_MARK, LARGEST] {
        script.held(seat, 0);
    }
    // A look does not need a desk. Cells past the count are not found.
    for count in [0, 1, 2, 3, 6, 7] {
        script.change(&Change::Count(count));
        for seat in [0, 1, LENT_MARK] {
            script.held(seat, 0);
            script.held(seat, 3);
        }
    }
    script.reset();
    script.held(0, 0);
}

/// Marks that name no seat are found by their value.
fn add_any_seats(cases: &mut Cases) {
    const MARKS: [u32; 8] = [16, 255, 256, 0, 65_536, LARGEST, 257, 15];
    let mut script = Script::lend_cells(cases, MARKS.len());
    script.change(&Change::Count(8));
    for (place, mark) in MARKS.into_iter().enumerate() {
        script.change(&Change::Mark(place, mark));
    }
    for seat in MARKS.into_iter().chain([1, 17, 271]) {
        script.held(seat, 0);
    }
    for place in [4, 5, 6] {
        script.held(LARGEST, place);
    }
}

/// A count larger than the number of cells or marks. A last cell that is not whole does not count.
fn add_counts_beyond_what_is_lent(cases: &mut Cases) {
    for (bytes, marks) in [
        (3 * CELL, 5),
        (3 * CELL + 50, 5),
        (4 * CELL, 3),
        (50, 5),
        (0, 2),
        (CELL, 0),
    ] {
        let mut script = Script::lend(cases, bytes, marks);
        for count in [3, 4, 5, 6, 259, LARGEST] {
            script.change(&Change::Count(count));
            for place in [0, 2, 3, 4, LARGEST as usize] {
                script.held(LENT_MARK, place);
            }
        }
    }
}

/// More cells are lent than a desk has. Those past its last cell do not belong to it.
fn add_more_than_256(cases: &mut Cases) {
    let mut script = Script::lend(cases, 15_300, 305);
    for count in [255, 256, 257, 300, 305, LARGEST] {
        script.change(&Change::Count(count));
        for place in [254, 255, 256, 257, 299, 300, 304] {
            script.held(LENT_MARK, place);
        }
    }
    for place in [300, 299, 256, 255] {
        script.change(&Change::Mark(place, 3));
        script.held(3, 0);
        script.held(3, place);
    }
}

#[cfg(test)]
mod tests {
    use super::*;
    use crate::cases::desk::script::tests::outcomes;

    #[test]
    fn ones() {
        let answers = outcomes(add_used);
        let used: Vec<&str> = answers[2..].iter().step_by(2).map(String::as_str).collect();
        let expected = [
            "0", "1", "1", "8", "1", "16", "1", "17", "32", "1", "32", "31", "1", "62", "63", "0",
        ];
        assert_eq!(used, expected);
    }

    #[test]
    fn cells_of_both_seats() {
        let answers = outcomes(add_held_by_replies);
        let (first, rest) = answers[8..].split_at(11);
        let none = "none";
        assert_eq!(
            first,
            ["0", "3", "3", "3", none, none, none, none, none, none, none]
        );
        let (second, rest) = rest.split_at(11);
        assert_eq!(
            second,
            ["1", "1", "2", "4", "4", none, none, none, none, none, none]
        );
        assert_eq!(rest[..9], [none; 9]);
        assert_eq!(rest[9..16], ["set", none, none, none, none, none, none]);
        assert_eq!(rest[16..23], ["set", "0", none, none, none, none, none]);
        // All six cells: seats 0 and 1, and the mark that nothing was written to.
        assert_eq!(rest[37..44], ["set", "0", "3", "1", "4", "5", "5"]);
        assert_eq!(answers.last().map(String::as_str), Some(none));
    }

    #[test]
    fn marks_that_are_no_seats() {
        let answers = outcomes(add_any_seats);
        let places = ["0", "1", "2", "3", "4", "5", "6", "7"];
        assert_eq!(answers[10..18], places);
        assert_eq!(answers[18..], ["none", "none", "none", "5", "5", "none"]);
    }

    #[test]
    fn no_cell_is_found_that_is_not_lent() {
        let answers = outcomes(add_counts_beyond_what_is_lent);
        let expected = [
            ["0", "2", "none", "none", "none"],
            ["0", "2", "none", "none", "none"],
            ["0", "2", "none", "none", "none"],
            ["none", "none", "none", "none", "none"],
            ["none", "none", "none", "none", "none"],
            ["none", "none", "none", "none", "none"],
        ];
        for (script, expected) in answers.chunks(1 + 6 * 6).zip(expected) {
            for looks in script[1..].chunks(6) {
                assert_eq!(looks[1..], expected);
            }
        }
    }

    #[test]
    fn cells_past_256() {
        let answers = outcomes(add_more_than_256);
        let looks: Vec<&[String]> = answers[1..].chunks(8).collect();
        let none = "none";
        assert_eq!(looks[0][1..], ["254", none, none, none, none, none, none]);
        for looks in &looks[1..6] {
            assert_eq!(looks[1..], ["254", "255", none, none, none, none, none]);
        }
        let rest = &answers[1 + 6 * 8..];
        assert_eq!(
            rest[..9],
            ["set", none, none, "set", none, none, "set", none, none]
        );
        assert_eq!(rest[9..], ["set", "255", "255"]);
    }
}
