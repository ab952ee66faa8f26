//! Tallies that make no desk. The desk is built once. After each wrong tally it is put right again,
//! and then it takes a reply.

use super::{LARGEST, NEW, ONE, OTHER, THIRD};
use crate::cases::desk::frames::{reply_for, request, Key, E, R, ROW_OF_P, Z};
use crate::cases::desk::script::Script;
use crate::cases::Cases;
use crate::desk::tally::Tally;
use crate::reply::INFORMATION;
use crate::script::Change;

const FOURTH: Key = (b'3', b'A', 7);

/// The records that the desk holds at first. More come while it is asked.
const RECORDS: [(u8, Key, u8); 8] = [
    (R, ONE, b'P'),
    (R, OTHER, b'P'),
    (R, ONE, b'0'),
    (E, OTHER, b'1'),
    (Z, THIRD, b'X'),
    (R, ONE, b'X'),
    (R, ONE, b'K'),
    (Z, FOURTH, b'P'),
];

/// Enough for all replies that are taken.
const CELLS: usize = 180;

pub fn add_all(cases: &mut Cases) {
    let mut script = lay(cases);
    add_one_more(&mut script);
    add_one_less(&mut script);
    add_several(&mut script);
}

fn lay(cases: &mut Cases) -> Script<'_> {
    let mut script = Script::lend_cells(cases, CELLS);
    script.open_all(&[ONE, OTHER, THIRD, FOURTH]);
    for (status, key, letter) in RECORDS {
        script.reply(&reply_for(status, key, letter));
    }
    script
}

/// Sets a number wrong, asks for an opening or a reply in turn, and sets it right again. Then a
/// reply with this row's letter is taken.
fn add_wrong_number(script: &mut Script, (row, column): (usize, usize), wrong: u32) {
    let right = script.desk().tally.number((row, column));
    let frame = reply_for(R, ONE, INFORMATION[row]);
    script.change(&Change::Tally(row, column, wrong));
    if (row + column).is_multiple_of(2) {
        script.open(&request(NEW));
    } else {
        script.reply(&frame);
    }
    script.change(&Change::Tally(row, column, right));
    script.reply(&frame);
}

fn add_one_more(script: &mut Script) {
    for place in Tally::places() {
        let number = script.desk().tally.number(place);
        add_wrong_number(script, place, number + 1);
    }
}

/// One less in every place that is not zero. Then numbers that are far off. Most of them would be
/// right if they were cut to fewer bits.
fn add_one_less(script: &mut Script) {
    for place in Tally::places() {
        let number = script.desk().tally.number(place);
        if number > 0 {
            add_wrong_number(script, place, number - 1);
        }
    }
    for (place, more) in [
        ((ROW_OF_P, 0), 256),
        ((ROW_OF_P, 1), 256),
        ((1, 1), 65_536),
        ((32, 2), 1 << 31),
        ((0, 2), LARGEST),
    ] {
        let number = script.desk().tally.number(place);
        add_wrong_number(script, place, number + more);
    }
}

/// Two or four numbers are wrong, but some sums over the table are right.
fn add_several(script: &mut Script) {
    for amounts in SUMS_KEPT {
        let good = script.desk().clone();
        for &((row, column), more) in amounts {
            let number = good.tally.number((row, column)).wrapping_add(more);
            script.change(&Change::Tally(row, column, number));
        }
        script.open(&request(NEW));
        script.reply(&reply_for(R, ONE, b'P'));
        script.put_back(&good);
        script.reply(&reply_for(R, ONE, b'P'));
    }
    script.open(&request(NEW));
    script.looks();
}

/// A place of the table and how much more its number is.
type More = ((usize, usize), u32);

const LESS: u32 = u32::MAX;
const HALF: u32 = 1 << 31;

const SUMS_KEPT: [&[More]; 12] = [
    // Within a row.
    &[((ROW_OF_P, 0), 1), ((ROW_OF_P, 2), LESS)],
    &[((0, 0), LESS), ((0, 1), 1)],
    &[((1, 1), LESS), ((1, 2), 1)],
    // Within a column.
    &[((0, 0), LESS), ((32, 0), 1)],
    &[((1, 1), LESS), ((ROW_OF_P, 1), 1)],
    &[((32, 2), LESS), ((31, 2), 1)],
    // Across the table.
    &[((0, 0), 1), ((1, 1), LESS)],
    &[((32, 2), LESS), ((10, 0), 1)],
    // The sums of all rows and of all columns.
    &[((0, 0), LESS), ((0, 1), 1), ((1, 0), 1), ((1, 1), LESS)],
    &[
        ((ROW_OF_P, 0), 1),
        ((ROW_OF_P, 2), LESS),
        ((32, 0), LESS),
        ((32, 2), 1),
    ],
    // The sum without the bits above 32.
    &[((5, 1), LESS), ((5, 0), 1)],
    &[((7, 1), HALF), ((8, 1), HALF)],
];

#[cfg(test)]
mod tests {
    use super::*;
    use crate::answers;

    #[test]
    fn the_desk_has_several_letters_and_all_statuses() {
        let mut cases = Cases::default();
        let tally = lay(&mut cases).desk().tally;
        assert_eq!(tally.0[ROW_OF_P], [2, 0, 1]);
        assert_eq!((tally.0[0], tally.0[1]), ([1, 0, 0], [0, 1, 0]));
        assert_eq!((tally.0[17], tally.0[32]), ([1, 0, 0], [1, 0, 1]));
        let sum: u32 = tally.0.iter().flatten().sum();
        assert_eq!(sum as usize, RECORDS.len());
    }

    /// Each number is wrong once by one more. Every wrong tally is refused and changes nothing.
    /// Every right one takes a reply.
    #[test]
    fn every_wrong_number_is_seen() {
        let mut cases = Cases::default();
        add_all(&mut cases);
        let answers = answers::by_case(cases.text.as_bytes()).expect("cases");
        let laid = 1 + 4 + RECORDS.len();
        let numbers = &answers[laid..laid + 4 * 99];
        for (answers, (row, _)) in numbers.chunks(4).zip(Tally::places()) {
            let [_, refused, _, taken] = [0, 1, 2, 3].map(|line| &answers[line][0]);
            assert!(refused.starts_with("9 0 0 0 15 "), "{refused}");
            assert_eq!(refused.split(' ').count(), 6);
            assert!(taken.starts_with("0 0 0 0 15 "), "{taken}");
            assert!(taken.contains(&format!(" tally {row} 0 ")), "{taken}");
        }
        let all = answers.iter().map(|answer| &answer[0]);
        let refused = all.clone().filter(|answer| answer.starts_with("9 "));
        assert_eq!(refused.count(), 99 + 33 + 3 + 5 + 2 * SUMS_KEPT.len());
        let full = all.clone().filter(|answer| answer.starts_with("16 "));
        assert_eq!(full.count(), 0);
    }

    /// The sums are right modulo 2^32.
    #[test]
    fn sums_are_kept() {
        for amounts in SUMS_KEPT {
            let sum = amounts
                .iter()
                .map(|&(_, more)| u64::from(more))
                .sum::<u64>();
            assert_eq!(sum % (1 << 32), 0);
        }
    }
}
