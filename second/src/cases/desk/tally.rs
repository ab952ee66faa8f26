//! Scripts about the tally: what replies, refusals and resets do to it, and looks at it. Tallies
//! that make no desk are in `wrong`.

mod wrong;

use super::frames::{
    of_wrong_length, patched, reply, reply_for, request, Key, E, R, REPLY_DAMAGES, ROW_OF_P, Z,
};
use super::script::{tally_changes, Script};
use crate::cases::Cases;
use crate::desk::tally::{Tally, STATUSES};
use crate::reply::{at, INFORMATION};
use crate::script::Change;

const ONE: Key = (b' ', b'1', 7);
const OTHER: Key = (b' ', b'A', 7);
const THIRD: Key = (b'3', b'1', 7);
const NEW: Key = (b' ', b'b', 5);

const LARGEST: u32 = u32::MAX;

pub fn add_all(cases: &mut Cases) {
    add_letters(cases);
    add_refused(cases);
    add_stale_cells(cases);
    add_resets(cases);
    add_looks(cases);
    wrong::add_all(cases);
}

/// How many letters come before the desk is reset. Each needs two seats.
const LETTERS_AT_ONCE: usize = 8;

/// A reply with each letter and each status, and a look after each. A Z has a request of its own.
fn add_letters(cases: &mut Cases) {
    let mut script = Script::lend_cells(cases, 3 * LETTERS_AT_ONCE);
    for letters in INFORMATION.chunks(LETTERS_AT_ONCE) {
        for (number, &letter) in letters.iter().enumerate() {
            let keys = [b'1', b'A'].map(|requester| (b' ', requester, number as u32));
            script.open_all(&keys);
            for (status, key) in [(R, keys[0]), (Z, keys[1]), (E, keys[0])] {
                script.reply(&reply_for(status, key, letter));
                script.look(letter, status);
            }
        }
        script.reset();
        script.look(letters[0], R);
    }
}

/// Looks for all statuses of a letter.
fn look_for_all(script: &mut Script, letter: u8) {
    for status in STATUSES {
        script.look(letter, status);
    }
}

/// A refused call leaves the tally, whatever the reason.
fn add_refused(cases: &mut Cases) {
    let mut script = Script::lend_cells(cases, 3);
    script.open_all(&[ONE, OTHER, THIRD]);
    script.reply(&reply_for(R, ONE, b'X'));
    script.reply(&reply_for(E, OTHER, b'P'));
    for (status, key, letter) in [
        (R, NEW, b'X'),
        (E, (b' ', b'1', 1_007), b'P'),
        (R, OTHER, b'X'),
        (Z, OTHER, b'P'),
        (Z, ONE, b'X'),
        (Z, ONE, b'P'),
    ] {
        script.reply(&reply_for(status, key, letter));
        script.look(letter, status);
    }
    for damage in REPLY_DAMAGES.into_iter().step_by(3) {
        script.reply(&patched(&reply_for(R, ONE, b'X'), damage));
    }
    let [_, lead, ..] = of_wrong_length(&reply(R, ONE));
    script.reply(&lead);
    script.reply(&patched(&reply(R, ONE), (at::INFORMATION, b"L")));
    script.open(&request(ONE));
    look_for_all(&mut script, b'X');
    // Now it becomes full.
    script.reply(&reply_for(R, ONE, b'X'));
    look_for_all(&mut script, b'X');
    for (status, key) in [(R, ONE), (E, ONE), (Z, THIRD)] {
        script.reply(&reply_for(status, key, b'X'));
    }
    look_for_all(&mut script, b'X');
    script.open(&request(NEW));
    script.looks();
}

/// Cells beyond the count hold good records that are not counted: first because the count is lower,
/// and then because the desk was reset.
fn add_stale_cells(cases: &mut Cases) {
    let mut script = Script::lend_cells(cases, 4);
    script.open_all(&[ONE, OTHER, THIRD]);
    for (status, key, letter) in [
        (R, ONE, b'P'),
        (E, OTHER, b'X'),
        (R, ONE, b'1'),
        (Z, THIRD, b'P'),
    ] {
        script.reply(&reply_for(status, key, letter));
    }
    let full = script.desk().clone();
    free_the_last_two(&mut script);
    ask(&mut script);
    script.mend_tally();
    script.look(b'1', R);
    let freed = script.desk().clone();
    // Each of the free cells is counted.
    for change in [Change::Tally(1, 0, 1), Change::Tally(ROW_OF_P, 2, 1)] {
        script.change(&change);
        ask(&mut script);
        script.put_back(&freed);
    }
    script.reply(&reply_for(R, ONE, b'X'));
    look_for_all(&mut script, b'X');
    script.reset();
    add_replies_after_reset(&mut script, &full.tally);
}

/// The cells of the last two records become free. The tally stays.
fn free_the_last_two(script: &mut Script) {
    let mut seats = script.desk().seats;
    seats[0].held = 1;
    (seats[2].held, seats[2].ended) = (0, 0);
    script.change_all(&[
        Change::Count(2),
        Change::Seat(0, seats[0]),
        Change::Seat(2, seats[2]),
    ]);
}

/// A tally that counts the cells of before the reset makes no desk. Replies are counted from zero.
fn add_replies_after_reset(script: &mut Script, before: &Tally) {
    script.change_all(&tally_changes(&Tally::default(), before));
    ask(script);
    script.mend_tally();
    ask(script);
    script.open(&request(ONE));
    for letter in [b'P', b'P', b'X'] {
        script.reply(&reply_for(R, ONE, letter));
        script.look(letter, R);
    }
    script.look(b'1', R);
}

/// An opening, which a desk takes, and a reply, which is a stray then.
fn ask(script: &mut Script) {
    script.open(&request(NEW));
    script.reply(&reply(R, (b'9', b'z', 999)));
}

/// A different large number for each place of the table. The first is the largest there is.
fn garbage() -> Vec<Change> {
    let numbers = (0..).map(|turn: u32| LARGEST - 41_000_003 * turn);
    Tally::places()
        .zip(numbers)
        .map(|((row, column), number)| Change::Tally(row, column, number))
        .collect()
}

/// A reset zeroes the tally, whatever it was and whatever the rest of the state is.
fn add_resets(cases: &mut Cases) {
    let mut script = Script::lend_cells(cases, 3);
    script.looks();
    script.reset();
    script.open_all(&[ONE]);
    script.reply(&reply_for(R, ONE, b'w'));
    script.change_all(&garbage());
    script.looks();
    script.open(&request(NEW));
    script.reply(&reply_for(R, ONE, b'w'));
    script.reset();
    script.looks();
    script.open_all(&[ONE]);
    script.reply(&reply_for(E, ONE, b'w'));
    look_for_all(&mut script, b'w');
    // Some numbers, on a state that is no desk for other reasons too.
    for number in [1, 256, LARGEST] {
        script.change_all(&[
            Change::Tally(0, 0, number),
            Change::Tally(18, 1, number),
            Change::Tally(32, 2, number),
            Change::Count(number),
            Change::Bits(1 << 62 | 6),
            Change::Mark(0, 16),
        ]);
        script.reset();
        script.look(b'0', R);
        script.open(&request(ONE));
    }
    // Only the tally is not zero.
    script.reset();
    script.change(&Change::Tally(20, 1, LARGEST));
    script.open(&request(ONE));
    script.reset();
    script.open(&request(ONE));
}

/// Letters that a reply does not have, and codes that are no status. Each number of the tally is
/// different, and so are the answers.
fn add_looks(cases: &mut Cases) {
    let mut script = Script::lend(cases, 0, 0);
    for (turn, (row, column)) in Tally::places().enumerate() {
        script.change(&Change::Tally(row, column, turn as u32 + 1));
    }
    for &letter in b"Lt*lbcdqBCDEFMNOUVYZefmnorvxyz/:@[`{ \0\x01\x7f\x80\xb0\xff" {
        script.look(letter, R);
    }
    for &letter in b"0PRX" {
        for &status in b"REZrezSQDFYT[09 \0\x01\x12\xff" {
            script.look(letter, status);
        }
    }
    for &status in b"rz\0\xff" {
        script.look(b'L', status);
        script.look(b'q', status);
    }
    // The letters that are statuses too.
    for &letter in b"RE" {
        look_for_all(&mut script, letter);
    }
}

#[cfg(test)]
mod tests {
    use super::*;
    use crate::answers;
    use crate::cases::desk::script::tests::outcomes;

    /// The lines of a script, each with its answer.
    fn answered(add: fn(&mut Cases)) -> Vec<(String, Vec<String>)> {
        let mut cases = Cases::default();
        add(&mut cases);
        let answers = answers::by_case(cases.text.as_bytes()).expect("cases");
        let lines = cases.text.lines().map(str::to_string);
        lines.zip(answers).collect()
    }

    /// The first line of each answer to lines that begin like this.
    fn answers_to(add: fn(&mut Cases), begin: &str) -> Vec<String> {
        let answered = answered(add);
        let asked = answered
            .into_iter()
            .filter(|(line, _)| line.starts_with(begin));
        asked.map(|(_, answer)| answer[0].clone()).collect()
    }

    #[test]
    fn each_letter_is_counted_with_each_status() {
        let replies = answers_to(add_letters, "reply ");
        assert_eq!(replies.len(), 99);
        for (number, answer) in replies.iter().enumerate() {
            let (row, column) = (number / 3, [0, 2, 1][number % 3]);
            let end = format!(" tally {row} {column} 1");
            assert!(answer.starts_with("0 0 0 "), "{answer}");
            assert!(answer.ends_with(&end), "{answer}");
        }
        let looks = answers_to(add_letters, "look ");
        assert_eq!(looks.len(), 99 + 5);
        let found = looks.iter().filter(|answer| *answer == "0 0 0 1");
        assert_eq!(found.count(), 99);
        assert_eq!(
            looks.iter().filter(|answer| *answer == "0 0 0 0").count(),
            5
        );
    }

    #[test]
    fn what_is_refused_is_not_counted() {
        let refused = answers_to(add_refused, "reply ");
        let changing = refused.iter().filter(|answer| answer.contains("tally"));
        assert_eq!(changing.count(), 3);
        for number in ["13", "14", "15", "16", "1", "2", "3", "4", "5"] {
            let begin = format!("{number} ");
            assert!(refused.iter().any(|answer| answer.starts_with(&begin)));
        }
        let looks = answers_to(add_refused, "look ");
        let numbers = [1, 1, 1, 0, 0, 0, 1, 0, 0, 2, 0, 0, 2, 0, 0];
        assert_eq!(looks, numbers.map(|number| format!("0 0 0 {number}")));
    }

    #[test]
    fn stale_cells_are_not_counted() {
        let openings = answers_to(add_stale_cells, "open ");
        let refused: Vec<bool> = openings[3..]
            .iter()
            .map(|answer| answer.starts_with("9 "))
            .collect();
        assert_eq!(refused, [true, true, true, true, false, false]);
        let looks = answers_to(add_stale_cells, "look ");
        let numbers = [0, 1, 1, 0, 1, 2, 1, 0].map(|number| format!("0 0 0 {number}"));
        assert_eq!(looks, numbers);
    }

    #[test]
    fn resets_zero_the_whole_tally() {
        let answered = answered(add_resets);
        let resets: Vec<&String> = answered
            .iter()
            .filter(|(line, _)| line == "reset")
            .map(|(_, answer)| &answer[0])
            .collect();
        let zeroed = resets
            .iter()
            .map(|answer| answer.matches("tally").count())
            .collect::<Vec<_>>();
        assert_eq!(zeroed, [0, 99, 4, 3, 3, 0, 1]);
        let looks: Vec<&Vec<String>> = answered
            .iter()
            .filter(|(line, _)| line == "looks")
            .map(|(_, answer)| answer)
            .collect();
        assert_eq!(looks[0], looks[2]);
        assert!(looks[1][48].contains("1*0.4294967295"), "{}", looks[1][48]);
        assert_ne!(looks[0], looks[1]);
        let calls = outcomes(add_resets);
        assert_eq!(
            calls.iter().filter(|answer| *answer == "9 0 0 0").count(),
            3
        );
    }

    #[test]
    fn garbage_is_99_different_numbers() {
        let mut numbers: Vec<u32> = garbage()
            .into_iter()
            .filter_map(|change| match change {
                Change::Tally(_, _, number) => Some(number),
                _ => None,
            })
            .collect();
        numbers.sort_unstable();
        numbers.dedup();
        assert_eq!(numbers.len(), 99);
        assert!(numbers[0] > 100_000_000, "{}", numbers[0]);
    }

    #[test]
    fn looks_outside_the_lists_are_refused() {
        let looks = answers_to(add_looks, "look ");
        let (letters, rest) = looks.split_at(43);
        assert!(letters.iter().all(|answer| answer == "17 0 0 0"));
        let (statuses, rest) = rest.split_at(4 * 20);
        for (answers, row) in statuses.chunks(20).zip([0, 12, 18, 32]) {
            let numbers = [1, 2, 3].map(|more| format!("0 0 0 {}", 3 * row + more));
            assert_eq!(answers[..3], numbers);
            assert!(answers[3..].iter().all(|answer| answer == "17 0 0 0"));
        }
        let (neither, rest) = rest.split_at(8);
        assert!(neither.iter().all(|answer| answer == "17 0 0 0"));
        assert_eq!(rest[..3], ["0 0 0 55", "0 0 0 56", "0 0 0 57"]);
        assert_eq!(rest[3..], ["17 0 0 0"; 3]);
    }
}
