//! Scripts about what makes a desk. Each clause but that of the tally is broken in turn and both
//! calls are tried. Then the clause is mended and both calls are tried again.

mod changes;

use super::frames::{patched, reply, reply_with_bib, request, request_for, R, ROW_OF_P, Z};
use super::script::{seat_of, Script};
use crate::cases::Cases;
use crate::desk::CELL;
use crate::script::Change;
use changes::{breaks, harmless, put, BITS, CELLS, KEYS, NEW_KEY, OPEN_KEY, RECORDS};

pub fn add_all(cases: &mut Cases) {
    add_breaks(cases);
    add_harmless(cases);
    add_no_desk_and_more(cases);
    add_short_memory(cases);
    add_shared_keys_far_apart(cases);
}

/// The good desk, made by calls.
fn lay(cases: &mut Cases) -> Script<'_> {
    let mut script = Script::lend_cells(cases, CELLS);
    script.open_all(&KEYS);
    for (bib, (status, seat)) in RECORDS.into_iter().enumerate() {
        script.reply(&reply_with_bib(status, KEYS[seat], bib));
    }
    script
}

/// For each break: the desk is spoiled, asked, mended and asked again. Then it is spoiled once more
/// and reset. When the spoiled desk is asked, its tally agrees with its cells.
fn add_breaks(cases: &mut Cases) {
    let mut script = lay(cases);
    let good = script.desk().clone();
    for (number, spoils) in breaks().iter().enumerate() {
        script.change_all(spoils);
        script.mend_tally();
        ask(&mut script, number);
        script.used();
        script.put_back(&good);
        ask(&mut script, number);
        script.put_back(&good);
        script.change_all(spoils);
        script.reset();
        script.put_back(&good);
    }
}

/// An opening and a reply that the good desk takes.
fn ask(script: &mut Script, bib: usize) {
    script.open(&request(NEW_KEY));
    script.reply(&reply_with_bib(R, OPEN_KEY, bib));
}

fn add_harmless(cases: &mut Cases) {
    let mut script = lay(cases);
    let good = script.desk().clone();
    for (number, changes) in harmless().iter().enumerate() {
        script.change_all(changes);
        script.mend_tally();
        ask(&mut script, number);
        script.put_back(&good);
    }
}

/// DESK is reported before any refusal that is about the frame, its key or a free cell.
fn add_no_desk_and_more(cases: &mut Cases) {
    let mut script = lay(cases);
    script.change(&Change::Bits(BITS | 1 << 16));
    for frame in [
        Vec::new(),
        vec![0x11],
        patched(&request(NEW_KEY), (23, b"\n")),
        patched(&request(NEW_KEY), (3, b"[")),
        request_for(NEW_KEY, b'q'),
        request(KEYS[0]),
    ] {
        script.open(&frame);
    }
    for frame in [
        Vec::new(),
        vec![0x12],
        patched(&reply(R, KEYS[1]), (1, b"S")),
        patched(&reply(R, KEYS[1]), (12, b"60000")),
        reply(R, NEW_KEY),
        reply(R, KEYS[0]),
        reply(Z, KEYS[1]),
    ] {
        script.reply(&frame);
    }
    script.reset();
    // All seats in use, and one bit above them.
    let mut script = Script::lend(cases, 0, 0);
    for seat in 0..16 {
        let key = (b' ', b'A' + seat as u8, seat as u32);
        script.change(&Change::Seat(seat, seat_of(key, 0, 0)));
    }
    script.change(&Change::Bits(0x1_ffff));
    script.open(&request(NEW_KEY));
    script.reply(&reply(R, (b' ', b'A', 0)));
    script.change(&Change::Bits(0xffff));
    script.open(&request(NEW_KEY));
    script.reply(&reply(R, (b' ', b'A', 0)));
}

/// A count above the capacity, because the third cell or the third mark is not lent whole. Records
/// held and the number in the tally are tried as 2 and as 3. With one of the four, nothing else is
/// wrong.
fn add_short_memory(cases: &mut Cases) {
    for (bytes, marks) in [(102, 4), (152, 4), (204, 2)] {
        let mut script = Script::lend(cases, bytes, marks);
        script.open_all(&[KEYS[0]]);
        for bib in 0..2 {
            script.reply(&reply_with_bib(R, KEYS[0], bib));
        }
        let good = script.desk().clone();
        let marks_are_short = marks == 2;
        if !marks_are_short {
            script.change(&Change::Mark(2, 0));
        }
        let third = reply(R, KEYS[0]);
        let there = (bytes - 2 * CELL).min(CELL);
        if there > 0 {
            script.change(&put(2, (0, &third[..there])));
        }
        script.change(&Change::Count(3));
        for (held, counted) in [(2, 2), (3, 2), (3, 3), (2, 3)] {
            script.change(&Change::Seat(0, seat_of(KEYS[0], held, 0)));
            script.change(&Change::Tally(ROW_OF_P, 0, counted));
            script.open(&request(NEW_KEY));
            script.reply(&third);
        }
        script.put_back(&good);
        script.open(&request(NEW_KEY));
        script.reply(&third);
    }
}

/// The first and the last seat, once with different keys and once with the same key.
fn add_shared_keys_far_apart(cases: &mut Cases) {
    let mut script = Script::lend_cells(cases, 1);
    script.change(&Change::Bits(0x8001));
    for number in [8, 7] {
        script.change(&Change::Seat(15, seat_of((b' ', b'1', 7), 0, 0)));
        script.change(&Change::Seat(0, seat_of((b' ', b'1', number), 0, 0)));
        script.open(&request(NEW_KEY));
        script.reply(&reply(R, (b' ', b'1', 7)));
        script.reset();
        script.change(&Change::Bits(0x8001));
    }
}

#[cfg(test)]
mod tests {
    use super::changes::{seat_at, COUNT};
    use super::*;
    use crate::cases::desk::script::tests::outcomes;

    #[test]
    fn the_seats_are_as_told() {
        let mut cases = Cases::default();
        let script = lay(&mut cases);
        let desk = script.desk();
        assert_eq!((desk.bits, desk.count), (BITS, COUNT));
        for seat in 0..KEYS.len() {
            assert_eq!(desk.seats[seat], seat_at(seat));
        }
    }

    /// The outcome of each opening and reply of a script, and whether it is a reply.
    fn calls(add: fn(&mut Cases)) -> Vec<(bool, String)> {
        let mut cases = Cases::default();
        add(&mut cases);
        let lines: Vec<String> = cases.text.lines().map(str::to_string).collect();
        let answers = outcomes(add);
        assert_eq!(lines.len(), answers.len());
        let calls = lines.iter().zip(answers);
        calls
            .filter(|(line, _)| line.starts_with("open ") || line.starts_with("reply "))
            .map(|(line, answer)| (line.starts_with("reply "), answer))
            .collect()
    }

    #[test]
    fn every_break_is_seen_and_every_mend_too() {
        let calls = calls(add_breaks);
        let after_laying = &calls[KEYS.len() + RECORDS.len()..];
        let breaks = breaks();
        assert_eq!(after_laying.len(), 4 * breaks.len());
        for (spoils, calls) in breaks.iter().zip(after_laying.chunks(4)) {
            let expected = [
                (false, "9 0 0 0"),
                (true, "9 0 0 0"),
                (false, "0 0 0 4"),
                (true, "0 0 0 1"),
            ];
            let expected = expected.map(|(is_reply, answer)| (is_reply, answer.to_string()));
            assert_eq!(calls, expected, "{spoils:?}");
        }
    }

    /// The tally is never the reason for a refusal.
    #[test]
    fn the_tally_of_a_broken_desk_is_right() {
        use crate::desk::tally::Tally;
        let mut cases = Cases::default();
        let mut script = lay(&mut cases);
        let good = script.desk().clone();
        for spoils in breaks() {
            script.change_all(&spoils);
            script.mend_tally();
            assert_eq!(script.desk().tally, Tally::counted(script.desk()));
            script.put_back(&good);
        }
    }

    #[test]
    fn harmless_changes_are_not_minded() {
        let calls = calls(add_harmless);
        let after_laying = &calls[KEYS.len() + RECORDS.len()..];
        assert_eq!(after_laying.len(), 2 * harmless().len());
        for (_, answer) in after_laying {
            assert!(answer.starts_with("0 0 0 "), "{answer}");
        }
    }

    #[test]
    fn no_desk_goes_first() {
        let calls = calls(add_no_desk_and_more);
        let answers: Vec<&str> = calls.iter().map(|(_, answer)| answer.as_str()).collect();
        let (laid, rest) = answers.split_at(KEYS.len() + RECORDS.len());
        assert!(laid.iter().all(|answer| answer.starts_with("0 0 0 ")));
        let (refused, last) = rest.split_at(6 + 7 + 2);
        assert!(refused.iter().all(|answer| *answer == "9 0 0 0"));
        assert_eq!(last, ["12 0 0 0", "16 0 0 0"]);
    }

    #[test]
    fn short_memory_is_no_desk() {
        let calls = calls(add_short_memory);
        for script in calls.chunks(13) {
            let answers: Vec<&str> = script.iter().map(|(_, answer)| answer.as_str()).collect();
            assert_eq!(answers[..3], ["0 0 0 0"; 3]);
            assert_eq!(answers[3..11], ["9 0 0 0"; 8]);
            assert_eq!(answers[11..], ["0 0 0 1", "16 0 0 0"]);
        }
    }

    #[test]
    fn keys_far_apart() {
        let calls = calls(add_shared_keys_far_apart);
        let answers: Vec<&str> = calls.iter().map(|(_, answer)| answer.as_str()).collect();
        assert_eq!(answers, ["0 0 0 1", "0 0 0 15", "9 0 0 0", "9 0 0 0"]);
    }
}
