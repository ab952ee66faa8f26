//! A script that is being made. Each line is also played on a desk, so that what a script has
//! changed can be put back.

use super::frames::{request, Key};
use crate::cases::Cases;
use crate::desk::tally::Tally;
use crate::desk::{Desk, Seat, CELL};
use crate::script::{self, Change};
use crate::spelling::{bytes_text, MOST_BYTES};
use std::ops::Range;

pub struct Script<'a> {
    cases: &'a mut Cases,
    desk: Desk,
    lines: usize,
}

impl<'a> Script<'a> {
    /// A script that continues with the desk that the lines before it have left.
    pub fn go_on(cases: &'a mut Cases, desk: Desk) -> Self {
        Script {
            cases,
            desk,
            lines: 0,
        }
    }

    /// A script that begins by lending this many bytes and marks.
    pub fn lend(cases: &'a mut Cases, bytes: usize, marks: usize) -> Self {
        let mut script = Script::go_on(cases, script::lend(bytes, marks));
        script.line(&format!("lend {bytes} {marks}"));
        script
    }

    /// A script that begins by lending this many whole cells and their marks.
    pub fn lend_cells(cases: &'a mut Cases, cells: usize) -> Self {
        Script::lend(cases, cells * CELL, cells)
    }

    pub fn desk(&self) -> &Desk {
        &self.desk
    }

    /// How many lines the script has so far.
    pub fn lines(&self) -> usize {
        self.lines
    }

    fn line(&mut self, line: &str) {
        self.cases.add_to_script(line);
        self.lines += 1;
    }

    pub fn open(&mut self, frame: &[u8]) {
        self.line(&format!("open {}", bytes_text(frame)));
        // The outcome does not matter here, even if the desk refuses the frame.
        let _ = self.desk.open(frame);
    }

    pub fn open_all(&mut self, keys: &[Key]) {
        for &key in keys {
            self.open(&request(key));
        }
    }

    pub fn reply(&mut self, frame: &[u8]) {
        self.line(&format!("reply {}", bytes_text(frame)));
        let _ = self.desk.reply(frame);
    }

    pub fn reset(&mut self) {
        self.line("reset");
        self.desk.reset();
    }

    pub fn used(&mut self) {
        self.line("used");
    }

    pub fn held(&mut self, seat: u32, place: usize) {
        self.line(&format!("held {seat} {place}"));
    }

    pub fn look(&mut self, letter: u8, status: u8) {
        self.line(&format!("look {letter} {status}"));
    }

    /// A look for every letter and every status. Its answer is long.
    pub fn looks(&mut self) {
        self.line("looks");
    }

    pub fn change(&mut self, change: &Change) {
        self.line(&change.text());
        change
            .make(&mut self.desk)
            .expect("a script sets what is lent");
    }

    pub fn change_all(&mut self, changes: &[Change]) {
        for change in changes {
            self.change(change);
        }
    }

    /// Sets the tally to the count over the cells held.
    pub fn mend_tally(&mut self) {
        let counted = Tally::counted(&self.desk);
        self.change_all(&tally_changes(&self.desk.tally, &counted));
    }

    /// Makes the desk what it was before, except its free cells and marks.
    pub fn put_back(&mut self, kept: &Desk) {
        for change in changes_back(&self.desk, kept) {
            self.change(&change);
        }
    }
}

/// The record of a seat with this key and these values.
pub fn seat_of((address, requester, number): Key, held: u32, ended: u32) -> Seat {
    Seat {
        address: address.into(),
        requester: requester.into(),
        number,
        held,
        ended,
    }
}

/// The changes that lead from one tally to another.
pub fn tally_changes(from: &Tally, to: &Tally) -> Vec<Change> {
    Tally::places()
        .filter(|&place| from.number(place) != to.number(place))
        .map(|(row, column)| Change::Tally(row, column, to.number((row, column))))
        .collect()
}

/// The changes that lead from one desk back to another. Both have the same amount lent.
fn changes_back(from: &Desk, to: &Desk) -> Vec<Change> {
    let mut changes = Vec::new();
    if from.bits != to.bits {
        changes.push(Change::Bits(to.bits));
    }
    if from.count != to.count {
        changes.push(Change::Count(to.count));
    }
    for (place, &seat) in to.seats.iter().enumerate() {
        if from.seats[place] != seat {
            changes.push(Change::Seat(place, seat));
        }
    }
    let taken = (to.count as usize).min(to.capacity());
    for place in 0..taken {
        if from.marks[place] != to.marks[place] {
            changes.push(Change::Mark(place, to.marks[place]));
        }
    }
    changes.extend((0..taken).filter_map(|cell| cell_back(from, to, cell)));
    changes.extend(tally_changes(&from.tally, &to.tally));
    changes
}

/// The bytes of a cell, from the first that differs to the last.
fn cell_back(from: &Desk, to: &Desk, cell: usize) -> Option<Change> {
    const { assert!(CELL <= MOST_BYTES) };
    let mut bytes: Range<usize> = cell * CELL..(cell + 1) * CELL;
    let differs = |&place: &usize| from.cells[place] != to.cells[place];
    let first = bytes.clone().find(differs)?;
    let last = bytes.rfind(differs)?;
    Some(Change::Cell(first, to.cells[first..=last].to_vec()))
}

#[cfg(test)]
pub mod tests {
    use super::*;
    use crate::answers;
    use crate::cases::desk::frames::{reply, R};

    /// The answers to these cases, one for each. Of calls only the refusal, which is three numbers,
    /// and the seat. Of several lines only the first.
    pub fn outcomes(add: impl FnOnce(&mut Cases)) -> Vec<String> {
        let mut cases = Cases::default();
        add(&mut cases);
        let answers = answers::by_case(cases.text.as_bytes()).expect("cases");
        let outcome = |line: &String| line.split(' ').take(4).collect::<Vec<_>>().join(" ");
        answers.iter().map(|lines| outcome(&lines[0])).collect()
    }

    #[test]
    fn lines_may_come_again() {
        let mut cases = Cases::default();
        let mut script = Script::lend(&mut cases, 0, 0);
        script.used();
        script.used();
        assert_eq!(script.lines(), 3);
        assert_eq!(cases.text, "lend 0 0\nused\nused\n");
    }

    #[test]
    fn what_was_changed_is_put_back() {
        let mut cases = Cases::default();
        let mut script = Script::lend_cells(&mut cases, 2);
        script.open_all(&[(b' ', b'1', 7)]);
        script.reply(&reply(R, (b' ', b'1', 7)));
        let kept = script.desk().clone();
        script.change_all(&[
            Change::Bits(9),
            Change::Count(7),
            Change::Seat(15, seat_of((b' ', b'2', 8), 3, 4)),
            Change::Mark(0, 5),
            Change::Cell(6, vec![1, 2]),
            Change::Tally(12, 0, 2),
            Change::Tally(0, 1, 3),
        ]);
        assert_ne!(script.desk(), &kept);
        script.put_back(&kept);
        assert_eq!(script.desk(), &kept);
        let last_seven: Vec<&str> = cases.text.lines().rev().take(7).collect();
        assert_eq!(
            last_seven,
            [
                "tally 12 0 1",
                "tally 0 1 0",
                "cell 6 3130",
                "mark 0 0",
                "seat 15 0 0 0 0 0",
                "count 1",
                "bits 1"
            ]
        );
    }

    #[test]
    fn a_tally_is_mended_by_its_cells() {
        let mut cases = Cases::default();
        let mut script = Script::lend_cells(&mut cases, 2);
        script.open_all(&[(b' ', b'1', 7)]);
        script.reply(&reply(R, (b' ', b'1', 7)));
        script.mend_tally();
        assert_eq!(script.lines(), 3);
        script.change(&Change::Cell(5, b"E".to_vec()));
        script.mend_tally();
        script.mend_tally();
        assert_eq!(script.lines(), 6);
        assert!(cases.text.ends_with("tally 12 0 0\ntally 12 1 1\n"));
    }

    #[test]
    fn free_cells_and_marks_are_not_put_back() {
        let mut cases = Cases::default();
        let mut script = Script::lend_cells(&mut cases, 1);
        let kept = script.desk().clone();
        script.change_all(&[Change::Mark(0, 5), Change::Cell(0, vec![1])]);
        script.put_back(&kept);
        assert_eq!(script.lines(), 3);
    }
}
