//! States that are desks or nearly. Changes that belong together are made. About half the time one
//! of them is left out or slightly wrong. Most of the time the tally goes along with the cells.

mod together;

use super::{add_call, add_look, different_keys, lend, open_keys, random_key};
use crate::cases::desk::frames::{random_reply, random_request, request, E, R, Z};
use crate::cases::desk::random::{random_change, tally};
use crate::cases::desk::script::Script;
use crate::cases::reply::put_minus_zero;
use crate::cases::Cases;
use crate::desk::tally::Tally;
use crate::desk::{Desk, Seat, CELL, SEATS};
use crate::random::Random;
use crate::script::Change;

pub fn add(cases: &mut Cases, random: &mut Random) {
    let mut script = lay(cases, random);
    for _ in 0..1 + random.place(5) {
        let kept = script.desk().clone();
        for _ in 0..random.pick(&[1, 1, 1, 2, 3]) {
            let changes = changes(&script, random);
            script.change_all(&changes);
        }
        ask(&mut script, random);
        match random.below(8) {
            0 => script.reset(),
            1 | 2 => {}
            _ => script.put_back(&kept),
        }
    }
    ask(&mut script, random);
}

/// A good desk with some requests open and some records held.
fn lay<'a>(cases: &'a mut Cases, random: &mut Random) -> Script<'a> {
    let number_of_keys = random.pick(&[1, 2, 3, 3, 4, 5, 16]);
    let keys = different_keys(number_of_keys, random);
    let cells = 1 + random.place(9);
    let mut script = lend(cases, cells, random);
    for &key in &keys {
        script.open(&request(key));
    }
    for _ in 0..random.place(cells + 1) {
        let status = random.pick(&[R, R, R, R, E, Z]);
        let key = random.pick(&keys);
        script.reply(&random_reply(random, status, key));
    }
    script
}

/// The changes that are made to the state.
fn changes(script: &Script, random: &mut Random) -> Vec<Change> {
    let desk = script.desk();
    let mut changes = match random.below(9) {
        0 => vec![random_change(desk, random)],
        1 => vec![another_seat(desk, random)],
        2 if random.once_in(2) => return vec![tally::change(desk, random)],
        _ => together_or_nearly(desk, random),
    };
    let mut tally = changes_of_tally(desk, &changes);
    if random.once_in(8) {
        spoil_one(&mut tally, random);
    }
    changes.extend(tally);
    changes
}

/// What these changes do to the count over the cells held is done to the tally too.
fn changes_of_tally(desk: &Desk, changes: &[Change]) -> Vec<Change> {
    let mut after = desk.clone();
    for change in changes {
        change.make(&mut after).expect("a script sets what is lent");
    }
    let (from, to) = (Tally::counted(desk), Tally::counted(&after));
    Tally::places()
        .filter(|&place| from.number(place) != to.number(place))
        .map(|(row, column)| {
            let place = (row, column);
            let more = to.number(place).wrapping_sub(from.number(place));
            Change::Tally(row, column, desk.tally.number(place).wrapping_add(more))
        })
        .collect()
}

/// Leaves one of the changes out or makes it slightly wrong, if there is any.
fn spoil_one(changes: &mut Vec<Change>, random: &mut Random) {
    if changes.is_empty() {
        return;
    }
    let place = random.place(changes.len());
    if random.once_in(2) {
        changes.remove(place);
    } else {
        nudge(&mut changes[place], random);
    }
}

/// Changes one part of a seat slightly. It is a seat that holds records or has ended, or any seat
/// if there is none.
fn another_seat(desk: &Desk, random: &mut Random) -> Change {
    let busy: Vec<usize> = (0..SEATS)
        .filter(|&place| desk.seats[place].held > 0 || desk.seats[place].ended > 0)
        .collect();
    let place = match busy.as_slice() {
        [] => random.place(SEATS),
        busy => random.pick(busy),
    };
    let mut seat = desk.seats[place];
    nudge_seat(&mut seat, random);
    Change::Seat(place, seat)
}

/// Changes that belong together. About half the time one of them is left out or slightly wrong.
fn together_or_nearly(desk: &Desk, random: &mut Random) -> Vec<Change> {
    let mut changes = together::changes(desk, random);
    match random.below(4) {
        0 if changes.len() > 1 => {
            changes.remove(random.place(changes.len()));
        }
        1 if !changes.is_empty() => {
            let place = random.place(changes.len());
            nudge(&mut changes[place], random);
        }
        _ => {}
    }
    changes
}

/// Makes a change slightly different from what it should be.
fn nudge(change: &mut Change, random: &mut Random) {
    match change {
        Change::Bits(bits) => *bits ^= 1 << random.below(18),
        Change::Count(count) => nudge_number(count, random),
        Change::Mark(_, mark) => nudge_number(mark, random),
        Change::Tally(_, _, number) => nudge_number(number, random),
        Change::Seat(_, seat) => nudge_seat(seat, random),
        Change::Cell(_, bytes) if bytes.len() == CELL && random.once_in(4) => {
            put_minus_zero(bytes, random);
        }
        Change::Cell(_, bytes) => {
            let place = random.place(bytes.len());
            bytes[place] = match random.below(3) {
                0 => random.byte(),
                1 => bytes[place].wrapping_add(1),
                _ => bytes[place].wrapping_sub(1),
            };
        }
    }
}

fn nudge_number(number: &mut u32, random: &mut Random) {
    *number = match random.below(4) {
        0 | 1 => number.wrapping_add(1),
        2 => number.wrapping_sub(1),
        _ => number.wrapping_add(random.pick(&[256, 1_000, 65_536])),
    };
}

fn nudge_seat(seat: &mut Seat, random: &mut Random) {
    let part = match random.below(7) {
        0 => &mut seat.address,
        1 => &mut seat.requester,
        2 => &mut seat.number,
        3 | 4 => &mut seat.held,
        _ => &mut seat.ended,
    };
    nudge_number(part, random);
}

/// Asks for a look, an opening, a reply to an open key or some other call, one to three times.
fn ask(script: &mut Script, random: &mut Random) {
    let keys = open_keys(script);
    for _ in 0..1 + random.place(3) {
        match random.below(6) {
            0 => add_look(script, random),
            1 => {
                let other = random_key(random);
                script.open(&random_request(random, other));
            }
            2 if !keys.is_empty() => {
                let key = random.pick(&keys);
                script.reply(&random_reply(random, R, key));
            }
            _ => add_call(script, &keys, random),
        }
    }
}

#[cfg(test)]
mod tests {
    use super::*;
    use crate::cases::desk::script::tests::outcomes;
    use crate::refusal::Refusal;

    /// After a change from outside, a call finds a desk about half the time.
    #[test]
    fn they_make_a_desk_about_half_the_time() {
        let mut random = Random::new(1, "test");
        let mut cases = Cases::default();
        for _ in 0..300 {
            add(&mut cases, &mut random);
        }
        let answers = outcomes(|same| same.text.push_str(&cases.text));
        let lines: Vec<&str> = cases.text.lines().collect();
        let is_call = |line: &str| line.starts_with("open ") || line.starts_with("reply ");
        let first_calls =
            (1..lines.len()).filter(|&place| is_call(lines[place]) && answers[place - 1] == "set");
        let (no_desk, desk): (Vec<usize>, Vec<usize>) =
            first_calls.partition(|&place| answers[place] == "9 0 0 0");
        let all = no_desk.len() + desk.len();
        assert!(all > 500, "{all}");
        assert!(
            (all / 4..all * 3 / 4).contains(&desk.len()),
            "{} of {all}",
            desk.len()
        );
    }

    /// How many states have another tally than their cells, among those that are no desk.
    #[test]
    fn the_tally_is_right_most_of_the_time() {
        let mut random = Random::new(1, "test");
        let (mut no_desk, mut wrong) = (0, 0);
        for _ in 0..600 {
            let mut cases = Cases::default();
            let mut script = lay(&mut cases, &mut random);
            let changes = changes(&script, &mut random);
            script.change_all(&changes);
            let mut desk = script.desk().clone();
            if desk.open(&[]) == Err(Refusal::Desk) {
                no_desk += 1;
                wrong += usize::from(desk.tally != Tally::counted(&desk));
            }
        }
        assert!((100..500).contains(&no_desk), "{no_desk}");
        assert!((10..no_desk / 2).contains(&wrong), "{wrong} of {no_desk}");
    }

    #[test]
    fn a_nudge_changes_something() {
        let mut random = Random::new(1, "test");
        for change in [
            Change::Bits(3),
            Change::Count(0),
            Change::Mark(1, 2),
            Change::Tally(12, 0, 1),
            Change::Seat(0, Seat::default()),
        ] {
            for _ in 0..20 {
                let mut nudged = change.clone();
                nudge(&mut nudged, &mut random);
                assert_ne!(nudged, change);
            }
        }
    }
}
