//! Random looks at the tally, and random numbers in it that are wrong.

use crate::desk::tally::{Tally, COLUMNS, ROWS, STATUSES};
use crate::desk::Desk;
use crate::random::Random;
use crate::reply::INFORMATION;
use crate::script::Change;

/// A place of the table. Half the time its number is not zero, if there is such a place.
fn place(desk: &Desk, random: &mut Random) -> (usize, usize) {
    let not_zero: Vec<(usize, usize)> = Tally::places()
        .filter(|&place| desk.tally.number(place) > 0)
        .collect();
    if not_zero.is_empty() || random.once_in(2) {
        return (random.place(ROWS), random.place(COLUMNS));
    }
    random.pick(&not_zero)
}

/// Changes one number of the tally.
pub fn change(desk: &Desk, random: &mut Random) -> Change {
    let (row, column) = place(desk, random);
    let more = random.pick(&[1, 1, 1, u32::MAX, u32::MAX, 2, 256, 65_536]);
    let number = desk.tally.number((row, column)).wrapping_add(more);
    Change::Tally(row, column, number)
}

/// A letter and a status to look for. Most of the time both are on their lists.
pub fn look(desk: &Desk, random: &mut Random) -> (u8, u8) {
    let (row, column) = place(desk, random);
    let letter = match random.below(12) {
        0 => random.pick(b"Lt*lbcdqBZz "),
        1 => random.byte(),
        _ => INFORMATION[row],
    };
    let status = match random.below(12) {
        0 => random.pick(b"rezSPT "),
        1 => random.byte(),
        _ => STATUSES[column],
    };
    (letter, status)
}

#[cfg(test)]
mod tests {
    use super::*;
    use crate::refusal::Refusal;

    #[test]
    fn a_change_makes_a_number_wrong() {
        let mut random = Random::new(1, "test");
        let mut desk = Desk::default();
        desk.tally.0[12][0] = 3;
        let mut at_three = 0;
        for _ in 0..100 {
            let Change::Tally(row, column, number) = change(&desk, &mut random) else {
                panic!("a number of the tally");
            };
            assert_ne!(number, desk.tally.number((row, column)));
            at_three += usize::from((row, column) == (12, 0));
        }
        assert!((30..70).contains(&at_three), "{at_three}");
    }

    #[test]
    fn most_looks_find_a_number() {
        let mut random = Random::new(1, "test");
        let desk = Desk::default();
        let refused = (0..300).filter(|_| {
            let (letter, status) = look(&desk, &mut random);
            desk.look(letter, status) == Err(Refusal::NoSuch)
        });
        let refused = refused.count();
        assert!((40..150).contains(&refused), "{refused}");
    }
}
