//! Several requesters at once, with their answers mixed.

use super::{add_all_looks, add_call, add_look, different_keys, lend};
use crate::cases::desk::frames::request;
use crate::cases::Cases;
use crate::random::Random;

/// Sometimes there are more keys than seats, or more replies than cells.
pub fn add(cases: &mut Cases, random: &mut Random) {
    let number_of_keys = random.pick(&[1, 2, 2, 3, 3, 4, 5, 8, 12, 16, 17, 20]);
    let keys = different_keys(number_of_keys, random);
    let cells = random.place(25);
    let mut script = lend(cases, cells, random);
    for &key in &keys[..random.place(number_of_keys + 1)] {
        script.open(&request(key));
    }
    for _ in 0..5 + random.place(60) {
        match random.below(24) {
            0 | 1 => add_look(&mut script, random),
            2 if random.once_in(4) => script.reset(),
            _ => add_call(&mut script, &keys, random),
        }
    }
    script.used();
    for seat in 0..number_of_keys.min(5) as u32 {
        add_all_looks(&mut script, seat);
    }
}

#[cfg(test)]
mod tests {
    use super::*;

    #[test]
    fn replies_are_more_than_openings() {
        let mut cases = Cases::default();
        let mut random = Random::new(1, "test");
        for _ in 0..50 {
            add(&mut cases, &mut random);
        }
        let count = |word: &str| {
            let lines = cases.text.lines();
            lines.filter(|line| line.starts_with(word)).count()
        };
        assert_eq!(count("lend "), 50);
        assert!(count("reply ") > count("open "));
        assert!(count("held ") > 100 && count("used") > 50);
    }
}
