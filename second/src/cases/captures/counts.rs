//! Counts that have just gained a digit, or are about to.

use super::Capture;
use crate::cases::dynamic::{MINUS, PLUS};

pub fn captures() -> Vec<Capture> {
    let both = [9, 10, 100].map(|count| [leads(count), dynamic_requests(count)].concat());
    let refused = [999, 1_000].map(leads);
    [&both[..], &refused].concat()
}

/// This many lead bytes and nothing else. All of these frames are cut.
pub fn leads(count: usize) -> Capture {
    let leads = [0x13, 0x12, 0x11, 0x11];
    leads.into_iter().cycle().take(count).collect()
}

fn dynamic_requests(count: usize) -> Capture {
    let frames = [PLUS, MINUS].into_iter().cycle();
    frames.take(count).flatten().copied().collect()
}

#[cfg(test)]
mod tests {
    use super::*;
    use crate::cases::captures::tests::check_ends;

    #[test]
    fn counts_of_one_to_four_digits() {
        let both = [9, 10, 100].map(|count| [0, 0, count, count]);
        let refused = [999, 1_000].map(|count| [0, 0, 0, count]);
        check_ends(&captures(), &[&both[..], &refused].concat());
    }
}
