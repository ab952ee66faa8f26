//! The example, and captures with at most one frame.

use super::{Capture, ONE};
use crate::cases::desk::frames::{reply, request, R};
use crate::cases::dynamic::PLUS;

/// The six frames of the scope paper's example.
pub const EXAMPLE: [&[u8]; 6] = [
    b"\x11R 100700000P000002000S\r",
    b"\x11R A012000411255001000S\r",
    b"\x12R SOR10000700015000002000000P000000000000000000  \r",
    b"\x12R SOEA000120004100000101525510001125400+0000000  \r",
    b"\x12R SOE10000700022000002000000P000000000000000000  \r",
    b"\x12R SOEA000120004100000101525510001125400+0000000  \r",
];

pub fn captures() -> Vec<Capture> {
    vec![
        EXAMPLE.concat(),
        Vec::new(),
        b"\n".to_vec(),
        request(ONE),
        reply(R, ONE),
        PLUS.to_vec(),
        b"\x12".to_vec(),
    ]
}

#[cfg(test)]
mod tests {
    use super::*;
    use crate::cases::captures::tests::check_ends;

    #[test]
    fn next_to_nothing() {
        check_ends(
            &captures(),
            &[
                [2, 3, 0, 1],
                [0, 0, 0, 0],
                [0, 0, 0, 0],
                [1, 0, 0, 0],
                [0, 0, 0, 1],
                [0, 0, 1, 0],
                [0, 0, 0, 1],
            ],
        );
    }
}
