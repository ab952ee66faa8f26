//! Digits in runs.

use crate::plain::fields::Digits;

/// Tests the digits of a run together, before the numbers in it are read. The functions that test a run are not inlined.
/// If they are, the compiler mixes them with the reading, and a reply takes 27 ns instead of 22 (on an AMD EPYC).
pub struct InRuns;

impl Digits for InRuns {
    #[inline(always)]
    fn number(digits: &[u8]) -> Option<u32> {
        Some(sum(digits))
    }
}

/// Are all bytes digits? There is no early return, so that many bytes are tested at once.
#[inline(always)]
pub fn all_digits(run: &[u8]) -> bool {
    run.iter().fold(true, |good, byte| good & byte.is_ascii_digit())
}

/// The number that these digits are; any number if one is not a digit.
#[inline(always)]
pub fn sum(digits: &[u8]) -> u32 {
    let digits = digits.iter().map(|&byte| u32::from(byte).wrapping_sub(u32::from(b'0')));
    digits.fold(0, |sum: u32, digit| sum.wrapping_mul(10).wrapping_add(digit))
}
