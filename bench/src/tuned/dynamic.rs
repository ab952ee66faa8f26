//! The dynamic request.

use super::fields::{all_digits, InRuns};
use crate::plain::dynamic::{DynamicDigits, SIZE};

impl DynamicDigits for InRuns {
    #[inline(never)]
    fn can_read(frame: &[u8; SIZE]) -> bool {
        all_digits(&frame[5..44])
    }
}
