//! The keys of the seats as a column of numbers.

use crate::abi::{Seat, SEATS};
use crate::plain::desk::{is_used, key_of, Key};
use crate::plain::test::seat_is_good;
use crate::plain::ways::Keys;

/// The key of each seat as one number, 0 for a seat that is not in use.
#[derive(Default)]
pub struct Column([u32; SEATS]);

/// The number of a key. Good keys, also those of replies, have different numbers, and none is 0: an address has 6 bits, a
/// requester 7, and a number of five digits 17.
#[inline(always)]
fn packed(key: Key) -> u32 {
    key.address << 24 | key.requester << 17 | key.number
}

impl Column {
    /// How often a number is in the column. There is no early return.
    #[inline(always)]
    fn count(&self, key: u32) -> u32 {
        self.0.iter().fold(0, |count, &other| count + u32::from(other == key))
    }
}

impl Keys for Column {
    /// A good seat that is not in use is all zero, and so is its number.
    #[inline(always)]
    fn take(&mut self, seats: &[Seat; SEATS], bits: u64) -> bool {
        for (place, seat) in seats.iter().enumerate() {
            if !seat_is_good(seat, is_used(bits, place)) {
                return false;
            }
            self.put(place, key_of(seat));
        }
        self.0.iter().all(|&key| key == 0 || self.count(key) == 1)
    }

    /// A seat that is not in use has the number 0, which is no key's.
    #[inline(always)]
    fn is_at(&self, _: &[Seat; SEATS], _: u64, place: usize, key: Key) -> bool {
        self.0[place] == packed(key)
    }

    #[inline(always)]
    fn find(&self, _: &[Seat; SEATS], _: u64, key: Key) -> Option<usize> {
        let key = packed(key);
        self.0.iter().position(|&other| other == key)
    }

    #[inline(always)]
    fn put(&mut self, place: usize, key: Key) {
        self.0[place] = packed(key);
    }
}
