//! What plain and tuned do in different ways. The calls that are tuned are generic over these ways, so that all else is
//! written once.

use super::desk::{is_used, key_of, Key, Label};
use super::refusal::Refusal;
use super::test::{keys_differ, seats_are_good};
use super::{dynamic, finder, reply};
use crate::abi::{DynamicRequest, FrameAnswer, ReplyRecord, Seat, SEATS};

pub trait Ways {
    type Keys: Keys;

    /// Is a desk without held cells tested apart, without counting?
    const EMPTY_APART: bool;

    fn read_reply(frame: &[u8]) -> Result<ReplyRecord, Refusal>;

    fn read_dynamic(frame: &[u8]) -> Result<DynamicRequest, Refusal>;

    /// The label of a reply that comes in.
    fn label(frame: &[u8]) -> Result<Label, Refusal>;

    /// The label of a held cell; none if it is not a good reply.
    fn held_label(cell: &[u8]) -> Option<Label>;

    /// The first frame that begins at a place or after it.
    fn next_frame(capture: &[u8], at: usize) -> Option<FrameAnswer>;
}

/// Where the keys of the seats in use are looked up. By default no seat is in use.
pub trait Keys: Default {
    /// Takes the keys of the seats. Are the seats good, and do their keys differ?
    fn take(&mut self, seats: &[Seat; SEATS], bits: u64) -> bool;

    /// Is the seat at this place in use, and is this its key? The key is that of a good reply.
    fn is_at(&self, seats: &[Seat; SEATS], bits: u64, place: usize, key: Key) -> bool;

    /// The place of the seat with this key.
    fn find(&self, seats: &[Seat; SEATS], bits: u64, key: Key) -> Option<usize>;

    /// A seat was opened with this key.
    fn put(&mut self, place: usize, key: Key);
}

/// The ways of plain.
pub struct Plain;

impl Ways for Plain {
    type Keys = InSeats;
    const EMPTY_APART: bool = false;

    #[inline(always)]
    fn read_reply(frame: &[u8]) -> Result<ReplyRecord, Refusal> {
        reply::read(frame)
    }

    #[inline(always)]
    fn read_dynamic(frame: &[u8]) -> Result<DynamicRequest, Refusal> {
        dynamic::read(frame)
    }

    #[inline(always)]
    fn label(frame: &[u8]) -> Result<Label, Refusal> {
        reply::read(frame).map(|record| Label::of(&record.head))
    }

    #[inline(always)]
    fn held_label(cell: &[u8]) -> Option<Label> {
        Self::label(cell).ok()
    }

    #[inline(always)]
    fn next_frame(capture: &[u8], at: usize) -> Option<FrameAnswer> {
        finder::next_frame(capture, at)
    }
}

/// The keys are looked up in the seats themselves.
#[derive(Default)]
pub struct InSeats;

impl Keys for InSeats {
    #[inline(always)]
    fn take(&mut self, seats: &[Seat; SEATS], bits: u64) -> bool {
        seats_are_good(seats, bits) && keys_differ(seats, bits)
    }

    #[inline(always)]
    fn is_at(&self, seats: &[Seat; SEATS], bits: u64, place: usize, key: Key) -> bool {
        is_used(bits, place) && key_of(&seats[place]) == key
    }

    #[inline(always)]
    fn find(&self, seats: &[Seat; SEATS], bits: u64, key: Key) -> Option<usize> {
        (0..SEATS).find(|&place| is_used(bits, place) && key_of(&seats[place]) == key)
    }

    #[inline(always)]
    fn put(&mut self, _: usize, _: Key) {}
}
