//! The refusals of the scope paper and their numbers.

/// Why a frame was not read, a record not written, or a call of the desk not done. `Field` and
/// `Record` carry the offset of the first wrong field. `Field` also carries the offset of that
/// field's spoiled byte. TIME is not among them: only the running time returns it, and it has no
/// other refusal.
#[derive(Clone, Copy, Debug, PartialEq, Eq)]
pub enum Refusal {
    Kind,
    Length,
    End,
    Address,
    Field(usize, usize),
    Record(usize),
    Room,
    Desk,
    NoAnswerDue,
    InUse,
    NoSeat,
    Stray,
    Ended,
    OutOfPlace,
    Full,
    NoSuch,
}

impl Refusal {
    pub fn number(self) -> u8 {
        match self {
            Refusal::Kind => 1,
            Refusal::Length => 2,
            Refusal::End => 3,
            Refusal::Address => 4,
            Refusal::Field(..) => 5,
            Refusal::Record(_) => 6,
            Refusal::Room => 7,
            Refusal::Desk => 9,
            Refusal::NoAnswerDue => 10,
            Refusal::InUse => 11,
            Refusal::NoSeat => 12,
            Refusal::Stray => 13,
            Refusal::Ended => 14,
            Refusal::OutOfPlace => 15,
            Refusal::Full => 16,
            Refusal::NoSuch => 17,
        }
    }

    /// The offset that belongs to the number. Only 5 and 6 have one, the others return zero.
    pub fn offset(self) -> usize {
        match self {
            Refusal::Field(offset, _) | Refusal::Record(offset) => offset,
            _ => 0,
        }
    }

    /// The offset of the spoiled byte. Only 5 has one, the others return zero.
    pub fn spoiled(self) -> usize {
        match self {
            Refusal::Field(_, spoiled) => spoiled,
            _ => 0,
        }
    }
}
