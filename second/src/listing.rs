//! The list of a capture: a heading, the collected replies seat by seat, and a line of counts.

#[cfg(test)]
mod tests;

use crate::desk::{Desk, CELL, MOST_CELLS, SEATS};
use crate::digits;
use crate::dynamic::Dynamic;
use crate::finder::{self, Ending, Found};
use crate::frame::Kind;
use crate::refusal::Refusal;
use crate::reply::{at, Reply};
use crate::request::Request;
use std::iter;
use std::ops::Range;

/// The longest capture that has a list.
pub const MOST_BYTES: usize = 32_768;

/// What is printed for a longer capture.
const TOO_LONG: &[u8] = b"input too long\n";

const HEADING: &[u8] =
    b"seat\tfrom\taddr\tnumber\tbib\tgroup\trun\tphys\tlog\tinfo\ttime\tdate\tstatus\n";

/// The first field of the line of counts.
const END: &[u8] = b"end";

/// What the column `addr` shows for a space. No address is this byte.
const SPACE_SHOWN: u8 = b'-';

/// How many digits a request's number has.
const DIGITS_OF_NUMBER: usize = 3;

/// Which bytes of a reply a row shows after its number, in the order of the heading. Each field
/// ends where the next field of the frame begins.
const COLUMNS: [Range<usize>; 9] = [
    at::BIB..at::GROUP,
    at::GROUP..at::RUN,
    at::RUN..at::PHYSICAL,
    at::PHYSICAL..at::CHANNEL,
    at::CHANNEL..at::INFORMATION,
    at::INFORMATION..at::TIME,
    at::TIME..at::DATE,
    at::DATE..at::SPARE,
    at::STATUS..at::REQUESTER,
];

/// All that is printed for a capture.
pub fn list(capture: &[u8]) -> Vec<u8> {
    if capture.len() > MOST_BYTES {
        return TOO_LONG.to_vec();
    }
    let played = Played::of(capture);
    [HEADING.to_vec(), rows(&played.desk), played.end_line()].concat()
}

/// What became of a frame. The last line has one count for each of these.
#[derive(Clone, Copy, Debug, PartialEq, Eq)]
pub enum Fate {
    Opened,
    Collected,
    Dynamic,
    Refused,
}

/// A capture after its last frame: the desk, and what became of each frame, in order.
struct Played {
    desk: Desk,
    fates: Vec<Fate>,
}

impl Played {
    fn of(capture: &[u8]) -> Self {
        let mut desk = empty_desk();
        let fates = finder::frames(capture)
            .map(|found| fate(&mut desk, capture, found))
            .collect();
        Played { desk, fates }
    }

    fn count(&self, fate: Fate) -> usize {
        self.fates.iter().filter(|&&other| other == fate).count()
    }

    fn end_line(&self) -> Vec<u8> {
        let mut fields = vec![END.to_vec()];
        for fate in [Fate::Opened, Fate::Collected, Fate::Dynamic, Fate::Refused] {
            fields.push(plain(self.count(fate)));
        }
        line(&fields)
    }
}

/// The program's desk before the first frame. Nothing is opened, and all that is lent is zero.
pub fn empty_desk() -> Desk {
    Desk::with(vec![0; MOST_CELLS * CELL], vec![0; MOST_CELLS])
}

/// A cut frame is refused. A whole frame is given to the call for its kind.
fn fate(desk: &mut Desk, capture: &[u8], found: Found) -> Fate {
    match found.ending {
        Ending::Cut => Fate::Refused,
        Ending::Whole => serve(desk, &capture[found.start..found.end]).unwrap_or(Fate::Refused),
    }
}

/// Gives a whole frame to the call for its lead byte.
pub fn serve(desk: &mut Desk, frame: &[u8]) -> Result<Fate, Refusal> {
    match frame.first().copied() {
        Some(Request::LEAD) => desk.open(frame).map(|_| Fate::Opened),
        Some(Reply::LEAD) => desk.reply(frame).map(|_| Fate::Collected),
        Some(Dynamic::LEAD) => Dynamic::read(frame).map(|_| Fate::Dynamic),
        _ => Err(Refusal::Kind),
    }
}

/// The rows of all seats, from the lowest seat up. A seat without records has no rows.
fn rows(desk: &Desk) -> Vec<u8> {
    let mut rows = Vec::new();
    for seat in 0..SEATS {
        for reply in records_at(desk, seat) {
            rows.extend(row(desk, seat, reply));
        }
    }
    rows
}

/// The cells of a seat, in the order in which their replies came.
fn records_at(desk: &Desk, seat: usize) -> impl Iterator<Item = &[u8]> {
    let mark = u32::try_from(seat).expect("a seat is below sixteen");
    let next = move |place| desk.next_held(mark, place);
    let cells = iter::successors(next(0), move |&cell| next(cell + 1));
    cells.map(|cell| &desk.cells[cell * CELL..][..CELL])
}

/// The number has three digits, as in the request. All fields after it are copied from the reply.
fn row(desk: &Desk, seat: usize, reply: &[u8]) -> Vec<u8> {
    let number = desk.seats[seat].number.into();
    let mut fields = vec![
        plain(seat),
        reply[at::REQUESTER..at::NUMBER].to_vec(),
        vec![address_shown(reply[at::ADDRESS])],
        digits::write(number, DIGITS_OF_NUMBER),
    ];
    for column in COLUMNS {
        fields.push(reply[column].to_vec());
    }
    line(&fields)
}

/// A digit is shown as it is. A space is shown as `-`.
fn address_shown(address: u8) -> u8 {
    match address {
        b' ' => SPACE_SHOWN,
        digit => digit,
    }
}

/// A seat or a count, with as many digits as it needs.
fn plain(value: usize) -> Vec<u8> {
    value.to_string().into_bytes()
}

fn line(fields: &[Vec<u8>]) -> Vec<u8> {
    let mut line = fields.join(&b'\t');
    line.push(b'\n');
    line
}
