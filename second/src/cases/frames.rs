//! What the cases of all kinds of frame have in common.

use super::replaced;
use crate::frame::{Kind, ADDRESS};
use crate::random::Random;

/// The space first, then the digits.
pub const ADDRESSES: &[u8; 11] = b" 0123456789";

/// The bytes on both sides of the space and of each end of the digits, and the byte that a list
/// shows for a space.
pub const ADDRESS_EDGES: [u8; 8] = [0x1f, 0x20, 0x21, 0x2d, 0x2f, 0x30, 0x39, 0x3a];

pub const REQUESTERS: &[u8; 62] = b"0123456789ABCDEFGHIJKLMNOPQRSTUVWXYZabcdefghijklmnopqrstuvwxyz";
pub const OUTPUTS: &[u8; 4] = b"SABT";

/// The bytes on both sides of each end of the three requester ranges.
pub const REQUESTER_EDGES: [u8; 12] = [
    0x2f, 0x30, 0x39, 0x3a, 0x40, 0x41, 0x5a, 0x5b, 0x60, 0x61, 0x7a, 0x7b,
];

/// Bytes that do not print.
pub const NOT_PRINTABLE: [u8; 7] = [0x00, 0x0d, 0x1f, 0x7f, 0x80, 0xb0, 0xff];

/// Times on both sides of every limit, and some texts that are not times.
pub const TIMES: [&[u8]; 16] = [
    b"0000000000",
    b"0000000001",
    b"0000009999",
    b"0000010000",
    b"0000590000",
    b"0000600000",
    b"0059000000",
    b"0060000000",
    b"2300000000",
    b"2359599999",
    b"2359600000",
    b"2360000000",
    b"2400000000",
    b"9999999999",
    b" 000000000",
    b"000000000 ",
];

/// The largest number that a case can have.
pub const LARGEST: u64 = (1 << 32) - 1;

/// A number's offset, its width, and values on both sides of every limit.
pub type Number = (usize, usize, &'static [u64]);

/// A field's offset, and a text that is wrong there.
pub type WrongField = (usize, &'static [u8]);

/// Something wrong with a frame.
#[derive(Clone, Copy)]
pub enum Fault {
    /// The frame has these bytes at this place.
    Put(usize, &'static [u8]),
    /// The frame has its last byte twice.
    OneByteMore,
}

impl Fault {
    fn befall(self, frame: &mut Vec<u8>) {
        match self {
            Fault::Put(place, wrong) => *frame = replaced(frame, place, wrong),
            Fault::OneByteMore => frame.extend(frame.last().copied()),
        }
    }
}

/// One fault of each sort: those around the fields, including another kind's lead byte, a wrong
/// address, and the wrong fields given.
pub fn faults_of<Record: Kind>(other_lead: &'static [u8], fields: &[WrongField]) -> Vec<Fault> {
    let around = faults_around::<Record>(other_lead);
    let within = fields
        .iter()
        .map(|&(offset, wrong)| Fault::Put(offset, wrong));
    around
        .into_iter()
        .chain([Fault::Put(ADDRESS, b"R")])
        .chain(within)
        .collect()
}

/// Another kind's lead byte, another last byte, one byte more, and another byte 1.
pub fn faults_around<Record: Kind>(other_lead: &'static [u8]) -> [Fault; 4] {
    [
        Fault::Put(0, other_lead),
        Fault::Put(Record::LENGTH - 1, b"\n"),
        Fault::OneByteMore,
        Fault::Put(1, b"S"),
    ]
}

pub fn with_faults(frame: &[u8], faults: &[Fault]) -> Vec<u8> {
    let mut frame = frame.to_vec();
    for fault in faults {
        fault.befall(&mut frame);
    }
    frame
}

/// Every two neighbours of a list, and every end part of it. This is enough to show which one comes
/// first.
pub fn neighbours_and_tails<T>(list: &[T]) -> impl Iterator<Item = &[T]> {
    let tails = (0..list.len()).map(|low| &list[low..]);
    list.windows(2).chain(tails)
}

/// The frame at each of these lengths, cut or filled up with zeros; and the same with CR as its
/// last byte.
pub fn at_lengths(frame: &[u8], lengths: &[usize]) -> Vec<Vec<u8>> {
    let mut frames = Vec::new();
    for &length in lengths {
        let mut other = frame.to_vec();
        other.resize(length, b'0');
        if length > 0 {
            frames.push(replaced(&other, length - 1, b"\r"));
        }
        frames.push(other);
    }
    frames
}

/// The frame with each of these lead bytes, and with other bytes at places 1 and 2 and at its end.
pub fn with_surround_faults(frame: &[u8], leads: &[u8]) -> Vec<Vec<u8>> {
    let last = frame.len() - 1;
    let places: [(usize, &[u8]); 4] = [
        (0, leads),
        (1, b"QSr \xd2"),
        (ADDRESS, b"\x1f!\x00/R\xa0"),
        (last, b"\x0c\x0e\n\x00 \x8d"),
    ];
    let mut frames = Vec::new();
    for (place, codes) in places {
        frames.extend(codes.iter().map(|&code| replaced(frame, place, &[code])));
    }
    frames.push(replaced(frame, 1, b" R"));
    // A CR one place too early is not the last byte.
    let mut early = frame.to_vec();
    early.swap(last - 1, last);
    frames.push(early);
    frames
}

/// The frame with each address of `ADDRESS_EDGES`.
pub fn with_address_edges(frame: &[u8]) -> Vec<Vec<u8>> {
    ADDRESS_EDGES
        .iter()
        .map(|&address| replaced(frame, ADDRESS, &[address]))
        .collect()
}

/// Frames that show when the address is tried: each address of `ADDRESS_EDGES` before this wrong
/// field, then a good and a wrong address with each of these faults around the fields.
pub fn with_addresses_and_faults(
    frame: &[u8],
    (offset, wrong): WrongField,
    around: &[Fault],
) -> Vec<Vec<u8>> {
    let mut frames = with_address_edges(&replaced(frame, offset, wrong));
    for address in *b"9-" {
        let addressed = replaced(frame, ADDRESS, &[address]);
        let faulty = around
            .iter()
            .map(|&fault| with_faults(&addressed, &[fault]));
        frames.extend(faulty);
    }
    frames
}

/// Frames to be damaged for the sake of the address: with each address of `ADDRESS_EDGES`; and with
/// something else wrong, so that a good address does not make a good frame.
pub fn to_damage_by_address(frame: &[u8], fields: &[WrongField]) -> Vec<Vec<u8>> {
    let mut frames = with_address_edges(frame);
    for &(offset, wrong) in [fields.first(), fields.last()].into_iter().flatten() {
        frames.push(replaced(frame, offset, wrong));
    }
    frames.push(replaced(frame, 1, b"r"));
    frames.push(replaced(frame, frame.len() - 1, b"\n"));
    frames
}

/// The frame with each number at its edges.
pub fn with_number_edges(frame: &[u8], numbers: &[Number]) -> Vec<Vec<u8>> {
    let mut frames = Vec::new();
    for &(offset, width, edges) in numbers {
        frames.extend(edges.iter().map(|value| {
            let text = format!("{value:0width$}");
            replaced(frame, offset, text.as_bytes())
        }));
    }
    frames
}

/// The frame with each number blank in turn.
pub fn with_blank_numbers(frame: &[u8], numbers: &[Number]) -> Vec<Vec<u8>> {
    numbers
        .iter()
        .map(|&(offset, width, _)| replaced(frame, offset, &vec![b' '; width]))
        .collect()
}

/// A random change: a byte lost, a byte too many, another byte, another address, another last byte,
/// or another number. The frame may still be good.
pub fn befall_at_random(frame: &mut Vec<u8>, numbers: &[Number], random: &mut Random) {
    let place = random.place(frame.len());
    match random.below(10) {
        0 => {
            frame.remove(place);
        }
        1 => frame.insert(place, random.byte()),
        2 | 3 => frame[place] = random.byte(),
        4 => frame[place] = random.pick(REQUESTERS),
        5 => put(frame, ADDRESS, &[random.pick(&ADDRESS_EDGES)]),
        6 => {
            let last = frame.len() - 1;
            frame[last] = random.pick(b"\n\0S");
        }
        _ => {
            let (offset, width, _) = random.pick(numbers);
            let limit = 10_u64.pow(width as u32);
            let text = format!("{:0width$}", random.below(limit));
            put(frame, offset, text.as_bytes());
        }
    }
}

/// Puts these bytes at this place, if the frame is long enough.
pub fn put(frame: &mut [u8], place: usize, text: &[u8]) {
    if let Some(field) = frame.get_mut(place..place + text.len()) {
        field.copy_from_slice(text);
    }
}

/// A good address. It is often one of three, so keys that differ in the address alone occur often.
pub fn random_address(random: &mut Random) -> u8 {
    match random.below(4) {
        0 => random.pick(ADDRESSES),
        _ => random.pick(b" 03"),
    }
}

/// A random number that may be far beyond any field's limit.
pub fn any_number(random: &mut Random) -> u64 {
    let limit = random.pick(&[256, 1_000, 65_536, 100_000, LARGEST + 1]);
    random.below(limit)
}

/// How many faults a random case gets. Half of them get none.
pub fn number_of_faults(random: &mut Random) -> usize {
    random.pick(&[0, 0, 0, 1, 1, 2])
}

/// A good time as HHMMSSdddd. It is built here, without the writer that is compared.
pub fn time_text(ticks: i128) -> String {
    let hours = ticks / 36_000_000;
    let minutes = ticks / 600_000 % 60;
    let seconds = ticks / 10_000 % 60;
    format!("{hours:02}{minutes:02}{seconds:02}{:04}", ticks % 10_000)
}

#[cfg(test)]
mod tests {
    use super::*;
    use crate::cases::{dynamic, request};
    use crate::dynamic::Dynamic;
    use crate::refusal::Refusal;
    use crate::request::Request;

    fn check_order<Record: Kind>(good: Vec<u8>, other_lead: &'static [u8]) {
        let around = faults_around::<Record>(other_lead);
        let frames = with_addresses_and_faults(&good, (3, b"["), &around);
        let count = |refusal| {
            let refusals = frames.iter().map(|frame| Record::read(frame).err());
            refusals.filter(|&other| other == Some(refusal)).count()
        };
        for refusal in [Refusal::Kind, Refusal::Length, Refusal::End] {
            assert_eq!(count(refusal), 2, "{refusal:?}");
        }
        assert_eq!(count(Refusal::Address), 5 + 2);
        assert_eq!(count(Refusal::Field(3, 3)), 3);
    }

    #[test]
    fn the_address_is_tried_between_end_and_field() {
        let mut random = Random::new(1, "test");
        for _ in 0..20 {
            let record = request::random_record(&mut random);
            check_order::<Request>(request::frame_of(&record), b"\x12");
            let record = dynamic::random_record(&mut random);
            check_order::<Dynamic>(dynamic::frame_of(&record), b"\x11");
        }
    }

    #[test]
    fn random_addresses_are_good_and_often_the_same() {
        let mut random = Random::new(1, "test");
        let drawn: Vec<u8> = (0..1000).map(|_| random_address(&mut random)).collect();
        let count = |address: u8| drawn.iter().filter(|&&other| other == address).count();
        assert!(drawn.iter().all(|address| ADDRESSES.contains(address)));
        for &address in ADDRESSES {
            let least = if b" 03".contains(&address) { 200 } else { 10 };
            assert!(count(address) > least, "{address}");
        }
    }
}
