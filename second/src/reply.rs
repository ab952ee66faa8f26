//! The static reply: 51 bytes. Its lead byte is DC2, as printed in section 4.1.3 of source document
//! 000.

mod shown;

use crate::digits;
use crate::frame::{self, all_raw, is_address, is_raw, is_requester, Kind, WrongAt};
use crate::refusal::Refusal;
use crate::shown::Shown;
use crate::times::{self, Net};

/// The offset at which each field begins.
pub mod at {
    pub use crate::frame::ADDRESS;
    pub const PROGRAM: usize = 3;
    pub const MODE: usize = 4;
    pub const STATUS: usize = 5;
    pub const REQUESTER: usize = 6;
    pub const NUMBER: usize = 7;
    pub const BIB: usize = 12;
    pub const GROUP: usize = 17;
    pub const RUN: usize = 20;
    pub const PHYSICAL: usize = 23;
    pub const CHANNEL: usize = 26;
    pub const INFORMATION: usize = 29;
    pub const TIME: usize = 30;
    pub const DATE: usize = 40;
    pub const SPARE: usize = 48;
    pub const CR: usize = 50;
}

/// How many digits each number has, including the numbers in a date.
mod width {
    pub const NUMBER: usize = 5;
    pub const BIB: usize = 5;
    pub const GROUP: usize = 3;
    pub const RUN: usize = 3;
    pub const PHYSICAL: usize = 3;
    pub const CHANNEL: usize = 3;
    pub const DAY: usize = 2;
    pub const MONTH: usize = 2;
    pub const YEAR: usize = 4;
    pub const NET_DAYS: usize = 7;
}

/// The 33 information letters: a request's 41 without `L t * l b c d q`.
pub const INFORMATION: &[u8; 33] = b"0123456789AQPaSsTKRGHhIiJjpkugWwX";

/// The letters with a clock time and date, and those with a net time. The other 25 are raw.
pub const CLOCK_LETTERS: &[u8; 5] = b"0KSsa";
pub const NET_LETTERS: &[u8; 3] = b"123";

/// The three statuses: one record of an answer, its last record, and "not available".
pub const RECORD: u8 = b'R';
pub const LAST_RECORD: u8 = b'E';
pub const NOT_AVAILABLE: u8 = b'Z';

/// A whole reply held as a value.
pub type Value = [u8; Reply::LENGTH];

/// What time and date mean. If they are raw, nothing is stored here: their bytes are in other parts
/// of the record.
#[derive(Clone, Copy, Debug, PartialEq, Eq)]
pub enum Timing {
    Clock {
        ticks: i128,
        day: u64,
        month: u64,
        year: u64,
    },
    Net(i128),
    Raw,
}

/// How a reply's time and date are to be read.
#[derive(Clone, Copy, Debug, PartialEq, Eq)]
enum TimingKind {
    Clock,
    Net,
    Raw,
}

impl TimingKind {
    /// Status Z makes both raw, whatever the letter.
    fn asked_for(status: u8, information: u8) -> Self {
        if status == NOT_AVAILABLE {
            TimingKind::Raw
        } else if CLOCK_LETTERS.contains(&information) {
            TimingKind::Clock
        } else if NET_LETTERS.contains(&information) {
            TimingKind::Net
        } else {
            TimingKind::Raw
        }
    }
}

/// A static reply. The numbers are wide, so that a record that is not well formed can be held too.
/// The raw parts are zero bytes if the timing is not raw.
#[derive(Clone, Debug, PartialEq, Eq)]
pub struct Reply {
    pub address: u8,
    pub program: u8,
    pub mode: u8,
    pub status: u8,
    pub requester: u8,
    pub number: u64,
    pub bib: u64,
    pub group: u64,
    pub run: u64,
    pub physical: u64,
    pub channel: u64,
    pub information: u8,
    pub timing: Timing,
    pub raw_time: [u8; 10],
    pub raw_date: [u8; 8],
    pub spare: [u8; 2],
}

impl Kind for Reply {
    const LEAD: u8 = 0x12;
    const LENGTH: usize = 51;

    fn read_fields(address: u8, frame: &[u8]) -> Result<Self, WrongAt> {
        let program = frame::letter(frame, at::PROGRAM, is_raw)?;
        let mode = frame::letter(frame, at::MODE, is_raw)?;
        let status = frame::letter(frame, at::STATUS, is_status)?;
        let requester = frame::letter(frame, at::REQUESTER, is_requester)?;
        let number = frame::number(frame, at::NUMBER, width::NUMBER, is_number)?;
        let bib = frame::number(frame, at::BIB, width::BIB, is_bib)?;
        let group = frame::number(frame, at::GROUP, width::GROUP, is_group)?;
        let run = frame::number(frame, at::RUN, width::RUN, |run| is_run(run, status))?;
        let physical = frame::number(frame, at::PHYSICAL, width::PHYSICAL, is_physical)?;
        let channel = frame::number(frame, at::CHANNEL, width::CHANNEL, is_channel)?;
        let information = frame::letter(frame, at::INFORMATION, is_information)?;
        let timing_kind = TimingKind::asked_for(status, information);
        let (timing, raw_time, raw_date) = read_timing(frame, timing_kind)?;
        let spare = frame::raw(frame, at::SPARE)?;
        Ok(Reply {
            address,
            program,
            mode,
            status,
            requester,
            number,
            bib,
            group,
            run,
            physical,
            channel,
            information,
            timing,
            raw_time,
            raw_date,
            spare,
        })
    }

    fn shown(frame: &[u8], offset: usize) -> &'static Shown {
        shown::of_field(frame, offset)
    }

    fn first_wrong_field(&self) -> Option<usize> {
        frame::first_wrong(&[
            (at::ADDRESS, is_address(self.address)),
            (at::PROGRAM, is_raw(self.program)),
            (at::MODE, is_raw(self.mode)),
            (at::STATUS, is_status(self.status)),
            (at::REQUESTER, is_requester(self.requester)),
            (at::NUMBER, is_number(self.number)),
            (at::BIB, is_bib(self.bib)),
            (at::GROUP, is_group(self.group)),
            (at::RUN, is_run(self.run, self.status)),
            (at::PHYSICAL, is_physical(self.physical)),
            (at::CHANNEL, is_channel(self.channel)),
            (at::INFORMATION, is_information(self.information)),
            (at::TIME, self.time_is_good()),
            (at::DATE, self.date_is_good()),
            (at::SPARE, all_raw(&self.spare)),
            (at::CR, self.unused_parts_are_zero()),
        ])
    }

    fn fields(&self) -> Vec<u8> {
        let mut fields = vec![self.address, self.program, self.mode];
        fields.extend([self.status, self.requester]);
        fields.extend(digits::write(self.number, width::NUMBER));
        fields.extend(digits::write(self.bib, width::BIB));
        fields.extend(digits::write(self.group, width::GROUP));
        fields.extend(digits::write(self.run, width::RUN));
        fields.extend(digits::write(self.physical, width::PHYSICAL));
        fields.extend(digits::write(self.channel, width::CHANNEL));
        fields.push(self.information);
        fields.extend(self.timing_text());
        fields.extend(self.spare);
        fields
    }
}

impl Reply {
    /// Reads a value as any frame is read. It has a reply's length, so LENGTH cannot occur.
    pub fn read_value(value: Value) -> Result<Self, Refusal> {
        Self::read(&value)
    }

    /// The frame as a value. If the record is refused, all its bytes are zero. The value has enough
    /// room, so ROOM cannot occur.
    pub fn write_value(&self) -> (Result<(), Refusal>, Value) {
        let mut value = [0; Reply::LENGTH];
        let outcome = self.write(&mut value);
        (outcome, value)
    }

    /// Also false if the timing is of another kind than status and letter require.
    fn time_is_good(&self) -> bool {
        match (self.timing_kind(), self.timing) {
            (TimingKind::Clock, Timing::Clock { ticks, .. }) => times::is_time(ticks),
            // The time within a day is always good. The date says whether the days fit.
            (TimingKind::Net, Timing::Net(_)) => true,
            (TimingKind::Raw, Timing::Raw) => all_raw(&self.raw_time),
            _ => false,
        }
    }

    fn date_is_good(&self) -> bool {
        match self.timing {
            Timing::Clock {
                day, month, year, ..
            } => times::is_real_day(day, month, year),
            Timing::Net(value) => times::net_parts(value).is_some(),
            Timing::Raw => all_raw(&self.raw_date),
        }
    }

    fn unused_parts_are_zero(&self) -> bool {
        self.timing == Timing::Raw || (self.raw_time == [0; 10] && self.raw_date == [0; 8])
    }

    fn timing_kind(&self) -> TimingKind {
        TimingKind::asked_for(self.status, self.information)
    }

    /// The time and date bytes of a well formed record.
    fn timing_text(&self) -> Vec<u8> {
        const WELL_FORMED: &str = "the record is well formed";
        match self.timing {
            Timing::Clock {
                ticks,
                day,
                month,
                year,
            } => [
                times::clock_text(ticks).expect(WELL_FORMED),
                digits::write(day, width::DAY),
                digits::write(month, width::MONTH),
                digits::write(year, width::YEAR),
            ]
            .concat(),
            Timing::Net(value) => {
                let Net { minus, days, time } = times::net_parts(value).expect(WELL_FORMED);
                let days = u64::try_from(days).expect(WELL_FORMED);
                [
                    times::clock_text(time).expect(WELL_FORMED),
                    vec![if minus { b'-' } else { b'+' }],
                    digits::write(days, width::NET_DAYS),
                ]
                .concat()
            }
            Timing::Raw => [&self.raw_time[..], &self.raw_date].concat(),
        }
    }
}

/// The timing and the two raw parts. The time is read before the date, so if both are wrong, the
/// refusal names the time.
fn read_timing(frame: &[u8], kind: TimingKind) -> Result<(Timing, [u8; 10], [u8; 8]), WrongAt> {
    match kind {
        TimingKind::Clock => {
            let ticks = frame::time(frame, at::TIME)?;
            let (day, month, year) = read_date(frame).ok_or(WrongAt(at::DATE))?;
            let clock = Timing::Clock {
                ticks,
                day,
                month,
                year,
            };
            Ok((clock, [0; 10], [0; 8]))
        }
        TimingKind::Net => {
            let time = frame::time(frame, at::TIME)?;
            let value = read_net(frame, time).ok_or(WrongAt(at::DATE))?;
            Ok((Timing::Net(value), [0; 10], [0; 8]))
        }
        TimingKind::Raw => {
            let raw_time = frame::raw(frame, at::TIME)?;
            let raw_date = frame::raw(frame, at::DATE)?;
            Ok((Timing::Raw, raw_time, raw_date))
        }
    }
}

/// DDMMYYYY, a real day.
fn read_date(frame: &[u8]) -> Option<(u64, u64, u64)> {
    const MONTH: usize = at::DATE + width::DAY;
    const YEAR: usize = MONTH + width::MONTH;
    let day = digits::read(frame, at::DATE, width::DAY)?;
    let month = digits::read(frame, MONTH, width::MONTH)?;
    let year = digits::read(frame, YEAR, width::YEAR)?;
    times::is_real_day(day, month, year).then_some((day, month, year))
}

/// A sign, which is always there, and seven digits of days. Together with the time they are one
/// value. Whether minus zero is good depends on the time.
fn read_net(frame: &[u8], time: i128) -> Option<i128> {
    let minus = match frame.get(at::DATE)? {
        b'+' => false,
        b'-' => true,
        _ => return None,
    };
    let days = digits::read(frame, at::DATE + 1, width::NET_DAYS)?.into();
    times::net_value(Net { minus, days, time })
}

fn is_status(code: u8) -> bool {
    matches!(code, RECORD | LAST_RECORD | NOT_AVAILABLE)
}

fn is_number(value: u64) -> bool {
    value <= 99_999
}

fn is_bib(value: u64) -> bool {
    value <= 59_999
}

fn is_group(value: u64) -> bool {
    value <= 199
}

/// Run 000 exists only in a reply that is not available.
fn is_run(value: u64, status: u8) -> bool {
    matches!(value, 1..=250) || (value == 0 && status == NOT_AVAILABLE)
}

fn is_physical(value: u64) -> bool {
    value <= 999
}

/// A reply's channels. Unlike a request's they include 245 and 250, but not 251.
fn is_channel(value: u64) -> bool {
    matches!(value, 0..=240 | 245 | 248 | 249 | 250 | 255)
}

fn is_information(code: u8) -> bool {
    INFORMATION.contains(&code)
}

#[cfg(test)]
mod tests {
    use super::*;
    use crate::request;

    /// The two replies of the scope paper's example.
    const FIRST: &Value = b"\x12R SOR10000700015000002000000P000000000000000000  \r";
    const SECOND: &Value = b"\x12R SOEA000120004100000101525510001125400+0000000  \r";

    /// A clock reply at the upper limits.
    const CLOCK: &Value = b"\x12R9GmRz9999959999199250999255K235959999929022024~ \r";

    fn with(reply: &Value, offset: usize, text: &[u8]) -> Vec<u8> {
        let mut bytes = reply.to_vec();
        bytes[offset..offset + text.len()].copy_from_slice(text);
        bytes
    }

    fn read_with(reply: &Value, offset: usize, text: &[u8]) -> Result<Reply, Refusal> {
        Reply::read(&with(reply, offset, text))
    }

    fn timing_with(reply: &Value, offset: usize, text: &[u8]) -> Result<Timing, Refusal> {
        read_with(reply, offset, text).map(|reply| reply.timing)
    }

    fn first() -> Reply {
        Reply {
            address: b' ',
            program: b'S',
            mode: b'O',
            status: b'R',
            requester: b'1',
            number: 7,
            bib: 15,
            group: 0,
            run: 2,
            physical: 0,
            channel: 0,
            information: b'P',
            timing: Timing::Raw,
            raw_time: *b"0000000000",
            raw_date: *b"00000000",
            spare: *b"  ",
        }
    }

    fn second() -> Reply {
        Reply {
            address: b' ',
            program: b'S',
            mode: b'O',
            status: b'E',
            requester: b'A',
            number: 12,
            bib: 41,
            group: 0,
            run: 1,
            physical: 15,
            channel: 255,
            information: b'1',
            timing: Timing::Net(725_400),
            raw_time: [0; 10],
            raw_date: [0; 8],
            spare: *b"  ",
        }
    }

    fn clock() -> Reply {
        Reply {
            address: b'9',
            program: b'G',
            mode: b'm',
            status: b'R',
            requester: b'z',
            number: 99_999,
            bib: 59_999,
            group: 199,
            run: 250,
            physical: 999,
            channel: 255,
            information: b'K',
            timing: Timing::Clock {
                ticks: 863_999_999,
                day: 29,
                month: 2,
                year: 2024,
            },
            raw_time: [0; 10],
            raw_date: [0; 8],
            spare: *b"~ ",
        }
    }

    fn refused(record: Reply) -> Option<usize> {
        let (outcome, value) = record.write_value();
        match outcome {
            Ok(()) => None,
            Err(Refusal::Record(offset)) => {
                assert_eq!(value, [0; 51]);
                Some(offset)
            }
            Err(other) => panic!("{other:?}"),
        }
    }

    #[test]
    fn replies_are_read_and_written_back() {
        for (frame, record) in [(FIRST, first()), (SECOND, second()), (CLOCK, clock())] {
            assert_eq!(Reply::read(frame).as_ref(), Ok(&record));
            assert_eq!(Reply::read_value(*frame).as_ref(), Ok(&record));
            assert_eq!(record.write_value(), (Ok(()), *frame));
            let mut output = [0xee; 53];
            assert_eq!(record.write(&mut output), Ok(()));
            assert_eq!(&output[..51], frame);
            assert_eq!(output[51..], [0xee; 2]);
        }
    }

    #[test]
    fn every_address_is_read_and_written_back() {
        for address in 0..=u8::MAX {
            let mut frame = *FIRST;
            frame[at::ADDRESS] = address;
            let record = Reply { address, ..first() };
            if b" 0123456789".contains(&address) {
                assert_eq!(Reply::read(&frame).as_ref(), Ok(&record));
                assert_eq!(Reply::read_value(frame).as_ref(), Ok(&record));
                assert_eq!(record.write_value(), (Ok(()), frame));
            } else {
                assert_eq!(Reply::read(&frame), Err(Refusal::Address));
                assert_eq!(Reply::read_value(frame), Err(Refusal::Address));
                assert_eq!(refused(record), Some(2));
            }
        }
    }

    #[test]
    fn the_third_reply_of_the_example() {
        let third = with(FIRST, at::STATUS, b"E");
        let expected = Reply {
            status: b'E',
            bib: 22,
            ..first()
        };
        let third = [&third[..at::BIB], b"00022", &third[at::GROUP..]].concat();
        assert_eq!(Reply::read(&third), Ok(expected));
    }

    #[test]
    fn case_1_clock() {
        let last = Reply::read(CLOCK).map(|reply| reply.timing);
        assert!(matches!(
            last,
            Ok(Timing::Clock {
                ticks: 863_999_999,
                ..
            })
        ));
        for reply in [CLOCK, SECOND] {
            let hour_24 = timing_with(reply, at::TIME, b"2400000000");
            assert_eq!(hour_24, Err(Refusal::Field(30, 30)));
        }
    }

    /// Only the fields before the time are fixed, not its own earlier digits: some good time has a 2
    /// at its first place, and some has a 4 at its second. None has a 6 at the tens of minutes.
    #[test]
    fn the_spoiled_byte_of_a_time() {
        for (wrong, spoiled) in [
            (b"2400000000", 30),
            (b"2900000000", 30),
            (b"2461000000", 32),
            (b"3061000000", 30),
            (b"2359600000", 34),
            (b"23595999:9", 38),
        ] {
            for reply in [CLOCK, SECOND] {
                let outcome = read_with(reply, at::TIME, wrong);
                assert_eq!(outcome, Err(Refusal::Field(30, spoiled)));
            }
        }
    }

    #[test]
    fn cases_2_and_3_net() {
        let net = |text| timing_with(SECOND, at::TIME, text);
        assert_eq!(net(b"0001125400+0000000"), Ok(Timing::Net(725_400)));
        assert_eq!(net(b"2359590000-0000001"), Ok(Timing::Net(-1_727_990_000)));
        assert_eq!(net(b"2359590000-0000000"), Ok(Timing::Net(-863_990_000)));
        assert_eq!(net(b"0000000000 0000001"), Err(Refusal::Field(40, 40)));
        assert_eq!(net(b"000000000000000001"), Err(Refusal::Field(40, 40)));
        assert_eq!(net(b"0000000000+00 0001"), Err(Refusal::Field(40, 43)));
    }

    /// A skier one second behind, and both sides of it.
    #[test]
    fn minus_with_no_days_wants_a_time() {
        for letter in *NET_LETTERS {
            for status in *b"RE" {
                let mut reply = *SECOND;
                reply[at::STATUS] = status;
                reply[at::INFORMATION] = letter;
                let net = |text| timing_with(&reply, at::TIME, text);
                assert_eq!(net(b"0000010000-0000000"), Ok(Timing::Net(-10_000)));
                assert_eq!(net(b"0000000001-0000000"), Ok(Timing::Net(-1)));
                assert_eq!(net(b"0000000000-0000000"), Err(Refusal::Field(40, 40)));
                assert_eq!(net(b"0000000000+0000000"), Ok(Timing::Net(0)));
                assert_eq!(net(b"0000000000-0000001"), Ok(Timing::Net(-864_000_000)));
                let lowest = Timing::Net(-8_639_999_999_999_999);
                assert_eq!(net(b"2359599999-9999999"), Ok(lowest));
            }
        }
    }

    /// The same text is no date under a clock letter. Under a raw letter, and with status Z under
    /// any letter, it is not interpreted.
    #[test]
    fn minus_zero_outside_net_replies() {
        for time in [b"0000000000", b"0000000001"] {
            let text = [&time[..], b"-0000000"].concat();
            let under = |status, letter| {
                let mut reply = *SECOND;
                reply[at::STATUS] = status;
                reply[at::INFORMATION] = letter;
                timing_with(&reply, at::TIME, &text)
            };
            for letter in *CLOCK_LETTERS {
                assert_eq!(under(b'R', letter), Err(Refusal::Field(40, 40)));
            }
            assert_eq!(under(b'R', b'P'), Ok(Timing::Raw));
            for letter in *INFORMATION {
                assert_eq!(under(b'Z', letter), Ok(Timing::Raw));
            }
        }
    }

    #[test]
    fn net_values_and_their_writing() {
        for (value, text) in [
            (0, b"0000000000+0000000"),
            (1, b"0000000001+0000000"),
            (-1, b"0000000001-0000000"),
            (-10_000, b"0000010000-0000000"),
            (-863_999_999, b"2359599999-0000000"),
            (-864_000_000, b"0000000000-0000001"),
            (-864_000_001, b"0000000001-0000001"),
            (-1_727_990_000, b"2359590000-0000001"),
            (-8_639_999_136_000_000, b"0000000000-9999999"),
            (-8_639_999_999_999_999, b"2359599999-9999999"),
            (8_639_999_999_999_999, b"2359599999+9999999"),
        ] {
            let timing = Timing::Net(value);
            let record = Reply { timing, ..second() };
            let (outcome, written) = record.write_value();
            assert_eq!(outcome, Ok(()));
            assert_eq!(&written[at::TIME..at::SPARE], text);
            assert_eq!(Reply::read_value(written), Ok(record));
        }
    }

    #[test]
    fn case_4_date() {
        assert!(read_with(CLOCK, at::DATE, b"29022024").is_ok());
        for (wrong, spoiled) in [
            (b"29022023", 40),
            (b"31042024", 40),
            (b"00012024", 40),
            (b"01132024", 40),
            (b"31122100", 45),
            (b"31121999", 44),
            (b"00000000", 44),
            (b"2902202 ", 47),
        ] {
            let outcome = read_with(CLOCK, at::DATE, wrong);
            assert_eq!(outcome, Err(Refusal::Field(40, spoiled)));
        }
    }

    #[test]
    fn case_6_channel() {
        for good in [b"250", b"245", b"249"] {
            assert!(read_with(FIRST, at::CHANNEL, good).is_ok());
        }
        for wrong in [b"241", b"251", b"254", b"256"] {
            let outcome = read_with(FIRST, at::CHANNEL, wrong);
            assert_eq!(outcome, Err(Refusal::Field(26, 26)));
        }
    }

    #[test]
    fn case_7_letter_l() {
        for status in [b"R", b"E", b"Z"] {
            let mut reply = *FIRST;
            reply[at::STATUS] = status[0];
            let outcome = read_with(&reply, at::INFORMATION, b"L");
            assert_eq!(outcome, Err(Refusal::Field(29, 29)));
        }
    }

    #[test]
    fn case_12_bib() {
        assert!(read_with(FIRST, at::BIB, b"59999").is_ok());
        let outcome = read_with(FIRST, at::BIB, b"60000");
        assert_eq!(outcome, Err(Refusal::Field(12, 12)));
    }

    #[test]
    fn information_is_the_request_s_without_eight() {
        let without = b"Lt*lbcdq";
        let left: Vec<u8> = request::INFORMATION
            .iter()
            .copied()
            .filter(|code| !without.contains(code))
            .collect();
        assert_eq!(left, INFORMATION);
    }

    #[test]
    fn there_are_5_clock_3_net_and_25_raw_letters() {
        let letters_of = |kind| {
            INFORMATION
                .iter()
                .filter(|&&code| TimingKind::asked_for(b'E', code) == kind)
                .count()
        };
        assert_eq!(letters_of(TimingKind::Clock), 5);
        assert_eq!(letters_of(TimingKind::Net), 3);
        assert_eq!(letters_of(TimingKind::Raw), 25);
    }

    #[test]
    fn status_z_makes_time_and_date_raw() {
        for letter in INFORMATION {
            let mut reply = *FIRST;
            reply[at::STATUS] = b'Z';
            reply[at::INFORMATION] = *letter;
            let reply = with(&reply, at::TIME, b"not a time no date");
            let record = Reply::read(&reply).expect("a good reply");
            assert_eq!(record.timing, Timing::Raw);
            assert_eq!(&record.raw_time, b"not a time");
            assert_eq!(&record.raw_date, b" no date");
        }
    }

    #[test]
    fn run_0_is_for_status_z_alone() {
        for (status, outcome) in [
            (b'R', Err(Refusal::Field(20, 20))),
            (b'E', Err(Refusal::Field(20, 20))),
            (b'Z', Ok(0)),
        ] {
            let mut reply = *FIRST;
            reply[at::STATUS] = status;
            let run = read_with(&reply, at::RUN, b"000").map(|reply| reply.run);
            assert_eq!(run, outcome);
        }
    }

    #[test]
    fn raw_places() {
        for (place, field) in [(3, 3), (4, 4), (39, 30), (47, 40), (48, 48), (49, 48)] {
            for wrong in [b"\x1f", b"\x7f", b"\x80"] {
                let outcome = read_with(FIRST, place, wrong);
                assert_eq!(outcome, Err(Refusal::Field(field, place)));
            }
        }
    }

    #[test]
    fn refusals_come_in_order() {
        let mut bytes = with(SECOND, at::TIME, b"2400000000-0000000\x1f\x1f");
        assert_eq!(Reply::read(&bytes), Err(Refusal::Field(30, 30)));
        bytes[at::STATUS] = b'X';
        assert_eq!(Reply::read(&bytes), Err(Refusal::Field(5, 5)));
        bytes[2] = b'5';
        assert_eq!(Reply::read(&bytes), Err(Refusal::Field(5, 5)));
        bytes[1] = b'S';
        assert_eq!(Reply::read(&bytes), Err(Refusal::Address));
        bytes[50] = b'\n';
        assert_eq!(Reply::read(&bytes), Err(Refusal::End));
        bytes.pop();
        assert_eq!(Reply::read(&bytes), Err(Refusal::Length));
        bytes[0] = 0x11;
        assert_eq!(Reply::read(&bytes), Err(Refusal::Kind));
        assert_eq!(Reply::read(b""), Err(Refusal::Kind));
    }

    #[test]
    fn a_timing_of_another_kind_is_refused_at_the_time() {
        let timings = [first(), second(), clock()].map(|record| record.timing);
        for (index, record) in [first(), second(), clock()].into_iter().enumerate() {
            for (other, timing) in timings.into_iter().enumerate() {
                let changed = Reply {
                    timing,
                    ..record.clone()
                };
                assert_eq!(refused(changed), (index != other).then_some(30));
            }
            let not_available = Reply {
                status: b'Z',
                ..record
            };
            assert_eq!(refused(not_available), (index != 0).then_some(30));
        }
    }

    #[test]
    fn a_wrong_timing_is_refused_at_its_place() {
        let clock_of = |ticks, day| {
            let timing = Timing::Clock {
                ticks,
                day,
                month: 4,
                year: 2024,
            };
            refused(Reply { timing, ..clock() })
        };
        assert_eq!(clock_of(863_999_999, 30), None);
        assert_eq!(clock_of(864_000_000, 31), Some(30));
        assert_eq!(clock_of(0, 31), Some(40));
        let net_of = |value| {
            let timing = Timing::Net(value);
            refused(Reply { timing, ..second() })
        };
        assert_eq!(net_of(-8_639_999_136_000_000), None);
        assert_eq!(net_of(-8_639_999_136_000_001), None);
        assert_eq!(net_of(-8_639_999_999_999_999), None);
        assert_eq!(net_of(-8_640_000_000_000_000), Some(40));
        assert_eq!(net_of(8_639_999_999_999_999), None);
        assert_eq!(net_of(8_640_000_000_000_000), Some(40));
        let raw_time = *b"000000000\x7f";
        let raw_date = *b"0000000\x1f";
        assert_eq!(
            refused(Reply {
                raw_date,
                ..first()
            }),
            Some(40)
        );
        let both = Reply {
            raw_time,
            raw_date,
            ..first()
        };
        assert_eq!(refused(both), Some(30));
    }

    #[test]
    fn unused_parts_that_are_not_zero_are_refused_last() {
        for record in [second(), clock()] {
            let mut raw_time = [0; 10];
            raw_time[9] = b'0';
            let left_over = Reply {
                raw_time,
                ..record.clone()
            };
            assert_eq!(refused(left_over.clone()), Some(50));
            let raw_date = *b"\x01\0\0\0\0\0\0\0";
            let left_over_date = Reply { raw_date, ..record };
            assert_eq!(refused(left_over_date), Some(50));
            let spare = *b" \x80";
            assert_eq!(refused(Reply { spare, ..left_over }), Some(48));
        }
    }

    #[test]
    fn record_is_tried_before_room() {
        let mut output = [0xee; 50];
        assert_eq!(first().write(&mut output), Err(Refusal::Room));
        let wrong = Reply { run: 0, ..first() };
        assert_eq!(wrong.write(&mut output), Err(Refusal::Record(20)));
        let address = b'!';
        let wrong = Reply { address, ..wrong };
        assert_eq!(wrong.write(&mut output), Err(Refusal::Record(2)));
        assert_eq!(output, [0xee; 50]);
    }
}
