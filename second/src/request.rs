//! The static request: 24 bytes, lead byte DC1.

mod shown;

use crate::digits;
use crate::frame::{self, is_address, is_output, is_requester, Kind, WrongAt};
use crate::shown::Shown;

/// The offset at which each field begins.
pub mod at {
    pub use crate::frame::ADDRESS;
    pub const REQUESTER: usize = 3;
    pub const NUMBER: usize = 4;
    pub const BIB: usize = 7;
    pub const INFORMATION: usize = 12;
    pub const CHANNEL: usize = 13;
    pub const RUN: usize = 16;
    pub const GROUP: usize = 19;
    pub const OUTPUT: usize = 22;
}

/// How many digits each number has.
mod width {
    pub const NUMBER: usize = 3;
    pub const BIB: usize = 5;
    pub const CHANNEL: usize = 3;
    pub const RUN: usize = 3;
    pub const GROUP: usize = 3;
}

/// The 41 information letters, in the order the scope paper lists them.
pub const INFORMATION: &[u8; 41] = b"0123456789AQPaSsTKLtR*GHhIiJjpkugWwXlbcdq";

/// The information letter of a request that no answer is due to.
pub const NO_ANSWER_DUE: u8 = b'q';

/// A static request. The numbers are wider than their fields, so that a record that is not well
/// formed can be held too. Its wrong values are found when it is written.
#[derive(Clone, Debug, PartialEq, Eq)]
pub struct Request {
    pub address: u8,
    pub requester: u8,
    pub number: u64,
    pub bib: u64,
    pub information: u8,
    pub channel: u64,
    pub run: u64,
    pub group: u64,
    pub output: u8,
}

impl Kind for Request {
    const LEAD: u8 = 0x11;
    const LENGTH: usize = 24;

    fn read_fields(address: u8, frame: &[u8]) -> Result<Self, WrongAt> {
        let requester = frame::letter(frame, at::REQUESTER, is_requester)?;
        let number = frame::number(frame, at::NUMBER, width::NUMBER, is_number)?;
        let bib = frame::number(frame, at::BIB, width::BIB, is_bib)?;
        let information = frame::letter(frame, at::INFORMATION, is_information)?;
        let channel = frame::number(frame, at::CHANNEL, width::CHANNEL, is_channel)?;
        let run = frame::number(frame, at::RUN, width::RUN, is_run)?;
        let group = frame::number(frame, at::GROUP, width::GROUP, is_group)?;
        let output = frame::letter(frame, at::OUTPUT, is_output)?;
        Ok(Request {
            address,
            requester,
            number,
            bib,
            information,
            channel,
            run,
            group,
            output,
        })
    }

    fn shown(frame: &[u8], offset: usize) -> &'static Shown {
        shown::of_field(frame, offset)
    }

    fn first_wrong_field(&self) -> Option<usize> {
        frame::first_wrong(&[
            (at::ADDRESS, is_address(self.address)),
            (at::REQUESTER, is_requester(self.requester)),
            (at::NUMBER, is_number(self.number)),
            (at::BIB, is_bib(self.bib)),
            (at::INFORMATION, is_information(self.information)),
            (at::CHANNEL, is_channel(self.channel)),
            (at::RUN, is_run(self.run)),
            (at::GROUP, is_group(self.group)),
            (at::OUTPUT, is_output(self.output)),
        ])
    }

    fn fields(&self) -> Vec<u8> {
        let mut fields = vec![self.address, self.requester];
        fields.extend(digits::write(self.number, width::NUMBER));
        fields.extend(digits::write(self.bib, width::BIB));
        fields.push(self.information);
        fields.extend(digits::write(self.channel, width::CHANNEL));
        fields.extend(digits::write(self.run, width::RUN));
        fields.extend(digits::write(self.group, width::GROUP));
        fields.push(self.output);
        fields
    }
}

pub fn is_number(value: u64) -> bool {
    value <= 999
}

/// A static request's bib is at most 59999. Only the dynamic request has 60000.
fn is_bib(value: u64) -> bool {
    value <= 59_999
}

fn is_information(code: u8) -> bool {
    INFORMATION.contains(&code)
}

/// A request's channels. 250 is not among them, although a reply can have it.
fn is_channel(value: u64) -> bool {
    matches!(value, 0..=240 | 248 | 249 | 251 | 255)
}

fn is_run(value: u64) -> bool {
    value <= 250
}

fn is_group(value: u64) -> bool {
    value <= 199
}

#[cfg(test)]
mod tests {
    use super::*;
    use crate::refusal::Refusal;

    /// The two requests of the scope paper's example.
    const FIRST: &[u8; 24] = b"\x11R 100700000P000002000S\r";
    const SECOND: &[u8; 24] = b"\x11R A012000411255001000S\r";

    fn with(offset: usize, text: &[u8]) -> Vec<u8> {
        let mut bytes = FIRST.to_vec();
        bytes[offset..offset + text.len()].copy_from_slice(text);
        bytes
    }

    fn first() -> Request {
        Request {
            address: b' ',
            requester: b'1',
            number: 7,
            bib: 0,
            information: b'P',
            channel: 0,
            run: 2,
            group: 0,
            output: b'S',
        }
    }

    #[test]
    fn example_requests() {
        assert_eq!(Request::read(FIRST), Ok(first()));
        let second = Request {
            address: b' ',
            requester: b'A',
            number: 12,
            bib: 41,
            information: b'1',
            channel: 255,
            run: 1,
            group: 0,
            output: b'S',
        };
        assert_eq!(Request::read(SECOND), Ok(second));
    }

    #[test]
    fn case_5_run() {
        assert!(Request::read(&with(at::RUN, b"250")).is_ok());
        assert_eq!(
            Request::read(&with(at::RUN, b"251")),
            Err(Refusal::Field(16, 16))
        );
    }

    #[test]
    fn case_6_channel() {
        assert_eq!(
            Request::read(&with(at::CHANNEL, b"250")),
            Err(Refusal::Field(13, 13))
        );
    }

    #[test]
    fn case_7_letter_l() {
        assert!(Request::read(&with(at::INFORMATION, b"L")).is_ok());
    }

    #[test]
    fn case_9_empty_and_dc1_alone() {
        assert_eq!(Request::read(b""), Err(Refusal::Kind));
        assert_eq!(Request::read(b"\x11"), Err(Refusal::Length));
    }

    #[test]
    fn case_10_requester() {
        assert_eq!(
            Request::read(&with(at::REQUESTER, b"[")),
            Err(Refusal::Field(3, 3))
        );
    }

    #[test]
    fn a_wrong_digit_names_the_field_and_the_byte() {
        assert_eq!(Request::read(&with(11, b"x")), Err(Refusal::Field(7, 11)));
        assert_eq!(Request::read(&with(18, b"/")), Err(Refusal::Field(16, 18)));
    }

    #[test]
    fn digits_that_are_wrong_only_together_name_the_field_alone() {
        for wrong in [b"251", b"260", b"299"] {
            let outcome = Request::read(&with(at::RUN, wrong));
            assert_eq!(outcome, Err(Refusal::Field(16, 16)));
        }
    }

    #[test]
    fn information_letters_are_41_and_differ() {
        let good = (0..=u8::MAX).filter(|&code| is_information(code)).count();
        assert_eq!(good, 41);
    }

    #[test]
    fn refusals_come_in_order() {
        let mut bytes = with(at::REQUESTER, b"[");
        assert_eq!(Request::read(&bytes), Err(Refusal::Field(3, 3)));
        bytes[2] = b'0';
        assert_eq!(Request::read(&bytes), Err(Refusal::Field(3, 3)));
        bytes[2] = b'-';
        assert_eq!(Request::read(&bytes), Err(Refusal::Address));
        bytes[23] = b'\n';
        assert_eq!(Request::read(&bytes), Err(Refusal::End));
        bytes.push(b'\r');
        assert_eq!(Request::read(&bytes), Err(Refusal::Length));
        bytes[0] = 0x13;
        assert_eq!(Request::read(&bytes), Err(Refusal::Kind));
    }

    #[test]
    fn every_address_is_read_and_written_back() {
        for address in 0..=u8::MAX {
            let frame = with(at::ADDRESS, &[address]);
            let record = Request { address, ..first() };
            let mut output = [0xee; 24];
            if b" 0123456789".contains(&address) {
                assert_eq!(Request::read(&frame).as_ref(), Ok(&record));
                assert_eq!(record.write(&mut output), Ok(()));
                assert_eq!(output, frame[..]);
            } else {
                assert_eq!(Request::read(&frame), Err(Refusal::Address));
                assert_eq!(record.write(&mut output), Err(Refusal::Record(2)));
                assert_eq!(output, [0xee; 24]);
            }
        }
    }

    #[test]
    fn a_wrong_address_is_the_first_wrong_part() {
        let wrong = Request {
            address: b'/',
            requester: b'[',
            ..first()
        };
        assert_eq!(wrong.write(&mut []), Err(Refusal::Record(2)));
        let wrong = Request {
            address: b'9',
            ..wrong
        };
        assert_eq!(wrong.write(&mut []), Err(Refusal::Record(3)));
    }

    #[test]
    fn a_written_frame_takes_the_first_bytes_alone() {
        let mut output = [0xee; 30];
        assert_eq!(first().write(&mut output), Ok(()));
        assert_eq!(&output[..24], FIRST);
        assert_eq!(output[24..], [0xee; 6]);
    }

    #[test]
    fn a_refused_write_leaves_the_output() {
        let mut output = [0xee; 23];
        assert_eq!(first().write(&mut output), Err(Refusal::Room));
        let wrong = Request {
            bib: 60_000,
            run: 251,
            ..first()
        };
        assert_eq!(wrong.write(&mut output), Err(Refusal::Record(7)));
        assert_eq!(output, [0xee; 23]);
    }
}
