//! The dynamic request: 46 bytes, lead byte DC3.

mod shown;

use crate::digits;
use crate::frame::{self, is_address, is_output, is_requester, Kind, WrongAt};
use crate::shown::Shown;
use crate::times;

/// The offset at which each field begins.
pub mod at {
    pub use crate::frame::ADDRESS;
    pub const REQUESTER: usize = 3;
    pub const ORDER: usize = 4;
    pub const BIB: usize = 5;
    pub const CHANNEL: usize = 10;
    pub const RUN: usize = 13;
    pub const STOP_BIB: usize = 16;
    pub const STOP_CHANNEL: usize = 21;
    pub const STOP_RUN: usize = 24;
    pub const SIGN: usize = 27;
    pub const TIME: usize = 28;
    pub const DAYS: usize = 38;
    pub const PERIOD: usize = 39;
    pub const OUTPUT: usize = 44;
}

/// How many digits each number has.
mod width {
    pub const BIB: usize = 5;
    pub const CHANNEL: usize = 3;
    pub const RUN: usize = 3;
    pub const SIGN: usize = 1;
    pub const DAYS: usize = 1;
    pub const PERIOD: usize = 5;
}

pub const ORDERS: &[u8; 6] = b"ABabTt";

/// A dynamic request. The sign (0 plus, 1 minus) is a separate part, so minus zero keeps its sign.
/// The numbers are wide, so that a record that is not well formed can be held too.
#[derive(Clone, Debug, PartialEq, Eq)]
pub struct Dynamic {
    pub address: u8,
    pub requester: u8,
    pub order: u8,
    pub bib: u64,
    pub channel: u64,
    pub run: u64,
    pub stop_bib: u64,
    pub stop_channel: u64,
    pub stop_run: u64,
    pub sign: u64,
    pub time: i128,
    pub days: u64,
    pub period: u64,
    pub output: u8,
}

impl Kind for Dynamic {
    const LEAD: u8 = 0x13;
    const LENGTH: usize = 46;

    fn read_fields(address: u8, frame: &[u8]) -> Result<Self, WrongAt> {
        let requester = frame::letter(frame, at::REQUESTER, is_requester)?;
        let order = frame::letter(frame, at::ORDER, is_order)?;
        let bib = frame::number(frame, at::BIB, width::BIB, is_bib)?;
        let channel = frame::number(frame, at::CHANNEL, width::CHANNEL, is_channel)?;
        let run = frame::number(frame, at::RUN, width::RUN, is_run)?;
        let stop_bib = frame::number(frame, at::STOP_BIB, width::BIB, is_stop_bib)?;
        let stop_channel = frame::number(frame, at::STOP_CHANNEL, width::CHANNEL, is_channel)?;
        let stop_run = frame::number(frame, at::STOP_RUN, width::RUN, is_run)?;
        let sign = frame::number(frame, at::SIGN, width::SIGN, is_sign)?;
        let time = frame::time(frame, at::TIME)?;
        let days = frame::number(frame, at::DAYS, width::DAYS, is_days)?;
        let period = frame::number(frame, at::PERIOD, width::PERIOD, |period| {
            is_period(period, order)
        })?;
        let output = frame::letter(frame, at::OUTPUT, is_output)?;
        Ok(Dynamic {
            address,
            requester,
            order,
            bib,
            channel,
            run,
            stop_bib,
            stop_channel,
            stop_run,
            sign,
            time,
            days,
            period,
            output,
        })
    }

    fn shown(frame: &[u8], offset: usize) -> &'static Shown {
        shown::of_field(frame, offset)
    }

    fn first_wrong_field(&self) -> Option<usize> {
        frame::first_wrong(&[
            (at::ADDRESS, is_address(self.address)),
            (at::REQUESTER, is_requester(self.requester)),
            (at::ORDER, is_order(self.order)),
            (at::BIB, is_bib(self.bib)),
            (at::CHANNEL, is_channel(self.channel)),
            (at::RUN, is_run(self.run)),
            (at::STOP_BIB, is_stop_bib(self.stop_bib)),
            (at::STOP_CHANNEL, is_channel(self.stop_channel)),
            (at::STOP_RUN, is_run(self.stop_run)),
            (at::SIGN, is_sign(self.sign)),
            (at::TIME, times::is_time(self.time)),
            (at::DAYS, is_days(self.days)),
            (at::PERIOD, is_period(self.period, self.order)),
            (at::OUTPUT, is_output(self.output)),
        ])
    }

    fn fields(&self) -> Vec<u8> {
        let mut fields = vec![self.address, self.requester, self.order];
        fields.extend(digits::write(self.bib, width::BIB));
        fields.extend(digits::write(self.channel, width::CHANNEL));
        fields.extend(digits::write(self.run, width::RUN));
        fields.extend(digits::write(self.stop_bib, width::BIB));
        fields.extend(digits::write(self.stop_channel, width::CHANNEL));
        fields.extend(digits::write(self.stop_run, width::RUN));
        fields.extend(digits::write(self.sign, width::SIGN));
        fields.extend(times::clock_text(self.time).expect("the record is well formed"));
        fields.extend(digits::write(self.days, width::DAYS));
        fields.extend(digits::write(self.period, width::PERIOD));
        fields.push(self.output);
        fields
    }
}

fn is_order(code: u8) -> bool {
    ORDERS.contains(&code)
}

/// The highest bib is one more than in the two static kinds.
fn is_bib(value: u64) -> bool {
    value <= 60_000
}

fn is_stop_bib(value: u64) -> bool {
    matches!(value, 1..=60_000)
}

/// The channels of both channel fields.
fn is_channel(value: u64) -> bool {
    matches!(value, 0..=240 | 250 | 255)
}

fn is_run(value: u64) -> bool {
    value <= 250
}

fn is_sign(value: u64) -> bool {
    value <= 1
}

fn is_days(value: u64) -> bool {
    value <= 9
}

/// Orders A and B require a period.
fn is_period(value: u64, order: u8) -> bool {
    matches!(value, 1..=99_999) || (value == 0 && !matches!(order, b'A' | b'B'))
}

#[cfg(test)]
mod tests {
    use super::*;
    use crate::refusal::Refusal;

    const PLUS: &[u8; 46] = b"\x13R 1a000150000020004125500301234567898200100S\r";
    const MINUS_ZERO: &[u8; 46] = b"\x13R4zA600002502506000024000010000000000000001T\r";

    fn with(offset: usize, text: &[u8]) -> Vec<u8> {
        let mut bytes = PLUS.to_vec();
        bytes[offset..offset + text.len()].copy_from_slice(text);
        bytes
    }

    fn check(offset: usize, text: &[u8], good: bool) {
        // None of the wrong texts has a spoiled byte after the first.
        check_spoiled(offset, text, (!good).then_some(offset));
    }

    fn check_spoiled(offset: usize, text: &[u8], spoiled: Option<usize>) {
        let outcome = Dynamic::read(&with(offset, text)).map(|_| ());
        let expected = match spoiled {
            None => Ok(()),
            Some(spoiled) => Err(Refusal::Field(offset, spoiled)),
        };
        assert_eq!(outcome, expected, "{} at {offset}", text.escape_ascii());
    }

    fn plus() -> Dynamic {
        Dynamic {
            address: b' ',
            requester: b'1',
            order: b'a',
            bib: 15,
            channel: 0,
            run: 2,
            stop_bib: 41,
            stop_channel: 255,
            stop_run: 3,
            sign: 0,
            time: 452_967_898,
            days: 2,
            period: 100,
            output: b'S',
        }
    }

    fn minus_zero() -> Dynamic {
        Dynamic {
            address: b'4',
            requester: b'z',
            order: b'A',
            bib: 60_000,
            channel: 250,
            run: 250,
            stop_bib: 60_000,
            stop_channel: 240,
            stop_run: 0,
            sign: 1,
            time: 0,
            days: 0,
            period: 1,
            output: b'T',
        }
    }

    #[test]
    fn requests_are_read_and_written_back() {
        for (frame, record) in [(PLUS, plus()), (MINUS_ZERO, minus_zero())] {
            assert_eq!(Dynamic::read(frame).as_ref(), Ok(&record));
            let mut output = [0xee; 48];
            assert_eq!(record.write(&mut output), Ok(()));
            assert_eq!(&output[..46], frame);
            assert_eq!(output[46..], [0xee; 2]);
        }
    }

    #[test]
    fn every_address_is_read_and_written_back() {
        for address in 0..=u8::MAX {
            let frame = with(at::ADDRESS, &[address]);
            let record = Dynamic { address, ..plus() };
            let mut output = [0xee; 46];
            if b" 0123456789".contains(&address) {
                assert_eq!(Dynamic::read(&frame).as_ref(), Ok(&record));
                assert_eq!(record.write(&mut output), Ok(()));
                assert_eq!(output, frame[..]);
            } else {
                assert_eq!(Dynamic::read(&frame), Err(Refusal::Address));
                assert_eq!(record.write(&mut output), Err(Refusal::Record(2)));
                assert_eq!(output, [0xee; 46]);
            }
        }
    }

    #[test]
    fn case_1_time() {
        let last = Dynamic::read(&with(at::TIME, b"2359599999"));
        assert_eq!(last.map(|record| record.time), Ok(863_999_999));
        for (wrong, spoiled) in [
            (b"2400000000", 28),
            (b"0060000000", 30),
            (b"0000600000", 32),
            (b"000000000 ", 37),
        ] {
            check_spoiled(28, wrong, Some(spoiled));
        }
    }

    #[test]
    fn case_6_channels() {
        for offset in [10, 21] {
            for good in [b"000", b"240", b"250", b"255"] {
                check(offset, good, true);
            }
            for wrong in [b"241", b"245", b"248", b"249", b"251", b"254", b"256"] {
                check(offset, wrong, false);
            }
        }
    }

    #[test]
    fn case_8_period() {
        for order in ORDERS {
            let mut bytes = with(at::PERIOD, b"00000");
            bytes[at::ORDER] = *order;
            let outcome = Dynamic::read(&bytes).map(|record| record.period);
            let expected = match order {
                b'A' | b'B' => Err(Refusal::Field(39, 39)),
                _ => Ok(0),
            };
            assert_eq!(outcome, expected);
        }
    }

    #[test]
    fn case_12_bib() {
        check(5, b"00000", true);
        check(5, b"60000", true);
        check(5, b"60001", false);
        check(16, b"00000", false);
        check(16, b"00001", true);
        check(16, b"60000", true);
        check(16, b"60001", false);
    }

    #[test]
    fn letters_sign_and_days() {
        for code in 0..=u8::MAX {
            check(4, &[code], b"ABabTt".contains(&code));
            check(27, &[code], b"01".contains(&code));
            check(38, &[code], code.is_ascii_digit());
            check(44, &[code], b"SABT".contains(&code));
        }
    }

    #[test]
    fn runs() {
        for offset in [13, 24] {
            check(offset, b"250", true);
            check(offset, b"251", false);
        }
    }

    #[test]
    fn refusals_come_in_order() {
        let mut bytes = with(at::SIGN, b"22400000000 ");
        assert_eq!(Dynamic::read(&bytes), Err(Refusal::Field(27, 27)));
        bytes[2] = b'9';
        assert_eq!(Dynamic::read(&bytes), Err(Refusal::Field(27, 27)));
        bytes[2] = b':';
        assert_eq!(Dynamic::read(&bytes), Err(Refusal::Address));
        bytes[45] = 0;
        assert_eq!(Dynamic::read(&bytes), Err(Refusal::End));
        bytes.push(b'\r');
        assert_eq!(Dynamic::read(&bytes), Err(Refusal::Length));
        bytes[0] = 0x11;
        assert_eq!(Dynamic::read(&bytes), Err(Refusal::Kind));
        assert_eq!(Dynamic::read(b""), Err(Refusal::Kind));
    }

    #[test]
    fn a_record_that_is_not_well_formed() {
        let wrong_from_the_address_on = Dynamic {
            address: b'-',
            requester: b'[',
            ..plus()
        };
        let wrong_from_the_sign_on = Dynamic {
            sign: 2,
            time: 864_000_000,
            days: 10,
            ..plus()
        };
        let wrong_from_the_time_on = Dynamic {
            sign: 1,
            ..wrong_from_the_sign_on
        };
        let wrong_days = Dynamic {
            time: 863_999_999,
            ..wrong_from_the_time_on
        };
        let no_period = Dynamic {
            order: b'B',
            period: 0,
            ..plus()
        };
        for (record, offset) in [
            (wrong_from_the_address_on, 2),
            (wrong_from_the_sign_on, 27),
            (wrong_from_the_time_on, 28),
            (wrong_days, 38),
            (no_period, 39),
        ] {
            let mut output = [0xee; 45];
            assert_eq!(record.write(&mut output), Err(Refusal::Record(offset)));
            assert_eq!(output, [0xee; 45]);
        }
        assert_eq!(plus().write(&mut [0; 45]), Err(Refusal::Room));
    }
}
