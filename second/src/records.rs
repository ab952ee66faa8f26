//! How `docs/CASES.md` spells the record of each kind of frame.

use crate::dynamic::Dynamic;
use crate::reply::{Reply, Timing};
use crate::request::Request;
use crate::spelling::{bytes_text, parse_bytes, parse_number, parse_value, NotACase};

/// A record that a case or an answer spells as words.
pub trait Spelled: Sized {
    fn text(&self) -> String;

    /// Takes the record's parts in the order they are spelled.
    fn take(words: &mut Words) -> Result<Self, NotACase>;

    /// The record that these words spell. All of them must be used.
    fn parse(words: &[&str]) -> Result<Self, NotACase> {
        let mut words = Words(words);
        let record = Self::take(&mut words)?;
        match words {
            Words([]) => Ok(record),
            _ => Err(NotACase("the record has too many parts")),
        }
    }
}

/// The words of a record that have not been taken yet.
pub struct Words<'a>(&'a [&'a str]);

impl<'a> Words<'a> {
    fn word(&mut self) -> Result<&'a str, NotACase> {
        let (first, rest) = self
            .0
            .split_first()
            .ok_or(NotACase("the record has too few parts"))?;
        self.0 = rest;
        Ok(first)
    }

    fn number<Number: From<u32>>(&mut self) -> Result<Number, NotACase> {
        Ok(parse_number(self.word()?)?.into())
    }

    /// The code of a letter or of an address is a byte.
    fn code(&mut self) -> Result<u8, NotACase> {
        u8::try_from(self.number::<u32>()?).map_err(|_| NotACase("a code is below 256"))
    }

    fn array<const LENGTH: usize>(&mut self) -> Result<[u8; LENGTH], NotACase> {
        parse_array(self.word()?)
    }

    fn timing(&mut self) -> Result<Timing, NotACase> {
        match self.word()? {
            "clock" => Ok(Timing::Clock {
                ticks: self.number()?,
                day: self.number()?,
                month: self.number()?,
                year: self.number()?,
            }),
            "net" => Ok(Timing::Net(parse_value(self.word()?)?)),
            "raw" => Ok(Timing::Raw),
            _ => Err(NotACase("TIMING is clock, net or raw")),
        }
    }
}

/// BYTES, exactly as many as the array holds.
pub fn parse_array<const LENGTH: usize>(word: &str) -> Result<[u8; LENGTH], NotACase> {
    parse_bytes(word)?
        .try_into()
        .map_err(|_| NotACase("too few or too many bytes"))
}

impl Spelled for Request {
    fn text(&self) -> String {
        let Request {
            address,
            requester,
            number,
            bib,
            information,
            channel,
            run,
            group,
            output,
        } = self;
        format!(
            "{address} {requester} {number} {bib} {information} {channel} {run} {group} {output}"
        )
    }

    fn take(words: &mut Words) -> Result<Self, NotACase> {
        Ok(Request {
            address: words.code()?,
            requester: words.code()?,
            number: words.number()?,
            bib: words.number()?,
            information: words.code()?,
            channel: words.number()?,
            run: words.number()?,
            group: words.number()?,
            output: words.code()?,
        })
    }
}

impl Spelled for Reply {
    fn text(&self) -> String {
        let Reply {
            address,
            program,
            mode,
            status,
            requester,
            number,
            bib,
            group,
            run,
            physical,
            channel,
            information,
            timing,
            raw_time,
            raw_date,
            spare,
        } = self;
        let timing = timing_text(*timing);
        let [raw_time, raw_date, spare] = [&raw_time[..], raw_date, spare].map(bytes_text);
        format!(
            "{address} {program} {mode} {status} {requester} {number} {bib} {group} {run} \
             {physical} {channel} {information} {timing} {raw_time} {raw_date} {spare}"
        )
    }

    fn take(words: &mut Words) -> Result<Self, NotACase> {
        Ok(Reply {
            address: words.code()?,
            program: words.code()?,
            mode: words.code()?,
            status: words.code()?,
            requester: words.code()?,
            number: words.number()?,
            bib: words.number()?,
            group: words.number()?,
            run: words.number()?,
            physical: words.number()?,
            channel: words.number()?,
            information: words.code()?,
            timing: words.timing()?,
            raw_time: words.array()?,
            raw_date: words.array()?,
            spare: words.array()?,
        })
    }
}

fn timing_text(timing: Timing) -> String {
    match timing {
        Timing::Clock {
            ticks,
            day,
            month,
            year,
        } => format!("clock {ticks} {day} {month} {year}"),
        Timing::Net(value) => format!("net {value}"),
        Timing::Raw => "raw".to_string(),
    }
}

impl Spelled for Dynamic {
    fn text(&self) -> String {
        let Dynamic {
            address,
            requester,
            order,
            bib,
            channel,
            run,
            stop_bib,
            stop_channel,
            stop_run,
            sign,
            time,
            days,
            period,
            output,
        } = self;
        format!(
            "{address} {requester} {order} {bib} {channel} {run} {stop_bib} {stop_channel} \
             {stop_run} {sign} {time} {days} {period} {output}"
        )
    }

    fn take(words: &mut Words) -> Result<Self, NotACase> {
        Ok(Dynamic {
            address: words.code()?,
            requester: words.code()?,
            order: words.code()?,
            bib: words.number()?,
            channel: words.number()?,
            run: words.number()?,
            stop_bib: words.number()?,
            stop_channel: words.number()?,
            stop_run: words.number()?,
            sign: words.number()?,
            time: words.number()?,
            days: words.number()?,
            period: words.number()?,
            output: words.code()?,
        })
    }
}

#[cfg(test)]
mod tests {
    use super::*;

    fn parse<Record: Spelled>(text: &str) -> Result<Record, NotACase> {
        let words: Vec<&str> = text.split(' ').collect();
        Record::parse(&words)
    }

    fn check_there_and_back<Record: Spelled>(text: &str) {
        let again = parse::<Record>(text).map(|record| record.text());
        assert_eq!(again.as_deref(), Ok(text));
        assert!(parse::<Record>(&format!("{text} 1")).is_err());
        let (shorter, _) = text.rsplit_once(' ').expect("several words");
        assert!(parse::<Record>(shorter).is_err());
    }

    #[test]
    fn records_there_and_back() {
        check_there_and_back::<Request>("1 2 3 4 5 6 7 8 9");
        check_there_and_back::<Dynamic>("1 2 3 4 5 6 7 8 9 10 11 12 13 14");
        for timing in ["clock 12 13 14 15", "net -16", "raw"] {
            check_there_and_back::<Reply>(&format!(
                "1 2 3 4 5 6 7 8 9 10 11 12 {timing} 00010203040506070809 1011121314151617 2021"
            ));
        }
    }

    #[test]
    fn an_address_is_a_byte() {
        for (address, good) in [("0", true), ("32", true), ("255", true), ("256", false)] {
            let request = parse::<Request>(&format!("{address} 2 3 4 5 6 7 8 9"));
            assert_eq!(request.is_ok(), good, "{address}");
            let dynamic = parse::<Dynamic>(&format!("{address} 2 3 4 5 6 7 8 9 10 11 12 13 14"));
            assert_eq!(dynamic.is_ok(), good, "{address}");
            let reply = parse::<Reply>(&format!(
                "{address} 2 3 4 5 6 7 8 9 10 11 12 raw 00000000000000000000 0000000000000000 0000"
            ));
            assert_eq!(reply.is_ok(), good, "{address}");
        }
    }

    #[test]
    fn words_that_spell_no_reply() {
        for end in [
            "raw 00 0000000000000000 0000",
            "raw 00000000000000000000 0000000000000000 -",
            "raw 0 00000000000000000000 0000000000000000 0000",
            "net 00000000000000000000 0000000000000000 0000",
            "net 1 1 00000000000000000000 0000000000000000 0000",
            "clock 1 1 1 00000000000000000000 0000000000000000 0000",
            "clock 4294967296 1 1 1 00000000000000000000 0000000000000000 0000",
            "clock -1 1 1 1 00000000000000000000 0000000000000000 0000",
            "other 00000000000000000000 0000000000000000 0000",
        ] {
            let text = format!("1 2 3 4 5 6 7 8 9 10 11 12 {end}");
            assert!(parse::<Reply>(&text).is_err(), "{text}");
        }
    }
}
