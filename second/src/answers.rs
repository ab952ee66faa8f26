//! Reads a file of cases and answers it, case by case.

mod captures;
mod mixes;
mod scripts;

use crate::desk::Desk;
use crate::digits;
use crate::dynamic::Dynamic;
use crate::frame::Kind;
use crate::records::{parse_array, Spelled};
use crate::refusal::Refusal;
use crate::reply::Reply;
use crate::request::Request;
use crate::spelling::{
    bytes_text, parse_bytes, parse_number, parse_place, parse_ticks, parse_value, NotACase,
    MOST_BYTES,
};
use crate::times::{self, Net, Running};

/// What every byte of an output holds before a frame is written to it.
const UNTOUCHED: u8 = 0xee;

/// The answer when nothing was refused.
const DONE: &str = "0 0 0";

/// The answer when something cannot be read.
const WRONG: &str = "wrong";

/// The answers to a whole file. If a line is not a case, the result is a complaint that names the
/// first such line, and there are no answers at all. This way part of a file's answers is never
/// taken for all of them.
pub fn file(input: &[u8]) -> Result<String, String> {
    let mut text = String::new();
    for answer_line in by_case(input)?.iter().flatten() {
        text.push_str(answer_line);
        text.push('\n');
    }
    Ok(text)
}

/// The same answers by case: for each case the lines that answer it, without their LF.
pub fn by_case(input: &[u8]) -> Result<Vec<Vec<String>>, String> {
    let mut session = Session::default();
    let lines = input.split_inclusive(|&code| code == b'\n');
    lines
        .enumerate()
        .map(|(index, line)| {
            case_of_line(line)
                .and_then(|case| session.answer(case))
                .map_err(|NotACase(reason)| {
                    let shown = line.strip_suffix(b"\n").unwrap_or(line).escape_ascii();
                    format!("line {} is not a case ({reason}): {shown}", index + 1)
                })
        })
        .collect()
}

fn case_of_line(line: &[u8]) -> Result<&str, NotACase> {
    let case = line
        .strip_suffix(b"\n")
        .ok_or(NotACase("the line is not ended by LF"))?;
    std::str::from_utf8(case).map_err(|_| NotACase("the line is not text"))
}

/// What lasts from line to line: the desk of the scripts. At first nothing is lent to it.
#[derive(Default)]
struct Session {
    desk: Desk,
}

impl Session {
    /// The lines that answer one case.
    fn answer(&mut self, case: &str) -> Result<Vec<String>, NotACase> {
        let words: Vec<&str> = case.split(' ').collect();
        match scripts::answer(&mut self.desk, &words) {
            Some(answer) => answer,
            None => answer_by_itself(&words),
        }
    }
}

/// The lines that answer a case that does not depend on the cases before it.
fn answer_by_itself(words: &[&str]) -> Result<Vec<String>, NotACase> {
    match words {
        ["number", place, width, text] => number(place, width, text).map(one_line),
        ["digits", width, value] => digits_text(width, value).map(one_line),
        ["clock", place, text] => clock(place, text).map(one_line),
        ["clock-text", ticks] => clock_text(ticks).map(one_line),
        ["day", day, month, year] => real_day(day, month, year).map(one_line),
        ["net", minus, days, time] => net(minus, days, time).map(one_line),
        ["net-parts", value] => net_parts(value).map(one_line),
        ["running", arguments @ ..] => running(arguments).map(one_line),
        ["read-request", frame] => read::<Request>(frame).map(one_line),
        ["write-request", room, record @ ..] => write::<Request>(room, record).map(one_line),
        ["damage-request", frame] => damage::<Request>(frame),
        ["read-reply", frame] => read::<Reply>(frame).map(one_line),
        ["write-reply", room, record @ ..] => write::<Reply>(room, record).map(one_line),
        ["damage-reply", frame] => damage::<Reply>(frame),
        ["read-reply-value", value] => read_reply_value(value).map(one_line),
        ["write-reply-value", record @ ..] => write_reply_value(record).map(one_line),
        ["read-dynamic", frame] => read::<Dynamic>(frame).map(one_line),
        ["write-dynamic", room, record @ ..] => write::<Dynamic>(room, record).map(one_line),
        ["damage-dynamic", frame] => damage::<Dynamic>(frame),
        ["find", capture] => captures::find(capture).map(one_line),
        ["find-from", place, capture] => captures::find_from(place, capture).map(one_line),
        _ => Err(NotACase("no such case with so many arguments")),
    }
}

fn one_line(line: String) -> Vec<String> {
    vec![line]
}

fn number(place: &str, width: &str, text: &str) -> Result<String, NotACase> {
    let place = parse_place(place)?;
    let width = parse_width(width)?;
    let text = parse_bytes(text)?;
    Ok(value_or_wrong(digits::read(&text, place, width)))
}

fn digits_text(width: &str, value: &str) -> Result<String, NotACase> {
    let digits = value.len();
    let width = parse_width(width)?;
    let value = parse_number(value)?;
    if digits > width {
        return Err(NotACase("N has more digits than WIDTH"));
    }
    Ok(bytes_text(&digits::write(u64::from(value), width)))
}

fn clock(place: &str, text: &str) -> Result<String, NotACase> {
    let place = parse_place(place)?;
    let text = parse_bytes(text)?;
    Ok(value_or_wrong(times::read_clock(&text, place)))
}

fn clock_text(ticks: &str) -> Result<String, NotACase> {
    let text = times::clock_text(parse_ticks(ticks)?);
    let text = text.ok_or(NotACase("TICKS are 0 to 863999999"))?;
    Ok(bytes_text(&text))
}

fn real_day(day: &str, month: &str, year: &str) -> Result<String, NotACase> {
    let day = parse_number(day)?.into();
    let month = parse_number(month)?.into();
    let year = parse_number(year)?.into();
    Ok(u8::from(times::is_real_day(day, month, year)).to_string())
}

fn net(minus: &str, days: &str, time: &str) -> Result<String, NotACase> {
    let net = Net {
        minus: parse_minus(minus)?,
        days: parse_number(days)?.into(),
        time: parse_number(time)?.into(),
    };
    Ok(value_or_wrong(times::net_value(net)))
}

fn net_parts(value: &str) -> Result<String, NotACase> {
    let parts = times::net_parts(parse_value(value)?);
    let text = parts.map(|Net { minus, days, time }| format!("{} {days} {time}", u8::from(minus)));
    Ok(value_or_wrong(text))
}

fn running(arguments: &[&str]) -> Result<String, NotACase> {
    let &[bib, now, event, sign, days, time] = arguments else {
        return Err(NotACase("running has six arguments"));
    };
    let running = Running {
        bib: parse_number(bib)?.into(),
        now: parse_number(now)?.into(),
        event: parse_number(event)?.into(),
        sign: parse_number(sign)?.into(),
        days: parse_number(days)?.into(),
        time: parse_number(time)?.into(),
    };
    Ok(match times::running_time(running) {
        Some(ticks) => format!("{DONE} {ticks}"),
        None => "8 0 0 0".to_string(),
    })
}

fn read<Record: Kind + Spelled>(frame: &str) -> Result<String, NotACase> {
    let frame = parse_bytes(frame)?;
    Ok(reading_text(Record::read(&frame)))
}

fn read_reply_value(value: &str) -> Result<String, NotACase> {
    let value = parse_array(value)?;
    Ok(reading_text(Reply::read_value(value)))
}

fn write<Record: Kind + Spelled>(room: &str, record: &[&str]) -> Result<String, NotACase> {
    let mut output = vec![UNTOUCHED; parse_room(room)?];
    let outcome = Record::parse(record)?.write(&mut output);
    Ok(writing_text(outcome, &output))
}

fn write_reply_value(record: &[&str]) -> Result<String, NotACase> {
    let (outcome, value) = Reply::parse(record)?.write_value();
    Ok(writing_text(outcome, &value))
}

fn damage<Record: Kind>(frame: &str) -> Result<Vec<String>, NotACase> {
    let frame = parse_bytes(frame)?;
    let lines = (0..frame.len())
        .map(|place| damage_line(&frame, place, read_and_write_again::<Record>))
        .collect();
    Ok(lines)
}

/// Number, offset and offset of the spoiled byte, as a damage answer has them.
type Damage = (u8, usize, usize);

/// If the frame is refused, the damage answer is that of the refusal. An accepted frame is written
/// again to as many bytes: `0.0.0` if that returns its own bytes, `0.1.0` if not.
fn read_and_write_again<Record: Kind>(frame: &[u8]) -> Damage {
    match Record::read(frame) {
        Err(refusal) => (refusal.number(), refusal.offset(), refusal.spoiled()),
        Ok(record) => {
            let mut again = vec![UNTOUCHED; frame.len()];
            let same = record.write(&mut again).is_ok() && again == frame;
            (0, usize::from(!same), 0)
        }
    }
}

/// The line of one place. Each of the 256 values is put there, including the unchanged one.
/// Neighbouring values with the same answer are counted together.
fn damage_line(frame: &[u8], place: usize, outcome: fn(&[u8]) -> Damage) -> String {
    let mut damaged = frame.to_vec();
    let answers = (0..=u8::MAX).map(|value| {
        damaged[place] = value;
        outcome(&damaged)
    });
    let runs: String = runs(answers)
        .into_iter()
        .map(|(count, (number, offset, spoiled))| format!(" {count}*{number}.{offset}.{spoiled}"))
        .collect();
    format!("{place}{runs}")
}

/// Each run of neighbours that are the same, with its length.
fn runs<Item: PartialEq>(items: impl Iterator<Item = Item>) -> Vec<(usize, Item)> {
    let mut runs: Vec<(usize, Item)> = Vec::new();
    for item in items {
        match runs.last_mut() {
            Some((count, last)) if *last == item => *count += 1,
            _ => runs.push((1, item)),
        }
    }
    runs
}

fn value_or_wrong(value: Option<impl ToString>) -> String {
    value.map_or_else(|| WRONG.to_string(), |value| value.to_string())
}

fn refusal_text(refusal: Refusal) -> String {
    let (number, offset, spoiled) = (refusal.number(), refusal.offset(), refusal.spoiled());
    format!("{number} {offset} {spoiled}")
}

fn reading_text<Record: Spelled>(outcome: Result<Record, Refusal>) -> String {
    match outcome {
        Ok(record) => format!("{DONE} {}", record.text()),
        Err(refusal) => refusal_text(refusal),
    }
}

/// The outcome and the whole output after the call.
fn writing_text(outcome: Result<(), Refusal>, output: &[u8]) -> String {
    let outcome = match outcome {
        Ok(()) => DONE.to_string(),
        Err(refusal) => refusal_text(refusal),
    };
    format!("{outcome} {}", bytes_text(output))
}

fn parse_width(word: &str) -> Result<usize, NotACase> {
    parse_place(word)
        .ok()
        .filter(|width| (1..=digits::WIDEST).contains(width))
        .ok_or(NotACase("WIDTH is 1 to 10"))
}

fn parse_room(word: &str) -> Result<usize, NotACase> {
    parse_place(word)
        .ok()
        .filter(|&room| room <= MOST_BYTES)
        .ok_or(NotACase("ROOM is at most 100"))
}

fn parse_minus(word: &str) -> Result<bool, NotACase> {
    match word {
        "0" => Ok(false),
        "1" => Ok(true),
        _ => Err(NotACase("MINUS is 0 or 1")),
    }
}

#[cfg(test)]
mod tests {
    use super::*;

    /// The example's first request.
    const FIRST: &str = "11522031303037303030303050303030303032303030530d";

    fn check(case: &str, expected: &str) {
        let answers = file(format!("{case}\n").as_bytes());
        assert_eq!(answers, Ok(format!("{expected}\n")), "{case}");
    }

    #[test]
    fn one_of_each_kind() {
        check("number 1 3 7830303779", "7");
        check("number 1 5 7830303779", "wrong");
        check("digits 3 7", "303037");
        check("clock 0 32333539353939393939", "863999999");
        check("clock 0 32343030303030303030", "wrong");
        check("clock-text 863999999", "32333539353939393939");
        check("day 29 2 2024", "1");
        check("day 29 2 2023", "0");
        check("net 1 1 863990000", "-1727990000");
        check("net 1 0 10000", "-10000");
        check("net 1 0 0", "wrong");
        check("net 0 0 0", "0");
        check("net-parts -10000", "1 0 10000");
        check("net-parts -1727990000", "1 1 863990000");
        check("net-parts 0", "0 0 0");
        check("net-parts -8639999999999999", "1 9999999 863999999");
        check("net-parts -8640000000000000", "wrong");
        check("net-parts 8640000000000000", "wrong");
        check("running 1 0 863999999 0 9 863999999", "0 0 0 -9503999998");
        check("running 0 0 1 0 0 0", "8 0 0 0");
        check("read-request -", "1 0 0");
        check("read-request 11", "2 0 0");
        check(
            &format!("read-request {FIRST}"),
            "0 0 0 32 49 7 0 80 0 2 0 83",
        );
        check(
            "write-request 25 32 49 7 0 80 0 2 0 83",
            &format!("0 0 0 {FIRST}ee"),
        );
        check("write-request 2 32 49 7 0 80 0 2 0 83", "7 0 0 eeee");
        check("write-request 0 32 49 7 0 80 250 251 0 83", "6 13 0 -");
        check("write-request 0 47 91 7 0 80 0 2 0 83", "6 2 0 -");
        check("write-request 0 48 91 7 0 80 0 2 0 83", "6 3 0 -");
    }

    /// The example's second reply and its record.
    const REPLY: &[u8] = b"\x12R SOEA000120004100000101525510001125400+0000000  \r";
    const REPLY_RECORD: &str = "32 83 79 69 65 12 41 0 1 15 255 49 net 725400 \
                                00000000000000000000 0000000000000000 2020";

    #[test]
    fn replies() {
        let reply = bytes_text(REPLY);
        let (done, zeros) = (format!("0 0 0 {REPLY_RECORD}"), "00".repeat(51));
        check(&format!("read-reply {reply}"), &done);
        check(&format!("read-reply-value {reply}"), &done);
        check("read-reply 12", "2 0 0");
        check(&format!("read-reply-value {zeros}"), "1 0 0");
        let written = format!("0 0 0 {reply}");
        check(&format!("write-reply-value {REPLY_RECORD}"), &written);
        check(
            &format!("write-reply 52 {REPLY_RECORD}"),
            &format!("{written}ee"),
        );
        check(&format!("write-reply 1 {REPLY_RECORD}"), "7 0 0 ee");
        let wrong = REPLY_RECORD.replace("net 725400", "raw");
        check(&format!("write-reply 0 {wrong}"), "6 30 0 -");
        check(
            &format!("write-reply-value {wrong}"),
            &format!("6 30 0 {zeros}"),
        );
    }

    #[test]
    fn dynamic_requests() {
        let frame = bytes_text(b"\x13R9zA600002502506000024000010000000000000001T\r");
        let record = "57 122 65 60000 250 250 60000 240 0 1 0 0 1 84";
        check(&format!("read-dynamic {frame}"), &format!("0 0 0 {record}"));
        check(
            &format!("write-dynamic 47 {record}"),
            &format!("0 0 0 {frame}ee"),
        );
        check(
            "write-dynamic 1 57 122 65 60001 250 250 60000 240 0 1 0 0 1 84",
            "6 5 0 ee",
        );
    }

    #[test]
    fn captures_cut_into_frames() {
        check("find -", "nothing");
        check("find 0d", "nothing");
        check(
            "find 0011410d0a1213420d13",
            "whole 1 4 cut 5 6 whole 6 9 cut 9 10 nothing",
        );
        check("find-from 0 0011410d", "whole 1 4 4");
        check("find-from 1 0011410d", "whole 1 4 4");
        check("find-from 2 0011410d", "nothing");
        check("find-from 0 111213", "cut 0 1 1");
        check("find-from 2 111213", "cut 2 3 3");
        check("find-from 3 111213", "nothing");
        check("find-from 4294967295 111213", "nothing");
        check(&format!("find {}", "61".repeat(400)), "nothing");
    }

    #[test]
    fn the_desk_lasts_from_line_to_line() {
        let script = format!("open {FIRST}\nread-request 11\nused\nlend 0 0\nused\n");
        let answers = "0 0 0 0 1 0 seat 0 32 49 7 0 0\n2 0 0\n1\n0\n0\n";
        assert_eq!(file(script.as_bytes()).as_deref(), Ok(answers));
        // The desk does not last beyond the end of the file.
        check("used", "0");
    }

    #[test]
    fn damage_of_the_other_kinds() {
        let reply = bytes_text(REPLY);
        let answers = file(format!("damage-reply {reply}\n").as_bytes()).expect("a case");
        let lines: Vec<&str> = answers.lines().collect();
        assert_eq!(lines.len(), 51);
        assert_eq!(lines[2], "2 32*4.0.0 1*0.0.0 15*4.0.0 10*0.0.0 198*4.0.0");
        assert_eq!(
            lines[5],
            "5 69*5.5.5 1*0.0.0 12*5.5.5 1*0.0.0 7*5.5.5 1*0.0.0 165*5.5.5"
        );
        // The time is not zero, so either sign is good.
        assert_eq!(
            lines[40],
            "40 43*5.40.40 1*0.0.0 1*5.40.40 1*0.0.0 210*5.40.40"
        );
        assert_eq!(lines[49], "49 32*5.48.49 95*0.0.0 129*5.48.49");
    }

    /// One tick behind: without its tick the reply is minus zero, with another digit it is not.
    #[test]
    fn damage_next_to_minus_zero() {
        let reply = bytes_text(b"\x12R SOEA000120004100000101525510000000001-0000000  \r");
        let answers = file(format!("damage-reply {reply}\n").as_bytes()).expect("a case");
        let lines: Vec<&str> = answers.lines().collect();
        assert_eq!(lines[38], "38 48*5.30.38 10*0.0.0 198*5.30.38");
        assert_eq!(lines[39], "39 48*5.30.39 1*5.40.40 9*0.0.0 198*5.30.39");
        let signs = "40 43*5.40.40 1*0.0.0 1*5.40.40 1*0.0.0 210*5.40.40";
        assert_eq!(lines[40], signs);
        assert_eq!(lines[47], "47 48*5.40.47 10*0.0.0 198*5.40.47");
    }

    #[test]
    fn damage_counts_runs_of_values() {
        let case = format!("damage-request {FIRST}\n");
        let answers = file(case.as_bytes()).expect("a case");
        let lines: Vec<&str> = answers.lines().collect();
        assert_eq!(lines.len(), 24);
        assert_eq!(lines[0], "0 17*1.0.0 1*0.0.0 238*1.0.0");
        assert_eq!(lines[2], "2 32*4.0.0 1*0.0.0 15*4.0.0 10*0.0.0 198*4.0.0");
        assert_eq!(
            lines[3],
            "3 48*5.3.3 10*0.0.0 7*5.3.3 26*0.0.0 6*5.3.3 26*0.0.0 133*5.3.3"
        );
        assert_eq!(lines[5], "5 48*5.4.5 10*0.0.0 198*5.4.5");
        assert_eq!(lines[23], "23 13*3.0.0 1*0.0.0 242*3.0.0");
    }

    /// A wrong field behind a good address is reported. Behind a wrong address it is not.
    #[test]
    fn damage_of_the_address_before_a_wrong_field() {
        let request = FIRST.replacen("5220313030", "52205b3030", 1);
        let answers = file(format!("damage-request {request}\n").as_bytes()).expect("a case");
        let lines: Vec<&str> = answers.lines().collect();
        assert_eq!(lines[2], "2 32*4.0.0 1*5.3.3 15*4.0.0 10*5.3.3 198*4.0.0");
    }

    #[test]
    fn a_damage_case_without_bytes_has_no_lines() {
        assert_eq!(file(b"damage-request -\n"), Ok(String::new()));
        assert_eq!(file(b""), Ok(String::new()));
    }

    #[test]
    fn lines_that_are_not_cases() {
        for case in [
            "",
            " ",
            "nothing 1",
            "number 0 0 30",
            "number 0 11 30",
            "number 0 1",
            "number 0  1 30",
            "number 0 1 30 ",
            "digits 1 10",
            "digits 11 1",
            "digits 0 0",
            "clock-text 864000000",
            "clock-text -1",
            "net 2 0 0",
            "day 1 1 4294967296",
            "day 01 1 2000",
            "running 1 0 0 0 0",
            "running 1 0 0 0 0 0 0",
            "read-request 1",
            "read-request AA",
            "write-request 101 32 49 7 0 80 0 2 0 83",
            "write-request 24 32 256 7 0 80 0 2 0 83",
            "write-request 24 256 49 7 0 80 0 2 0 83",
            "write-request 24 32 49 7 0 80 0 2 0",
            "read-reply-value 12",
            "read-reply-value -",
            "write-reply 51",
            "write-reply-value",
            "write-dynamic 101 32 122 65 60000 250 250 60000 240 0 1 0 0 1 84",
            "write-dynamic 46 32 122 65 60000 250 250 60000 240 0 1 0 0 1",
            "damage-reply",
            "read-request -\r",
            "find",
            "find 1",
            "find 11 0d",
            "find-from 0",
            "find-from -1 11",
            "find-from 4294967296 11",
            "lend 0",
            "mark 0 0",
            "reset 0",
            "mixes R",
        ] {
            assert!(file(format!("{case}\n").as_bytes()).is_err(), "{case:?}");
        }
        let too_long = "11".repeat(401);
        assert!(file(format!("find {too_long}\n").as_bytes()).is_err());
        assert!(file(format!("find-from 0 {too_long}\n").as_bytes()).is_err());
        assert!(file(b"read-request -").is_err());
        assert!(file(b"read-request \xff\n").is_err());
    }

    #[test]
    fn the_complaint_names_the_line() {
        let complaint = file(b"read-request -\nclock 0\n").expect_err("no case");
        assert!(complaint.starts_with("line 2 "), "{complaint}");
    }
}
