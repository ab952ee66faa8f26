//! What the fields of good replies show. The run depends on the status before it, time and date on
//! status and information.

use super::{
    at, is_bib, is_channel, is_group, is_information, is_number, is_physical, is_raw, is_requester,
    is_run, is_status, read_date, read_net, width, Reply, TimingKind, Value, LAST_RECORD,
    NOT_AVAILABLE, RECORD,
};
use crate::digits;
use crate::frame::Kind;
use crate::shown::{clock_times, letters, numbers, raw_bytes, under, Kept, Shown};

/// How many bytes the fields have that are not always numbers.
const TIME_WIDTH: usize = at::DATE - at::TIME;
const DATE_WIDTH: usize = at::SPARE - at::DATE;
const SPARE_WIDTH: usize = at::CR - at::SPARE;

static RAW_LETTER: Kept = Kept::new(|| letters(is_raw));
static STATUS: Kept = Kept::new(|| letters(is_status));
static REQUESTER: Kept = Kept::new(|| letters(is_requester));
static NUMBER: Kept = Kept::new(|| numbers(width::NUMBER, is_number));
static BIB: Kept = Kept::new(|| numbers(width::BIB, is_bib));
static GROUP: Kept = Kept::new(|| numbers(width::GROUP, is_group));
static PHYSICAL: Kept = Kept::new(|| numbers(width::PHYSICAL, is_physical));
static CHANNEL: Kept = Kept::new(|| numbers(width::CHANNEL, is_channel));
static INFORMATION: Kept = Kept::new(|| letters(is_information));
static CLOCK_TIME: Kept = Kept::new(clock_times);
static RAW_TIME: Kept = Kept::new(|| raw_bytes(TIME_WIDTH));
static DATE: Kept = Kept::new(dates);
static NET_DATE: Kept = Kept::new(net_dates);
static RAW_DATE: Kept = Kept::new(|| raw_bytes(DATE_WIDTH));
static SPARE: Kept = Kept::new(|| raw_bytes(SPARE_WIDTH));

/// One for each status.
static RUNS: [(u8, Kept); 3] = [
    (RECORD, Kept::new(|| runs(RECORD))),
    (LAST_RECORD, Kept::new(|| runs(LAST_RECORD))),
    (NOT_AVAILABLE, Kept::new(|| runs(NOT_AVAILABLE))),
];

fn runs(status: u8) -> Shown {
    numbers(width::RUN, |run| is_run(run, status))
}

/// All real days of the years 2000 to 2099.
fn dates() -> Shown {
    let mut days = Vec::new();
    for year in 2000..=2099 {
        for month in 1..=12 {
            for day in 1..=31 {
                let day = digits::write(day, width::DAY);
                let month = digits::write(month, width::MONTH);
                days.push([day, month, digits::write(year, width::YEAR)].concat());
            }
        }
    }
    let real = days
        .into_iter()
        .filter(|date| read_date(&dated(date)).is_some());
    Shown::by(DATE_WIDTH, real)
}

/// There are too many net dates to go through all of them. Every byte is tried at every place of one
/// of them. That is enough: minus zero is the only one whose sign and digits are wrong together, and
/// here at least six digits are not zero. The time before the date is zero. After any other time
/// minus zero is good too, but each of its bytes is found already.
fn net_dates() -> Shown {
    const NET_DATE: &[u8; DATE_WIDTH] = b"+1111111";
    let tried = (0..DATE_WIDTH).flat_map(|place| {
        (0..=u8::MAX).map(move |code| {
            let mut date = NET_DATE.to_vec();
            date[place] = code;
            date
        })
    });
    Shown::by(
        DATE_WIDTH,
        tried.filter(|date| read_net(&dated(date), 0).is_some()),
    )
}

/// A frame with nothing in it but this date.
fn dated(date: &[u8]) -> Value {
    let mut frame = [0; Reply::LENGTH];
    frame[at::DATE..at::SPARE].copy_from_slice(date);
    frame
}

pub fn of_field(frame: &[u8], offset: usize) -> &'static Shown {
    match offset {
        at::PROGRAM | at::MODE => &RAW_LETTER,
        at::STATUS => &STATUS,
        at::REQUESTER => &REQUESTER,
        at::NUMBER => &NUMBER,
        at::BIB => &BIB,
        at::GROUP => &GROUP,
        at::RUN => under(&RUNS, frame[at::STATUS]),
        at::PHYSICAL => &PHYSICAL,
        at::CHANNEL => &CHANNEL,
        at::INFORMATION => &INFORMATION,
        at::TIME => match timing_kind(frame) {
            TimingKind::Clock | TimingKind::Net => &CLOCK_TIME,
            TimingKind::Raw => &RAW_TIME,
        },
        at::DATE => match timing_kind(frame) {
            TimingKind::Clock => &DATE,
            TimingKind::Net => &NET_DATE,
            TimingKind::Raw => &RAW_DATE,
        },
        at::SPARE => &SPARE,
        _ => unreachable!("no field of a reply begins at {offset}"),
    }
}

fn timing_kind(frame: &[u8]) -> TimingKind {
    TimingKind::asked_for(frame[at::STATUS], frame[at::INFORMATION])
}
