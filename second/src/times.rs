//! Clock times, real days, net values and running time. All times are in ticks, which are
//! ten-thousandths of a second. All sums are done in `i128`, so none can wrap.

use crate::digits;

const TICKS_OF_SECOND: i128 = 10_000;
const TICKS_OF_MINUTE: i128 = 60 * TICKS_OF_SECOND;
const TICKS_OF_HOUR: i128 = 60 * TICKS_OF_MINUTE;
pub const TICKS_OF_DAY: i128 = 864_000_000;

/// The most days a net reply's seven digits can show.
pub const MOST_NET_DAYS: i128 = 9_999_999;

/// The most days the one digit of a dynamic request can show.
const MOST_AUXILIARY_DAYS: i128 = 9;

/// A time of day in ticks: 0 to 863,999,999.
pub fn is_time(ticks: i128) -> bool {
    (0..TICKS_OF_DAY).contains(&ticks)
}

/// The time HHMMSSdddd that begins at `place`, in ticks.
pub fn read_clock(text: &[u8], place: usize) -> Option<i128> {
    let part = |offset, width, limit| {
        digits::read(text, place.checked_add(offset)?, width)
            .filter(|&value| value < limit)
            .map(i128::from)
    };
    let hours = part(0, 2, 24)?;
    let minutes = part(2, 2, 60)?;
    let seconds = part(4, 2, 60)?;
    let ticks = part(6, 4, 10_000)?;
    Some(hours * TICKS_OF_HOUR + minutes * TICKS_OF_MINUTE + seconds * TICKS_OF_SECOND + ticks)
}

/// A time of day as HHMMSSdddd, or nothing if `ticks` is not a time of day.
pub fn clock_text(ticks: i128) -> Option<Vec<u8>> {
    if !is_time(ticks) {
        return None;
    }
    let hours = ticks / TICKS_OF_HOUR;
    let minutes = ticks % TICKS_OF_HOUR / TICKS_OF_MINUTE;
    let seconds = ticks % TICKS_OF_MINUTE / TICKS_OF_SECOND;
    let rest = ticks % TICKS_OF_SECOND;
    Some(format!("{hours:02}{minutes:02}{seconds:02}{rest:04}").into_bytes())
}

/// A real day of the years 2000 to 2099.
pub fn is_real_day(day: u64, month: u64, year: u64) -> bool {
    (2000..=2099).contains(&year)
        && days_of_month(month, year).is_some_and(|last| (1..=last).contains(&day))
}

fn days_of_month(month: u64, year: u64) -> Option<u64> {
    match month {
        1 | 3 | 5 | 7 | 8 | 10 | 12 => Some(31),
        4 | 6 | 9 | 11 => Some(30),
        2 if is_leap_year(year) => Some(29),
        2 => Some(28),
        _ => None,
    }
}

/// The full Gregorian rule. From 2000 to 2099 the simple rule of every fourth year would be enough.
fn is_leap_year(year: u64) -> bool {
    year.is_multiple_of(4) && (!year.is_multiple_of(100) || year.is_multiple_of(400))
}

/// What a net reply shows: a sign, and days and a time that the sign applies to together.
#[derive(Clone, Copy, Debug, PartialEq, Eq)]
pub struct Net {
    pub minus: bool,
    pub days: i128,
    pub time: i128,
}

/// Days x 864,000,000 + time, with the sign in front of the sum. Zero has only one sign, the plus:
/// a minus with neither days nor time is refused. So are days and times that the digits of a reply
/// cannot show.
pub fn net_value(net: Net) -> Option<i128> {
    let showable = (0..=MOST_NET_DAYS).contains(&net.days) && is_time(net.time);
    let size = net.days * TICKS_OF_DAY + net.time;
    let minus_zero = net.minus && size == 0;
    if !showable || minus_zero {
        return None;
    }
    Some(if net.minus { -size } else { size })
}

/// The only net reply that has this value, if there is one. The sign is taken off first, and what
/// is left is divided into days and time.
pub fn net_parts(value: i128) -> Option<Net> {
    let size = value.abs();
    let net = Net {
        minus: value < 0,
        days: size / TICKS_OF_DAY,
        time: size % TICKS_OF_DAY,
    };
    (net.days <= MOST_NET_DAYS).then_some(net)
}

/// The numbers that the running time is worked out from. Any of them may be out of range.
#[derive(Clone, Copy, Debug)]
pub struct Running {
    pub bib: i128,
    pub now: i128,
    pub event: i128,
    pub sign: i128,
    pub days: i128,
    pub time: i128,
}

/// Tnow - Tev - Taux, or nothing (refusal TIME) if one of them is out of range. The bib matters
/// only if it is 0: then any Tev except 0 is out of range. Taux counts with bib 0 too.
pub fn running_time(running: Running) -> Option<i128> {
    let Running {
        bib, now, event, ..
    } = running;
    let event_is_good = if bib == 0 { event == 0 } else { is_time(event) };
    if !is_time(now) || !event_is_good {
        return None;
    }
    Some(now - event - auxiliary_time(running)?)
}

/// Taux. Its sign applies to days and time together. Unlike in a net reply, minus zero is allowed.
fn auxiliary_time(running: Running) -> Option<i128> {
    let Running {
        sign, days, time, ..
    } = running;
    if !(0..=MOST_AUXILIARY_DAYS).contains(&days) || !is_time(time) {
        return None;
    }
    let size = days * TICKS_OF_DAY + time;
    match sign {
        0 => Some(size),
        1 => Some(-size),
        _ => None,
    }
}

#[cfg(test)]
mod tests {
    use super::*;

    fn plus(days: i128, time: i128) -> Net {
        Net {
            minus: false,
            days,
            time,
        }
    }

    fn minus(days: i128, time: i128) -> Net {
        Net {
            minus: true,
            ..plus(days, time)
        }
    }

    #[test]
    fn case_1_clock() {
        assert_eq!(read_clock(b"2359599999", 0), Some(863_999_999));
        assert_eq!(read_clock(b"2400000000", 0), None);
        assert_eq!(clock_text(863_999_999), Some(b"2359599999".to_vec()));
        assert_eq!(clock_text(864_000_000), None);
    }

    #[test]
    fn clock_limits() {
        assert_eq!(read_clock(b"0060000000", 0), None);
        assert_eq!(read_clock(b"0000600000", 0), None);
        assert_eq!(read_clock(b"x0000000001", 1), Some(1));
        assert_eq!(read_clock(b"000000000", 0), None);
        assert_eq!(read_clock(b"0000000000", usize::MAX), None);
    }

    #[test]
    fn clock_there_and_back() {
        for ticks in [0, 9_999, 10_000, 599_999, 600_000, 35_999_999, 36_000_000] {
            let text = clock_text(ticks).expect("a time of day");
            assert_eq!(read_clock(&text, 0), Some(ticks));
        }
    }

    #[test]
    fn case_2_net_of_the_example() {
        assert_eq!(read_clock(b"0001125400", 0), Some(725_400));
        assert_eq!(net_value(plus(0, 725_400)), Some(725_400));
        assert_eq!(net_parts(725_400), Some(plus(0, 725_400)));
    }

    #[test]
    fn case_3_minus_covers_days_and_time() {
        let time = read_clock(b"2359590000", 0).expect("a good time");
        assert_eq!(net_value(minus(1, time)), Some(-1_727_990_000));
        assert_eq!(net_parts(-1_727_990_000), Some(minus(1, time)));
    }

    #[test]
    fn one_second_behind_has_no_days() {
        let second = read_clock(b"0000010000", 0).expect("a good time");
        assert_eq!(net_value(minus(0, second)), Some(-10_000));
        assert_eq!(net_parts(-10_000), Some(minus(0, second)));
    }

    #[test]
    fn minus_zero_is_turned_away_only_without_a_time() {
        assert_eq!(net_value(minus(0, 0)), None);
        assert_eq!(net_value(plus(0, 0)), Some(0));
        assert_eq!(net_value(minus(0, 1)), Some(-1));
        assert_eq!(net_value(minus(1, 0)), Some(-864_000_000));
        assert_eq!(net_value(minus(0, 864_000_000)), None);
    }

    /// Both sides of zero and of one day, with either sign.
    #[test]
    fn net_around_zero_and_one_day() {
        assert_eq!(net_parts(0), Some(plus(0, 0)));
        for (size, days, time) in [
            (1, 0, 1),
            (863_999_999, 0, 863_999_999),
            (864_000_000, 1, 0),
            (864_000_001, 1, 1),
        ] {
            assert_eq!(net_parts(size), Some(plus(days, time)));
            assert_eq!(net_parts(-size), Some(minus(days, time)));
            assert_eq!(net_value(plus(days, time)), Some(size));
            assert_eq!(net_value(minus(days, time)), Some(-size));
        }
    }

    #[test]
    fn net_ends() {
        let most = 8_639_999_999_999_999;
        assert_eq!(net_value(plus(9_999_999, 863_999_999)), Some(most));
        assert_eq!(net_value(minus(9_999_999, 863_999_999)), Some(-most));
        assert_eq!(net_parts(most), Some(plus(9_999_999, 863_999_999)));
        assert_eq!(net_parts(-most), Some(minus(9_999_999, 863_999_999)));
        for beyond in [most + 1, i64::MAX.into(), -most - 1, i64::MIN.into()] {
            assert_eq!(net_parts(beyond), None);
        }
        for beyond in [plus, minus] {
            assert_eq!(net_value(beyond(10_000_000, 0)), None);
            assert_eq!(net_value(beyond(0, 864_000_000)), None);
        }
    }

    /// The most days with no time is not the low end: there are values below it.
    #[test]
    fn net_below_whole_days() {
        let whole_days = -8_639_999_136_000_000;
        assert_eq!(net_parts(whole_days), Some(minus(9_999_999, 0)));
        assert_eq!(net_parts(whole_days - 1), Some(minus(9_999_999, 1)));
        let before = minus(9_999_998, 863_999_999);
        assert_eq!(net_parts(whole_days + 1), Some(before));
    }

    #[test]
    fn net_there_and_back() {
        for size in [
            0,
            1,
            10_000,
            863_999_999,
            864_000_000,
            864_000_001,
            1_727_990_000,
            8_639_999_136_000_000,
            8_639_999_999_999_999,
        ] {
            for value in [size, -size] {
                assert_eq!(net_parts(value).and_then(net_value), Some(value));
            }
        }
    }

    /// Each value has one writing: what is not refused comes back with its own sign.
    #[test]
    fn net_parts_there_and_back() {
        for days in [0, 1, 2, 9_999_999] {
            for time in [0, 1, 10_000, 863_990_000, 863_999_999] {
                for net in [plus(days, time), minus(days, time)] {
                    let again = net_value(net).and_then(net_parts);
                    assert_eq!(again, (net != minus(0, 0)).then_some(net));
                }
            }
        }
    }

    #[test]
    fn case_4_real_days() {
        assert!(is_real_day(29, 2, 2024));
        assert!(!is_real_day(29, 2, 2023));
        assert!(is_real_day(29, 2, 2000));
        assert!(is_real_day(31, 12, 2099));
        assert!(!is_real_day(31, 12, 1999));
        assert!(!is_real_day(1, 1, 2100));
        assert!(!is_real_day(0, 1, 2024));
        assert!(!is_real_day(1, 13, 2024));
    }

    #[test]
    fn leap_years_by_the_full_rule() {
        assert!(is_leap_year(2000));
        assert!(!is_leap_year(1900));
        assert!(is_leap_year(2096));
    }

    fn nothing_running() -> Running {
        Running {
            bib: 1,
            now: 0,
            event: 0,
            sign: 0,
            days: 0,
            time: 0,
        }
    }

    #[test]
    fn case_11_running_time() {
        let lowest = Running {
            event: 863_999_999,
            days: 9,
            time: 863_999_999,
            ..nothing_running()
        };
        assert_eq!(running_time(lowest), Some(-9_503_999_998));
        let highest = Running {
            now: 863_999_999,
            event: 0,
            sign: 1,
            ..lowest
        };
        assert_eq!(running_time(highest), Some(9_503_999_998));
    }

    #[test]
    fn bib_0_wants_event_0_and_still_has_taux() {
        let base = Running {
            bib: 0,
            time: 5,
            ..nothing_running()
        };
        assert_eq!(running_time(base), Some(-5));
        assert_eq!(running_time(Running { event: 1, ..base }), None);
    }

    #[test]
    fn taux_out_of_range() {
        let base = nothing_running();
        assert_eq!(running_time(Running { sign: 1, ..base }), Some(0));
        assert_eq!(running_time(Running { sign: 2, ..base }), None);
        assert_eq!(running_time(Running { days: 10, ..base }), None);
        let late = Running {
            time: TICKS_OF_DAY,
            ..base
        };
        assert_eq!(running_time(late), None);
    }
}
