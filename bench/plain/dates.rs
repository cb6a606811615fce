//! When times are by the calendar: the seconds between which an interval begins and ends, from 0001-01-01T00:00:00 on.

#![cfg_attr(rustfmt, rustfmt_skip)]

use crate::values::{days_of_month, is_leap};

/// An interval begins and ends at these seconds, or lies between them.
#[derive(Clone, Copy)]
pub struct Bounds {
    pub low: i64,
    pub high: i64,
    pub is_exact: bool,
}

const DAY: i64 = 86_400;
const DAYS_BEFORE: [i64; 13] = [0, 31, 59, 90, 120, 151, 181, 212, 243, 273, 304, 334, 365];

/// The bounds of a time with a valid date, by its modifier.
pub fn bounds(kind: &[u8], modifier: &[u8], value: &[u8]) -> Option<Bounds> {
    let is_free = matches!(kind, b"DURATION" | b"SET") || value.starts_with(b"XXXX");
    if is_free || !matches!(modifier, b"" | b"START" | b"MID" | b"END") {
        return None;
    }
    let (low, high) = extent(value);
    Some(Bounds { low, high, is_exact: modifier.is_empty() && !value.contains(&b'X') })
}

fn number(digits: &[u8]) -> i64 {
    digits.iter().fold(0, |number, digit| number * 10 + i64::from(digit - b'0'))
}

/// The number of a field, unless it is not known.
fn known(field: &[u8]) -> Option<i64> {
    (!field.contains(&b'X')).then(|| number(field))
}

/// The first second of what stands before the first `X` of a date, and the second after it.
fn extent(value: &[u8]) -> (i64, i64) {
    let (year, rest) = value.split_at(value.len().min(4));
    let digits = &year[..year.iter().position(|&byte| byte == b'X').unwrap_or(year.len())];
    let width = 10i64.pow(4 - digits.len() as u32);
    let (first, last) = ((number(digits) * width).max(1), number(digits) * width + width - 1);
    let years = (day_of(first, 1, 1) * DAY, day_of(last + 1, 1, 1) * DAY);
    let months = |from: i64, to: i64| (day_of(first, from, 1) * DAY, (day_of(first, to, 1) + days_in(first, to)) * DAY);
    match rest {
        [b'-', b'W', ..] if digits.len() < 4 => (first_week(first) * DAY, first_week(last + 1) * DAY),
        _ if digits.len() < 4 => years,
        [b'-', b'Q', quarter] => known(&[*quarter]).map_or(years, |quarter| months(3 * quarter - 2, 3 * quarter)),
        [b'-', b'H', half] => known(&[*half]).map_or(years, |half| months(6 * half - 5, 6 * half)),
        [b'-', b'W', ten, one, weekday @ ..] => week(first, known(&[*ten, *one]), weekday),
        [b'-', ten, one, in_month @ ..] => match (known(&[*ten, *one]), in_month) {
            (None, _) => years,
            (Some(month), [b'-', ten, one, time @ ..]) => match known(&[*ten, *one]) {
                None => months(month, month),
                Some(day) => in_day(day_of(first, month, day) * DAY, time),
            },
            (Some(month), _) => months(month, month),
        },
        _ => years,
    }
}

/// The seconds of a week of a year, or of a day of it, or of all weeks.
fn week(year: i64, week: Option<i64>, weekday: &[u8]) -> (i64, i64) {
    let Some(week) = week else { return (first_week(year) * DAY, first_week(year + 1) * DAY) };
    let monday = first_week(year) + 7 * (week - 1);
    match weekday {
        [b'-', day @ ..] if known(day).is_some() => ((monday + number(day) - 1) * DAY, (monday + number(day)) * DAY),
        _ => (monday * DAY, (monday + 7) * DAY),
    }
}

/// The seconds of a day, or of an hour, a minute or a second of it.
fn in_day(day: i64, time: &[u8]) -> (i64, i64) {
    let mut found = (day, day + DAY);
    for (field, length) in time.chunks(3).zip([3600, 60, 1]) {
        let Some(number) = known(&field[1..]) else { break };
        found = (found.0 + number * length, found.0 + (number + 1) * length);
    }
    found
}

/// How many days come before a date.
fn day_of(year: i64, month: i64, day: i64) -> i64 {
    let past = year - 1;
    let leap = i64::from(month > 2 && is_leap(year as u32));
    365 * past + past / 4 - past / 100 + past / 400 + DAYS_BEFORE[month as usize - 1] + leap + day - 1
}

fn days_in(year: i64, month: i64) -> i64 {
    i64::from(days_of_month(year as u32, month as u32))
}

/// How many days come before the first week of a year: the one of 4 January. Day 0 is a Monday.
fn first_week(year: i64) -> i64 {
    let fourth = day_of(year, 1, 4);
    fourth - fourth % 7
}
