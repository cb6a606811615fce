//! The calendar: which values of a TIMEX3 have the shape of a date, and which of these are one.

#![cfg_attr(rustfmt, rustfmt_skip)]

use std::ops::RangeInclusive;

/// The numbers that a field of all digits or all `X` can stand for.
fn numbers(field: &[u8]) -> Option<RangeInclusive<u32>> {
    if field.iter().all(|&byte| byte == b'X') {
        return Some(0..=99);
    }
    let number = field.iter().try_fold(0, |number, byte| {
        byte.is_ascii_digit().then(|| number * 10 + u32::from(byte - b'0'))
    })?;
    Some(number..=number)
}

/// The years that four digits can stand for, of which the last one, two or four may be `X`.
fn years(field: &[u8]) -> Option<RangeInclusive<u32>> {
    let (known, width) = match field {
        b"XXXX" => return Some(1..=9999),
        [known @ .., b'X', b'X'] => (known, 100),
        [known @ .., b'X'] => (known, 10),
        known => (known, 1),
    };
    if known.contains(&b'X') {
        return None;
    }
    let first = numbers(known)?.start() * width;
    Some(first.max(1)..=first + width - 1)
}

pub fn is_leap(year: u32) -> bool {
    year % 4 == 0 && (year % 100 != 0 || year % 400 == 0)
}

pub fn days_of_month(year: u32, month: u32) -> u32 {
    match month {
        2 => 28 + u32::from(is_leap(year)),
        4 | 6 | 9 | 11 => 30,
        _ => 31,
    }
}

/// The weeks of a year: 53 where the first day is a Thursday, or in a leap year a Wednesday.
fn weeks_of_year(year: u32) -> u32 {
    let past = year - 1;
    let weekday = (past + past / 4 - past / 100 + past / 400) % 7;
    52 + u32::from(weekday == 3 || weekday == 2 && is_leap(year))
}

/// Whether some number of a range is between two others.
fn meets(range: &RangeInclusive<u32>, least: u32, most: u32) -> bool {
    *range.start() <= most && *range.end() >= least
}

/// Whether a text has a calendar shape: then whether some digits for its `X` make a date of it.
pub fn date(text: &[u8]) -> Option<bool> {
    if matches!(text.len(), 2 | 3) && text.iter().all(u8::is_ascii_digit) {
        return Some(true); // a century or a decade
    }
    let (year, rest) = text.split_first_chunk::<4>()?;
    let years = years(year)?;
    let in_year = match rest {
        [] => true,
        [b'-', b'Q', quarter] => meets(&numbers(&[*quarter])?, 1, 4),
        [b'-', b'H', half] => meets(&numbers(&[*half])?, 1, 2),
        [b'-', b'W', week @ ..] => {
            let (week, day) = match week {
                [week @ .., b'-', day] => (week, numbers(&[*day])?),
                week => (week, 1..=1),
            };
            let week = numbers(<&[u8; 2]>::try_from(week).ok()?)?;
            meets(&day, 1, 7) && years.clone().any(|year| meets(&week, 1, weeks_of_year(year)))
        }
        [b'-', month @ ..] if month.len() == 2 => meets(&numbers(month)?, 1, 12),
        [b'-', _, _, b'-', _, _, time @ ..] => {
            let (month, day, in_day) = (numbers(&rest[1..3])?, numbers(&rest[4..6])?, time_of_day(time)?);
            let months = (*month.start()).max(1)..=(*month.end()).min(12);
            in_day && years.clone().any(|year| months.clone().any(|month| meets(&day, 1, days_of_month(year, month))))
        }
        _ => return None,
    };
    Some(in_year && !years.is_empty())
}

/// The same of what stands after the day: nothing, or the hour with no, one or two fields more.
fn time_of_day(text: &[u8]) -> Option<bool> {
    let zero: &[u8] = b"00";
    let (hour, minute, second) = match text {
        [] => (zero, zero, zero),
        [b'T', hour @ ..] if hour.len() == 2 => (hour, zero, zero),
        [b'T', _, _, b':', minute @ ..] if minute.len() == 2 => (&text[1..3], minute, zero),
        [b'T', _, _, b':', _, _, b':', second @ ..] if second.len() == 2 => (&text[1..3], &text[4..6], second),
        _ => return None,
    };
    let (hour, minute, second) = (numbers(hour)?, numbers(minute)?, numbers(second)?);
    let at_end = meets(&hour, 24, 24) && meets(&minute, 0, 0) && meets(&second, 0, 0);
    Some(at_end || meets(&hour, 0, 23) && meets(&minute, 0, 59) && meets(&second, 0, 59))
}
