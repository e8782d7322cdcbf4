//! Dates between X.400's UTCTime and RFC 822's date-time: either form read, and the other written.

use crate::chars::same;

/// The refusal of a text that is no date of its form, or names a day that there is not.
pub const NO_DATE: u8 = 10;

const MONTHS: [&[u8]; 12] = [
    b"Jan", b"Feb", b"Mar", b"Apr", b"May", b"Jun", b"Jul", b"Aug", b"Sep", b"Oct", b"Nov", b"Dec",
];
const DAYS: [&[u8]; 7] = [b"Mon", b"Tue", b"Wed", b"Thu", b"Fri", b"Sat", b"Sun"];

/// What a zone is beside UTC; zero is never negative.
#[derive(Clone, Copy, Debug, PartialEq)]
pub struct Offset {
    pub negative: bool,
    pub hours: u8,
    pub minutes: u8,
}

/// What both forms say. The month counts from 1.
#[derive(Clone, Copy, Debug, PartialEq)]
pub struct Date {
    pub year: u8,
    pub month: u8,
    pub day: u8,
    pub hour: u8,
    pub minute: u8,
    pub second: Option<u8>,
    pub offset: Offset,
}

impl Date {
    fn possible(self) -> Option<Date> {
        let days = match self.month {
            2 if self.year.is_multiple_of(4) => 29,
            2 => 28,
            4 | 6 | 9 | 11 => 30,
            _ => 31,
        };
        let is_possible = (1..=12).contains(&self.month)
            && (1..=days).contains(&self.day)
            && self.hour < 24
            && self.minute < 60
            && self.second.is_none_or(|second| second < 60);
        is_possible.then_some(self)
    }
}

/// The number of exactly two digits.
fn two_digits(text: &[u8]) -> Option<u8> {
    match text {
        [a @ b'0'..=b'9', b @ b'0'..=b'9'] => Some((a - b'0') * 10 + (b - b'0')),
        _ => None,
    }
}

/// A zone: one of these names for zero, or a sign with hours and minutes.
fn read_zone(text: &[u8], names: &[&[u8]]) -> Option<Offset> {
    if names.iter().any(|name| same(name, text)) {
        return Some(Offset {
            negative: false,
            hours: 0,
            minutes: 0,
        });
    }
    let (sign, digits) = text.split_first()?;
    if !b"+-".contains(sign) || digits.len() != 4 {
        return None;
    }
    let hours = two_digits(&digits[..2]).filter(|hours| *hours < 24)?;
    let minutes = two_digits(&digits[2..]).filter(|minutes| *minutes < 60)?;
    Some(Offset {
        negative: *sign == b'-' && (hours, minutes) != (0, 0),
        hours,
        minutes,
    })
}

/// `YYMMDDhhmm`, perhaps `ss`, and `Z` or an offset.
pub fn read_utc(text: &[u8]) -> Option<Date> {
    let digits = text.iter().take_while(|b| b.is_ascii_digit()).count();
    if digits != 10 && digits != 12 {
        return None;
    }
    let (front, zone) = text.split_at(digits);
    let field = |which: usize| two_digits(&front[2 * which..2 * which + 2]);
    let date = Date {
        year: field(0)?,
        month: field(1)?,
        day: field(2)?,
        hour: field(3)?,
        minute: field(4)?,
        second: if digits == 12 { field(5) } else { None },
        offset: read_zone(zone, &[b"Z"])?,
    };
    date.possible()
}

fn without_day_name(text: &[u8]) -> Option<&[u8]> {
    let name = text.get(..3)?;
    if !DAYS.iter().any(|known| same(known, name)) {
        return None;
    }
    text[3..].strip_prefix(b", ")
}

/// Perhaps a day's name, then day, month, year, time and zone, parted by single spaces. The name need not be the day's own.
pub fn read_date(text: &[u8]) -> Option<Date> {
    let text = without_day_name(text).unwrap_or(text);
    let parts: Vec<&[u8]> = text.split(|&b| b == b' ').collect();
    let [day, month, year, time, zone] = parts[..] else {
        return None;
    };
    let time: Vec<&[u8]> = time.split(|&b| b == b':').collect();
    let (hour, minute, second) = match time[..] {
        [hour, minute] => (hour, minute, None),
        [hour, minute, second] => (hour, minute, Some(two_digits(second)?)),
        _ => return None,
    };
    let month = MONTHS.iter().position(|known| same(known, month))? + 1;
    let date = Date {
        year: two_digits(year)?,
        month: month as u8,
        day: match day {
            [digit @ b'0'..=b'9'] => digit - b'0',
            _ => two_digits(day)?,
        },
        hour: two_digits(hour)?,
        minute: two_digits(minute)?,
        second,
        offset: read_zone(zone, &[b"GMT", b"UT"])?,
    };
    date.possible()
}

fn written_offset(offset: Offset) -> String {
    let sign = if offset.negative { '-' } else { '+' };
    format!("{sign}{:02}{:02}", offset.hours, offset.minutes)
}

pub fn write_utc(date: &Date) -> Vec<u8> {
    let second = date.second.map_or(String::new(), |s| format!("{s:02}"));
    format!(
        "{:02}{:02}{:02}{:02}{:02}{second}{}",
        date.year,
        date.month,
        date.day,
        date.hour,
        date.minute,
        written_offset(date.offset)
    )
    .into_bytes()
}

pub fn write_date(date: &Date) -> Vec<u8> {
    let second = date.second.map_or(String::new(), |s| format!(":{s:02}"));
    let month = String::from_utf8_lossy(MONTHS[usize::from(date.month) - 1]);
    format!(
        "{:02} {month} {:02} {:02}:{:02}{second} {}",
        date.day,
        date.year,
        date.hour,
        date.minute,
        written_offset(date.offset)
    )
    .into_bytes()
}

/// The date-time of a UTCTime.
pub fn to_822(utc: &[u8]) -> Result<Vec<u8>, u8> {
    Ok(write_date(&read_utc(utc).ok_or(NO_DATE)?))
}

/// The UTCTime of a date-time.
pub fn to_x400(date: &[u8]) -> Result<Vec<u8>, u8> {
    Ok(write_utc(&read_date(date).ok_or(NO_DATE)?))
}
