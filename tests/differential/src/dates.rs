//! Dates of both forms, each call held against the rules, and what was written taken there and back.

use plain::dates::{self, Date};

use crate::account::Account;
use crate::calls::room_about;
use crate::damage::noise;
use crate::library;
use crate::random::Random;
use crate::round::{Compared, Round};
use crate::texts::{by_the_library, converted};

/// Room for any date.
const ROOM: usize = 64;

/// One direction: the export, its rules, the names of its kinds, and the export of the way back.
struct Direction {
    function: &'static str,
    taken: &'static str,
    refused: &'static str,
    back: &'static str,
    call: library::Conversion,
    call_back: library::Conversion,
    read: fn(&[u8]) -> Option<Date>,
    rules: fn(&[u8]) -> Result<Vec<u8>, u8>,
    written: fn(&mut Random) -> Vec<u8>,
}

const TO_822: Direction = Direction {
    function: "date_to_822",
    taken: "UTCTime taken",
    refused: "UTCTime refused",
    back: "from a UTCTime",
    call: library::date_to_822,
    call_back: library::date_to_x400,
    read: dates::read_utc,
    rules: dates::to_822,
    written: utc,
};

const TO_X400: Direction = Direction {
    function: "date_to_x400",
    taken: "date-time taken",
    refused: "date-time refused",
    back: "from a date-time",
    call: library::date_to_x400,
    call_back: library::date_to_822,
    read: dates::read_date,
    rules: dates::to_x400,
    written: date_time,
};

const MONTHS: [&str; 12] = [
    "Jan", "Feb", "Mar", "Apr", "May", "Jun", "Jul", "Aug", "Sep", "Oct", "Nov", "Dec",
];
const DAYS: [&str; 7] = ["Mon", "Tue", "Wed", "Thu", "Fri", "Sat", "Sun"];

/// Day, month and year: possible for the most part, and otherwise at the edge of it.
fn day(random: &mut Random) -> (usize, usize, usize) {
    let year = random.below(100);
    match random.below(12) {
        0 | 1 => (29, 2, random.below(25) * 4),
        2 => (29, 2, year),
        3 | 4 => (random.between(28, 32), random.between(1, 12), year),
        5 => (random.below(100), random.below(14), year),
        _ => (random.between(1, 28), random.between(1, 12), year),
    }
}

/// A number below a bound, now and then at it or past it.
fn number(random: &mut Random, bound: usize) -> usize {
    match random.below(40) {
        0 => bound,
        1 => random.below(100),
        2..=5 => bound - 1,
        6..=9 => 0,
        _ => random.below(bound),
    }
}

fn zone(random: &mut Random, names: &[&str]) -> String {
    // Names of RFC 822 that are not taken, and those of the other form.
    const OTHERS: &[&str] = &[
        "EST", "EST", "EDT", "CST", "CDT", "MST", "MDT", "PST", "PDT", "A", "M", "N", "Z", "UT",
        "GMT", "UTC",
    ];
    const ODD: &[&str] = &[
        "", "+", "-", "+000", "-00000", "0000", "00:00", "+00:00", "+ 000", "GMT+0000", "UT ",
        " UT", "ZZ", "+-100", "-0O00",
    ];
    let sign = *random.pick(&['+', '-']);
    match random.below(18) {
        0..=4 => random.pick(names).to_string(),
        5 | 6 => format!("-00{:02}", number(random, 60)),
        7 => format!("{sign}0000"),
        8 => random.pick(ODD).to_string(),
        9 => random.pick(OTHERS).to_string(),
        _ => {
            let (hours, minutes) = (number(random, 24), number(random, 60));
            format!("{sign}{hours:02}{minutes:02}")
        }
    }
}

fn utc(random: &mut Random) -> Vec<u8> {
    let (day, month, year) = day(random);
    let (hour, minute) = (number(random, 24), number(random, 60));
    let mut text = format!("{year:02}{month:02}{day:02}{hour:02}{minute:02}");
    match random.below(24) {
        0 => text.push_str(&format!("{}", random.below(10))),
        1 => text.push_str(&format!("{:02}.5", random.below(60))),
        2 => text.insert_str(0, "20"),
        3 => text.truncate(8),
        4..=13 => text.push_str(&format!("{:02}", number(random, 60))),
        _ => {}
    }
    text.push_str(&zone(random, &["Z"]));
    random.cased(text.as_bytes())
}

fn month_name(random: &mut Random, month: usize) -> String {
    const ODD: &[&str] = &["", "January", "Sept", "Foo", "Ja", "Janu", "1", "01", "J n"];
    match month {
        1..=12 if !random.one_in(40) => MONTHS[month - 1].to_string(),
        _ => random.pick(ODD).to_string(),
    }
}

/// What stands in front of the day.
fn day_name(random: &mut Random) -> String {
    const ODD: &[&str] = &[
        "Monday, ",
        "Mon,",
        "Mon,  ",
        "Mon ",
        "Mon , ",
        "Xyz, ",
        ", ",
        "Mo, ",
        " Mon, ",
        " ",
        "Mon, Tue, ",
        "Mon;",
        "Mon, \t",
    ];
    match random.below(20) {
        0 => random.pick(ODD).to_string(),
        1..=9 => format!("{}, ", random.pick(&DAYS)),
        _ => String::new(),
    }
}

fn date_time(random: &mut Random) -> Vec<u8> {
    let (day, month, year) = day(random);
    let (hour, minute) = (number(random, 24), number(random, 60));
    let day = match random.below(30) {
        0 => format!("{day:03}"),
        1..=12 => format!("{day}"),
        13..=16 => format!("{}", random.below(10)),
        _ => format!("{day:02}"),
    };
    let year = match random.below(40) {
        0 => format!("20{year:02}"),
        1 => format!("{}", year % 10),
        _ => format!("{year:02}"),
    };
    let time = match random.below(40) {
        0 => format!("{}:{minute:02}", hour % 10),
        1 => format!("{hour:02}{minute:02}"),
        2 => format!("{hour:02}:{minute:02}:"),
        3 => format!("{hour:02}:{minute:02}:{}", random.below(10)),
        4 => format!("{hour:02}:{minute:02}:00:00"),
        5..=20 => format!("{hour:02}:{minute:02}:{:02}", number(random, 60)),
        _ => format!("{hour:02}:{minute:02}"),
    };
    let front = day_name(random);
    let month = month_name(random, month);
    let zone = zone(random, &["GMT", "UT"]);
    let text = format!("{front}{day} {month} {year} {time} {zone}");
    let mut text = random.cased(text.as_bytes());
    match random.below(40) {
        0 => text.push(b' '),
        1 => text.extend_from_slice(b" (comment)"),
        _ => {}
    }
    text
}

/// A text of any kind: of this direction's form, of the other's, or of none; empty, and long.
fn text(random: &mut Random, way: &Direction) -> Vec<u8> {
    match random.below(40) {
        0 => Vec::new(),
        1 => noise(random, 100),
        2 => {
            let written = if random.one_in(2) { utc } else { date_time };
            written(random)
        }
        3 => {
            let mut text = (way.written)(random);
            let fill = *random.pick(b" 0Z+,:\0");
            text.resize(
                *random.pick(&[18, 25, 26, 30, 31, 32, 255, 256, 257, 5000]),
                fill,
            );
            text
        }
        _ => (way.written)(random),
    }
}

/// Whether all that is wrong is the 29th of February: the 28th in its place, where a day can stand, is taken.
fn is_wrong_leap_day(way: &Direction, text: &[u8]) -> bool {
    [0, 4, 5].into_iter().any(|at| {
        if text.get(at..at + 2) != Some(b"29") {
            return false;
        }
        let mut before = text.to_vec();
        before[at + 1] = b'8';
        (way.read)(&before).is_some_and(|date| (date.day, date.month) == (28, 2))
    })
}

/// What kinds of text were taken, and which impossible days were not.
fn count_kinds(account: &mut Account, way: &Direction, text: &[u8]) {
    let Some(date) = (way.read)(text) else {
        if is_wrong_leap_day(way, text) {
            account.count(way.refused, "29 February");
        }
        return;
    };
    let mut kind = |holds: bool, name: &str| {
        if holds {
            account.count(way.taken, name);
        }
    };
    let by_name = text[text.len() - 1].is_ascii_alphabetic();
    kind(date.second.is_some(), "with seconds");
    kind(date.second.is_none(), "without seconds");
    kind(by_name, "zone by name");
    kind(!by_name, "zone by offset");
    kind(text.ends_with(b"-0000"), "zone -0000");
    kind(
        date.offset.negative && date.offset.hours == 0,
        "negative below an hour",
    );
    kind((date.day, date.month) == (29, 2), "29 February");
    let named = text.contains(&b',');
    kind(named, "day name");
    let day = if named { &text[5..] } else { text };
    kind(day[1] == b' ', "one-digit day");
}

/// What was written is read back by the other direction, and this one then writes the same text.
fn there_and_back(account: &mut Account, way: &Direction, text: &[u8]) -> Compared {
    let written = by_the_library(account, way.call, text, ROOM);
    let back = by_the_library(account, way.call_back, &written, ROOM);
    let again = by_the_library(account, way.call, &back, ROOM);
    account.count("date there and back", way.back);
    if again == written {
        return Ok(());
    }
    Err(format!(
        "{}: {} became {}, which went back to {}, which became {}",
        way.function,
        String::from_utf8_lossy(text),
        String::from_utf8_lossy(&written),
        String::from_utf8_lossy(&back),
        String::from_utf8_lossy(&again)
    ))
}

pub fn date(round: &mut Round, account: &mut Account) -> Compared {
    let way = *round.random.pick(&[&TO_822, &TO_X400]);
    let text = text(&mut round.random, way);
    let text = round.spoiled(text);
    let wanted = (way.rules)(&text);
    let room = room_about(&mut round.random, wanted.as_ref().map_or(20, Vec::len));
    count_kinds(account, way, &text);
    converted(
        &mut round.random,
        account,
        way.function,
        way.call,
        &text,
        &wanted,
        room,
    )?;
    if wanted.is_ok() && round.random.one_in(4) {
        there_and_back(account, way, &text)?;
    }
    Ok(())
}
