//! What the account says of a list: how it is laid out where it is taken, and why its first bad entry is bad.

use std::ops::Range;

use plain::chars::{is_domain_part, same};
use plain::table::LIMIT;

use crate::account::Account;
use crate::library::Row;
use crate::lists::{List, D, G, R};
use crate::round::Round;
use crate::tables::ROWS;

/// Counts the list of a round, if it has one.
pub fn count(round: &Round, account: &mut Account) {
    match (&round.list, &round.table) {
        (None, _) => {}
        (Some(list), Ok(_)) => count_taken(list, account),
        (Some(list), Err(number)) => count_refused(list, *number, account),
    }
}

/// Where the domains and paths stand, in order.
fn places(list: &List) -> Vec<Range<usize>> {
    let mut places: Vec<Range<usize>> = list
        .rows
        .iter()
        .flat_map(|row| {
            [
                row.domain..row.domain + row.domain_len,
                row.path..row.path + row.path_len,
            ]
        })
        .collect();
    places.sort_by_key(|place| (place.start, place.end));
    places
}

fn count_taken(list: &List, account: &mut Account) {
    let mut places = places(list);
    let all = places.len();
    places.dedup();
    let spelt = list.lines().expect("the rows of a table are lines");
    let found = [
        ("the gateway's entry alone", list.rows.len() == 1),
        ("513 entries", list.rows.len() == ROWS + 1),
        ("shared places", places.len() < all),
        (
            "overlapping places",
            places.windows(2).any(|pair| pair[1].start < pair[0].end),
        ),
        (
            "up to the text's end",
            places.iter().any(|place| place.end == list.text.len()),
        ),
        ("text over 65,536 bytes", list.text.len() > LIMIT),
        ("spells over 65,536 bytes", spelt.len() > LIMIT),
    ];
    for (what, _) in found.iter().filter(|(_, holds)| *holds) {
        account.count("list taken", what);
    }
}

fn count_refused(list: &List, number: usize, account: &mut Account) {
    account.count("list refused", why(list, number));
    if number <= ROWS + 1 && list.rows.len() > ROWS + 1 {
        account.count("list refused", "more than 513 entries, an earlier one bad");
    }
    let place = match number {
        1 => "the first",
        _ if number > ROWS + 1 => "514 of more",
        _ if number == list.rows.len() => "the last",
        _ => "in the middle",
    };
    account.count("bad entry", place);
}

/// The first thing that entry `number`, which is bad, has against it.
fn why(list: &List, number: usize) -> &'static str {
    let Some(row) = list.rows.get(number - 1) else {
        return "empty list";
    };
    if number > ROWS + 1 {
        return "entry 514";
    }
    bad_kind(number, row.kind)
        .or_else(|| bad_place(list, row))
        .or_else(|| bad_text(list, row, if number == 1 { 253 } else { 40 }))
        .or_else(|| repeated(list, &list.rows[..number - 1], row))
        .unwrap_or("other path")
}

fn bad_kind(number: usize, kind: usize) -> Option<&'static str> {
    match (number, kind) {
        (1, G) => None,
        (1, _) => Some("first entry not G"),
        (_, D | R) => None,
        (_, G) => Some("G further on"),
        (_, 0..=255) => Some("other kind"),
        _ => Some("kind over a byte"),
    }
}

fn bad_place(list: &List, row: &Row) -> Option<&'static str> {
    let parts = [(row.domain, row.domain_len), (row.path, row.path_len)];
    if parts
        .iter()
        .any(|(place, length)| place.checked_add(*length).is_none())
    {
        return Some("sum that wraps");
    }
    if parts
        .iter()
        .any(|(place, length)| place + length > list.text.len())
    {
        return Some("place past the end");
    }
    parts
        .contains(&(list.text.len(), 0))
        .then_some("nothing, at the end")
}

fn bad_text(list: &List, row: &Row, longest: usize) -> Option<&'static str> {
    let (domain, path) = (list.domain(row)?, list.path(row)?);
    if domain.contains(&b'\n') || path.contains(&b'\n') {
        return Some("LF in a domain or a path");
    }
    if domain.contains(&b'\t') {
        return Some("tab in a domain");
    }
    if domain.len() > longest {
        return Some("long domain");
    }
    (!domain.split(|&b| b == b'.').all(is_domain_part)).then_some("other domain")
}

fn repeated(list: &List, earlier: &[Row], row: &Row) -> Option<&'static str> {
    let key = |row: &Row| match row.kind {
        D => list.domain(row),
        _ => list.path(row),
    };
    let own = key(row)?;
    let again = |before: &Row| {
        before.kind == row.kind && key(before).is_some_and(|before| same(before, own))
    };
    let found = earlier.iter().any(again);
    found.then_some(if row.kind == D {
        "repeated domain"
    } else {
        "repeated path"
    })
}
