//! Personal names in their short form, read and written.

use crate::record::Record;
use crate::scratch::Room;

/// A personal name: an optional given name (two or more characters, no dot) and dot, then single letters each with a dot, then a
/// non-empty surname.
pub fn read_name<'a>(text: &'a [u8], room: &mut Room<'a>, record: &mut Record<'a>) -> Option<()> {
    let dot = text.iter().position(|&b| b == b'.');
    let given = dot.filter(|dot| *dot >= 2).map(|dot| &text[..dot]);
    let behind = given.map_or(text, |given| &text[given.len() + 1..]);
    let mut surname = behind;
    while let [letter, b'.', rest @ ..] = surname {
        if !letter.is_ascii_alphabetic() {
            break;
        }
        surname = rest;
    }
    if surname.is_empty() {
        return None;
    }
    let initials = &behind[..behind.len() - surname.len()];
    record.g = given;
    record.i = match initials {
        [] => None,
        _ => Some(room.keep(initials.iter().step_by(2).copied())),
    };
    record.s = Some(surname);
    Some(())
}

/// Whether the rules have a canonical record's name in its short form.
fn is_short(record: &Record) -> bool {
    let Some(surname) = record.s else {
        return false;
    };
    let first = record.g.or(record.i).unwrap_or(surname);
    let is_given = |given: &[u8]| given.len() >= 2 && !given.contains(&b'.');
    let is_surname = match surname.iter().position(|&b| b == b'.') {
        Some(dot) => dot >= 2 && (record.g.is_some() || record.i.is_some()),
        None => true,
    };
    record.gq.is_none()
        && record
            .i
            .is_none_or(|initials| initials.iter().all(u8::is_ascii_alphabetic))
        && record.g.is_none_or(is_given)
        && is_surname
        && !first.starts_with(b"/")
}

/// Writes the short form of a canonical record's name, where the rules have it; returns whether they do.
pub fn write_short(record: &Record, out: &mut Vec<u8>) -> bool {
    if !is_short(record) {
        return false;
    }
    if let Some(given) = record.g {
        out.extend_from_slice(given);
        out.push(b'.');
    }
    for &letter in record.i.unwrap_or_default() {
        out.extend_from_slice(&[letter, b'.']);
    }
    out.extend_from_slice(record.s.unwrap_or_default());
    true
}
