//! The two mappings, with document 01's numbers.

use crate::address::{self, Parts};
use crate::chars::{has_loose_spaces, is_domain, is_domain_part, run_of, same, READ};
use crate::levels::{alike, is_level_value, Levels, LEVELS, OU};
use crate::names::{read_name, write_short};
use crate::record::{Dd, Record, DD_BOUND};
use crate::scratch::{Room, Scratch};
use crate::table::{Row, Table};
use crate::text::{add_space_admd, read_text, write_text, Fault};

/// Why an address is carried whole: the first clause of the rules' list that was found to hold.
#[derive(Clone, Copy, Debug, PartialEq, Eq, PartialOrd, Ord)]
pub enum Clause {
    NoRow,
    NoDomainPart,
    PastBound,
    PastOu4,
    EmptyLocal,
    LooseSpaces,
    OtherCharacter,
    NoReading,
    UnknownKey,
    RepeatedKey,
    NameBesidePn,
    PnIsNoName,
    NamedAgain,
    NotCanonical,
}

pub const CLAUSES: usize = 14;

/// Address to record: fills an empty record, or returns its refusal (2, 1 or 3); and the clause by which it was carried.
pub fn to_record<'a>(
    table: &'a Table,
    text: &'a [u8],
    scratch: &'a mut Scratch,
    record: &mut Record<'a>,
) -> (Result<(), u8>, Option<Clause>) {
    if text.len() > address::LIMIT {
        return (Err(2), None);
    }
    let Some(parts) = address::shape(text) else {
        return (Err(1), None);
    };
    // The local part may lose backslashes, then its values `$`, and then a name its dots.
    let (mut room, coded) = scratch.room(3 * parts.local.len());
    match map(table, &parts, &mut room, record) {
        Ok(()) => (Ok(()), None),
        Err(clause) => {
            *record = Record::default();
            (carry(table, text, coded, record), Some(clause))
        }
    }
}

fn carry<'a>(
    table: &'a Table,
    text: &[u8],
    coded: &'a mut Vec<u8>,
    record: &mut Record<'a>,
) -> Result<(), u8> {
    coded.clear();
    address::code(text, coded);
    if coded.len() > DD_BOUND {
        return Err(3);
    }
    settle(&mut record.levels, table.gateway());
    record.add_dd(Dd {
        kind: b"RFC-822",
        value: coded,
    });
    Ok(())
}

/// Sets the levels of a row's path.
fn settle<'a>(levels: &mut Levels<'a>, row: Row<'a>) {
    for (level, value) in row.levels().enumerate() {
        if let Some(value) = value {
            levels.set(level, value);
        }
    }
}

/// Fills the record of an address that is not carried whole.
fn map<'a>(
    table: &'a Table,
    parts: &Parts<'a>,
    room: &mut Room<'a>,
    record: &mut Record<'a>,
) -> Result<(), Clause> {
    let mut settled = Levels::default();
    let count = settle_by_domain(table, parts.domain, &mut settled)?;
    let local = address::unquote(parts.local, room);
    if local.is_empty() {
        return Err(Clause::EmptyLocal);
    }
    if has_loose_spaces(local) {
        return Err(Clause::LooseSpaces);
    }
    if run_of(READ, local) < local.len() {
        return Err(Clause::OtherCharacter);
    }
    read_local(local, room, record)?;
    if (0..count.min(OU)).any(|level| record.levels.get(level).is_some()) {
        return Err(Clause::NamedAgain);
    }
    record.levels.add_settled(&settled);
    add_space_admd(record);
    if record.is_canonical() {
        Ok(())
    } else {
        Err(Clause::NotCanonical)
    }
}

/// Sets the levels that the domain settles, and returns how many they are, omitted ones too.
fn settle_by_domain<'a>(
    table: &'a Table,
    domain: &'a [u8],
    levels: &mut Levels<'a>,
) -> Result<usize, Clause> {
    if same(domain, table.gateway().domain) {
        return Ok(0);
    }
    let (row, left) = table.row_of_domain(domain).ok_or(Clause::NoRow)?;
    if !is_domain(domain) {
        return Err(Clause::NoDomainPart);
    }
    settle(levels, row);
    let mut level = row.fields();
    for part in left.rsplit(|&b| b == b'.').filter(|part| !part.is_empty()) {
        if level == LEVELS {
            return Err(Clause::PastOu4);
        }
        if !is_level_value(level, part) {
            return Err(Clause::PastBound);
        }
        levels.set(level, part);
        level += 1;
    }
    Ok(level)
}

fn read_local<'a>(
    local: &'a [u8],
    room: &mut Room<'a>,
    record: &mut Record<'a>,
) -> Result<(), Clause> {
    match read_text(local, room, record) {
        Some(Ok(())) => Ok(()),
        Some(Err(Fault::UnknownKey)) => Err(Clause::UnknownKey),
        Some(Err(Fault::RepeatedKey)) => Err(Clause::RepeatedKey),
        Some(Err(Fault::NameBesidePn)) => Err(Clause::NameBesidePn),
        Some(Err(Fault::PnIsNoName)) => Err(Clause::PnIsNoName),
        None => {
            *record = Record::default();
            read_name(local, room, record).ok_or(Clause::NoReading)
        }
    }
}

/// A carrier: the gateway's path, no name, no common name either, and one DD of type RFC-822.
pub fn is_carrier(table: &Table, record: &Record) -> bool {
    let mut named = table.gateway().levels();
    !record.has_name()
        && record.cn.is_none()
        && matches!(record.dds(), [dd] if dd.is_rfc_822())
        && record
            .levels
            .iter()
            .all(|value| alike(value, named.next().flatten()))
}

/// Record to address: writes the text, or returns its refusal (4, 5; 6 where `room` is short) and leaves `out` as it was.
pub fn to_address(
    table: &Table,
    record: &Record,
    room: usize,
    out: &mut Vec<u8>,
) -> Result<(), u8> {
    let start = out.len();
    let result = match write_address(table, record, out) {
        Ok(()) if out.len() - start > room => Err(6),
        result => result,
    };
    if result.is_err() {
        out.truncate(start);
    }
    result
}

/// Writes the address of any length; with a refusal, what is written has no use.
fn write_address(table: &Table, record: &Record, out: &mut Vec<u8>) -> Result<(), u8> {
    if !record.is_canonical() {
        return Err(4);
    }
    if !is_carrier(table, record) {
        send(table, record, out);
        return Ok(());
    }
    let start = out.len();
    address::decode(record.dds()[0].value, out)
        .and_then(|()| address::shape(&out[start..]))
        .map(|_| ())
        .ok_or(5)
}

/// Writes the address of a record that is no carrier.
fn send(table: &Table, record: &Record, out: &mut Vec<u8>) {
    let (domain, settled) = match table.row_of_levels(&record.levels) {
        Some(row) => (row.domain, row.fields()),
        None => (table.gateway().domain, 0),
    };
    let mut left = settled;
    while settled > 0 && left < LEVELS && record.levels.get(left).is_some_and(is_domain_part) {
        left += 1;
    }
    let start = out.len();
    write_local(record, left, out);
    address::quote(out, start);
    out.push(b'@');
    for level in (settled..left).rev() {
        out.extend_from_slice(record.levels.get(level).unwrap_or_default());
        out.push(b'.');
    }
    out.extend_from_slice(domain);
}

/// Writes what the local part says: the personal name alone where nothing else is left, of the levels from `left` on too, and the rules
/// have it short.
fn write_local(record: &Record, left: usize, out: &mut Vec<u8>) {
    let only_name = record.dds().is_empty()
        && record.cn.is_none()
        && record.levels.iter().skip(left).all(|value| value.is_none());
    if !(only_name && write_short(record, out)) {
        write_text(record, left, out);
    }
}

/// A record comes back when it goes out, and what went out gives the same record.
pub fn comes_back(table: &Table, record: &Record) -> bool {
    let mut text = Vec::new();
    if to_address(table, record, usize::MAX, &mut text).is_err() {
        return false;
    }
    let (mut scratch, mut back) = (Scratch::default(), Record::default());
    let (mapped, _) = to_record(table, &text, &mut scratch, &mut back);
    mapped.is_ok() && back.is_same(record)
}
