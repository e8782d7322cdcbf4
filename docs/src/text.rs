//! Record text, read and written.

use crate::chars::{is, is_printable, run_of, same, BARE, KEY, MARK};
use crate::levels::{Value, ADMD, C, LEVELS, O, PRMD};
use crate::names::read_name;
use crate::record::{Dd, Record};
use crate::scratch::Room;

/// Why a text that reads as record text gives no record.
#[derive(Clone, Copy, Debug, PartialEq)]
pub enum Fault {
    UnknownKey,
    RepeatedKey,
    NameBesidePn,
    PnIsNoName,
}

enum Key<'a> {
    /// A level above the units.
    Level(usize),
    Unit,
    Cn,
    S,
    G,
    I,
    Gq,
    Pn,
    Dd(&'a [u8]),
    Unknown,
}

/// Reads from the front of what is left.
struct Reader<'a, 'r> {
    rest: &'a [u8],
    room: &'r mut Room<'a>,
}

impl<'a> Reader<'a, '_> {
    /// The text up to a bare `stop`, `$` taken off; a bare `/` or `=` elsewhere, or a `$` that quotes nothing, is unreadable.
    fn quoted_until(&mut self, stop: u8) -> Option<&'a [u8]> {
        let text = self.rest;
        let (mut end, mut is_quoted) = (0, false);
        loop {
            end += run_of(BARE, &text[end..]);
            match *text.get(end)? {
                b if b == stop => break,
                b'$' => {
                    text.get(end + 1).filter(|b| is_printable(**b))?;
                    is_quoted = true;
                    end += 2;
                }
                _ => return None,
            }
        }
        self.rest = &text[end + 1..];
        let taken = &text[..end];
        if is_quoted {
            return Some(self.room.keep_unmarked(taken, b'$'));
        }
        Some(taken)
    }

    /// A key with its `=`: letters, digits or hyphens; `DD` alone takes a dot and a type.
    fn key(&mut self) -> Option<Key<'a>> {
        let text = self.rest;
        let (key, behind) = text.split_at(run_of(KEY, text));
        let (mark, behind) = behind.split_first()?;
        self.rest = behind;
        match mark {
            b'=' if !key.is_empty() => Some(plain_key(key)),
            b'.' if same(key, b"DD") => self.quoted_until(b'=').map(Key::Dd),
            _ => None,
        }
    }
}

/// The key, case aside, that has no type behind it.
fn plain_key(key: &[u8]) -> Key<'static> {
    match key {
        [b'C' | b'c'] => Key::Level(C),
        [b'A' | b'a', b'D' | b'd', b'M' | b'm', b'D' | b'd'] => Key::Level(ADMD),
        [b'P' | b'p', b'R' | b'r', b'M' | b'm', b'D' | b'd'] => Key::Level(PRMD),
        [b'O' | b'o'] => Key::Level(O),
        [b'O' | b'o', b'U' | b'u'] => Key::Unit,
        [b'C' | b'c', b'N' | b'n'] => Key::Cn,
        [b'S' | b's'] => Key::S,
        [b'G' | b'g'] => Key::G,
        [b'I' | b'i'] => Key::I,
        [b'G' | b'g', b'Q' | b'q'] => Key::Gq,
        [b'P' | b'p', b'N' | b'n'] => Key::Pn,
        _ if same(key, b"RFC-822") => Key::Dd(b"RFC-822"),
        _ => Key::Unknown,
    }
}

/// Reads record text, one or more of `/key=value`, then `/`, into an empty record. None where the text is no record text; then, and with
/// a fault, what is in the record has no use.
pub fn read_text<'a>(
    text: &'a [u8],
    room: &mut Room<'a>,
    record: &mut Record<'a>,
) -> Option<Result<(), Fault>> {
    let rest = text.strip_prefix(b"/").filter(|rest| !rest.is_empty())?;
    let mut reader = Reader { rest, room };
    let mut named = Named {
        record,
        pn: None,
        fault: None,
    };
    while !reader.rest.is_empty() {
        let key = reader.key()?;
        let value = reader.quoted_until(b'/')?;
        named.add(key, value);
    }
    Some(named.finish(room))
}

/// What the segments name, as far as they are read. The units stand as in the text, the most significant last.
struct Named<'a, 'r> {
    record: &'r mut Record<'a>,
    pn: Value<'a>,
    /// The first fault.
    fault: Option<Fault>,
}

impl<'a> Named<'a, '_> {
    fn add(&mut self, key: Key<'a>, value: &'a [u8]) {
        let record = &mut *self.record;
        let place = match key {
            Key::Unit => return record.levels.add_unit(value),
            Key::Dd(kind) => return record.add_dd(Dd { kind, value }),
            Key::Unknown => return self.note(Fault::UnknownKey),
            Key::Level(level) => record.levels.get_mut(level),
            Key::Cn => &mut record.cn,
            Key::S => &mut record.s,
            Key::G => &mut record.g,
            Key::I => &mut record.i,
            Key::Gq => &mut record.gq,
            Key::Pn => &mut self.pn,
        };
        if place.is_some() {
            return self.note(Fault::RepeatedKey);
        }
        *place = Some(value);
    }

    fn note(&mut self, fault: Fault) {
        self.fault.get_or_insert(fault);
    }

    /// What is left to do when all segments are read.
    fn finish(self, room: &mut Room<'a>) -> Result<(), Fault> {
        if let Some(fault) = self.fault {
            return Err(fault);
        }
        if let Some(pn) = self.pn {
            if self.record.has_name() {
                return Err(Fault::NameBesidePn);
            }
            read_name(pn, room, self.record).ok_or(Fault::PnIsNoName)?;
        }
        self.record.levels.reverse_units();
        Ok(())
    }
}

/// Step 4: C present without ADMD means that ADMD is one space.
pub fn add_space_admd(record: &mut Record) {
    if record.levels.get(C).is_some() && record.levels.get(ADMD).is_none() {
        record.levels.set(ADMD, b" ");
    }
}

/// Writes a value, if there is one, behind its key, with a `$` before each `/` and `=`.
fn write_value<const LENGTH: usize>(key: &[u8; LENGTH], value: Value, out: &mut Vec<u8>) {
    let Some(mut rest) = value else {
        return;
    };
    out.extend_from_slice(key);
    while let Some(at) = rest.iter().position(|&b| is(MARK, b)) {
        out.extend_from_slice(&rest[..at]);
        out.extend_from_slice(&[b'$', rest[at]]);
        rest = &rest[at + 1..];
    }
    out.extend_from_slice(rest);
}

/// Writes record text of the DDs, the names, and the levels from `from` on, in the order that the rules give.
pub fn write_text(record: &Record, from: usize, out: &mut Vec<u8>) {
    for dd in record.dds() {
        if dd.is_rfc_822() {
            write_value(b"/RFC-822=", Some(dd.value), out);
        } else {
            write_value(b"/DD.", Some(dd.kind), out);
            write_value(b"=", Some(dd.value), out);
        }
    }
    write_value(b"/CN=", record.cn, out);
    write_value(b"/G=", record.g, out);
    write_value(b"/I=", record.i, out);
    write_value(b"/S=", record.s, out);
    write_value(b"/GQ=", record.gq, out);
    for level in (from..LEVELS).rev() {
        let value = record.levels.get(level);
        match level {
            C => write_value(b"/C=", value, out),
            ADMD => write_value(b"/ADMD=", value, out),
            PRMD => write_value(b"/PRMD=", value, out),
            O => write_value(b"/O=", value, out),
            _ => write_value(b"/OU=", value, out),
        }
    }
    out.push(b'/');
}
