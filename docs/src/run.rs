//! `orroute`'s lines.

use crate::mapping::{to_address, to_record};
use crate::record::Record;
use crate::scratch::Scratch;
use crate::table::Table;
use crate::text::{add_space_admd, read_text, write_text};

/// The longest line, without its LF.
pub const LIMIT: usize = 4096;

/// Fills an empty record with what a record text gives by steps 2 and 4; None is refusal 4.
pub fn read_record<'a>(
    text: &'a [u8],
    scratch: &'a mut Scratch,
    record: &mut Record<'a>,
) -> Option<()> {
    // Values may lose `$`, and then a name its dots.
    let (mut room, _) = scratch.room(2 * text.len());
    read_text(text, &mut room, record)?.ok()?;
    add_space_admd(record);
    Some(())
}

/// Writes the other form of a line's address or record, or returns the refusal.
fn answer(
    table: &Result<Table, usize>,
    line: &[u8],
    scratch: &mut Scratch,
    out: &mut Vec<u8>,
) -> Result<(), u8> {
    if line.len() > LIMIT {
        return Err(1);
    }
    let (tag, rest) = match line {
        [tag @ (b'A' | b'O'), b'\t', rest @ ..] => (*tag, rest),
        _ => return Err(1),
    };
    let table = table.as_ref().map_err(|_| 7)?;
    let mut record = Record::default();
    if tag == b'A' {
        to_record(table, rest, scratch, &mut record).0?;
        write_text(&record, 0, out);
        return Ok(());
    }
    read_record(rest, scratch, &mut record).ok_or(4)?;
    to_address(table, &record, usize::MAX, out)
}

/// Writes the answer to one line, which is without its LF, and an LF behind it.
pub fn answer_line(
    table: &Result<Table, usize>,
    line: &[u8],
    scratch: &mut Scratch,
    out: &mut Vec<u8>,
) {
    let start = out.len();
    out.extend_from_slice(b"0\t");
    if let Err(number) = answer(table, line, scratch, out) {
        out.truncate(start);
        out.push(b'0' + number);
    }
    out.push(b'\n');
}

/// The answers to a run of lines.
pub fn run(table: &Result<Table, usize>, input: &[u8]) -> Vec<u8> {
    let (mut scratch, mut out) = (Scratch::default(), Vec::new());
    for line in input.split_inclusive(|&b| b == b'\n') {
        let line = line.strip_suffix(b"\n").unwrap_or(line);
        answer_line(table, line, &mut scratch, &mut out);
    }
    out
}
