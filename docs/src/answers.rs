//! Answers single calls, one a line, fields parted by tabs and byte strings in hexadecimal:
//! - `load table`, `a2r table address`, `r2a table room record`: the number, and the line (7) or the text (0; a record's text)
//! - `u2d text`, `d2u text`: the number, and the text (0): a UTCTime's date-time, a date-time's UTCTime
//! - `mailbox line room`: the number, and (0) the address, the phrase's start and its length
//! - `restrict text room`, `unrestrict text room`: the number, and the text (0): a text's coded form, a coded form's text
//! - `tail first second`: the tail
//! - `witness table record-text`: 1 for a record that is canonical, no carrier and does not come back, else 0
//!
//! A record is nine fields (C, ADMD, PRMD, O, S, G, I, GQ, CN; `-` is absent), its units and its DDs, both ending each item in a comma,
//! a DD's type and value parted by a colon.

use std::io::{self, BufRead, Write};

use plain::address::shared_tail;
use plain::dates::{to_822, to_x400};
use plain::levels::OU;
use plain::mailbox;
use plain::mapping::{comes_back, is_carrier, to_address, to_record};
use plain::record::{Dd, Record};
use plain::restricted::{restrict, unrestrict};
use plain::run::read_record;
use plain::scratch::Scratch;
use plain::table::Table;
use plain::text::write_text;

fn bytes(field: &str) -> Vec<u8> {
    let digit = |d: u8| (d as char).to_digit(16).expect("a hexadecimal digit") as u8;
    field
        .as_bytes()
        .chunks(2)
        .map(|pair| digit(pair[0]) * 16 + digit(pair[1]))
        .collect()
}

fn hex(text: &[u8]) -> String {
    text.iter().map(|b| format!("{b:02x}")).collect()
}

/// How many attributes a record has at most once.
const SINGLE: usize = 9;

/// What a record's fields spell, to lend it its values.
struct Spelt {
    values: Vec<Option<Vec<u8>>>,
    units: Vec<Vec<u8>>,
    dds: Vec<(Vec<u8>, Vec<u8>)>,
}

impl Spelt {
    fn new(fields: &[&str]) -> Spelt {
        let value = |field: &&str| Some(*field).filter(|field| *field != "-").map(bytes);
        Spelt {
            values: fields[..SINGLE].iter().map(value).collect(),
            units: fields[SINGLE].split_terminator(',').map(bytes).collect(),
            dds: fields[SINGLE + 1]
                .split_terminator(',')
                .map(|dd| dd.split_once(':').expect("a type and a value"))
                .map(|(k, v)| (bytes(k), bytes(v)))
                .collect(),
        }
    }

    fn record(&self) -> Record<'_> {
        let value = |which: usize| self.values[which].as_deref();
        let mut record = Record::default();
        [record.s, record.g, record.i, record.gq, record.cn] = [4, 5, 6, 7, 8].map(value);
        for level in 0..OU {
            *record.levels.get_mut(level) = value(level);
        }
        for unit in &self.units {
            record.levels.add_unit(unit);
        }
        for (kind, value) in &self.dds {
            record.add_dd(Dd { kind, value });
        }
        record
    }
}

fn room(field: &str) -> usize {
    field.parse().expect("a room")
}

/// The text, if there is room for it.
fn fitting(text: Vec<u8>, room: usize) -> Result<Vec<u8>, u8> {
    Some(text).filter(|text| text.len() <= room).ok_or(6)
}

fn done(result: Result<Vec<u8>, u8>) -> String {
    match result {
        Ok(text) => format!("0\t{}", hex(&text)),
        Err(number) => format!("{number}"),
    }
}

fn mailbox_answer(line: &[u8], room: usize) -> String {
    let found = mailbox::read(line).and_then(|found| {
        let address = fitting(found.address, room)?;
        Ok((address, found.phrase))
    });
    match found {
        Ok((address, phrase)) => {
            format!("0\t{}\t{}\t{}", hex(&address), phrase.start, phrase.length)
        }
        Err(number) => format!("{number}"),
    }
}

fn answer(fields: &[&str]) -> String {
    let text = bytes(fields[1]);
    let in_room = |text| fitting(text, room(fields[2]));
    match fields[0] {
        "tail" => hex(shared_tail(&text, &bytes(fields[2]))),
        "u2d" => done(to_822(&text)),
        "d2u" => done(to_x400(&text)),
        "mailbox" => mailbox_answer(&text, room(fields[2])),
        "restrict" => done(restrict(&text).and_then(in_room)),
        "unrestrict" => done(unrestrict(&text).and_then(in_room)),
        _ => under_table(&text, fields),
    }
}

fn under_table(table: &[u8], fields: &[&str]) -> String {
    let table = match Table::read(table) {
        Ok(table) => table,
        Err(line) => return format!("7\t{line}"),
    };
    match fields[0] {
        "a2r" => done(record_text(&table, &bytes(fields[2]))),
        "r2a" => done(address(&table, &Spelt::new(&fields[3..]), room(fields[2]))),
        "load" => "0".to_string(),
        "witness" => u8::from(is_witness(&table, &bytes(fields[2]))).to_string(),
        _ => panic!("no such call"),
    }
}

fn record_text(table: &Table, address: &[u8]) -> Result<Vec<u8>, u8> {
    let (mut scratch, mut record) = (Scratch::default(), Record::default());
    to_record(table, address, &mut scratch, &mut record).0?;
    let mut text = Vec::new();
    write_text(&record, 0, &mut text);
    Ok(text)
}

fn address(table: &Table, record: &Spelt, room: usize) -> Result<Vec<u8>, u8> {
    let mut text = Vec::new();
    to_address(table, &record.record(), room, &mut text)?;
    Ok(text)
}

fn is_witness(table: &Table, text: &[u8]) -> bool {
    let (mut scratch, mut record) = (Scratch::default(), Record::default());
    read_record(text, &mut scratch, &mut record).is_some()
        && record.is_canonical()
        && !is_carrier(table, &record)
        && !comes_back(table, &record)
}

fn main() -> io::Result<()> {
    let mut output = io::BufWriter::new(io::stdout().lock());
    for line in io::stdin().lock().lines() {
        let line = line?;
        let fields: Vec<&str> = line.split('\t').collect();
        writeln!(output, "{}", answer(&fields))?;
    }
    output.flush()
}
