//! What the account says of texts that name a common name: what became of them, and why they were refused or carried whole.

use plain::mapping::{is_carrier, Clause};
use plain::record::Record;
use plain::run::read_record;
use plain::scratch::Scratch;
use plain::table::Table;

use crate::account::Account;
use crate::common_names::BOUND;

/// How often a segment begins so, case aside; behind a `$` none begins.
fn times(text: &[u8], front: &[u8]) -> usize {
    let begins = |at: &usize| {
        let piece = text[*at..].get(..front.len());
        piece.is_some_and(|piece| piece.eq_ignore_ascii_case(front)) && !text[..*at].ends_with(b"$")
    };
    (0..text.len()).filter(begins).count()
}

/// Whether a text, of a record or of an address, names a common name.
pub fn is_named(text: &[u8]) -> bool {
    times(text, b"/CN=") > 0
}

/// Counts a record that has a common name by what else it has, and by the name's length.
fn count_kinds(account: &mut Account, of: &'static str, text: &[u8], record: &Record) {
    let Some(name) = record.cn else {
        return;
    };
    let mut kind = |holds: bool, name: &str| {
        if holds {
            account.count(of, name);
        }
    };
    let has_dds = !record.dds().is_empty();
    kind(record.s.is_none() && !has_dds, "alone");
    kind(record.s.is_some(), "beside S");
    kind(times(text, b"/PN=") > 0, "beside PN");
    kind(has_dds, "beside DDs");
    kind(name.len() == 1, "of 1 byte");
    kind(name.len() == BOUND - 1, "of 63 bytes");
    kind(name.len() == BOUND, "of 64 bytes");
    kind(name.contains(&b'/') || name.contains(&b'='), "with / or =");
}

/// Counts what an address came to: a record, or a refusal; and by which clause it was carried whole.
pub fn count_address(
    account: &mut Account,
    text: &[u8],
    record: &Record,
    result: Result<(), u8>,
    clause: Option<Clause>,
) {
    if !is_named(text) {
        return;
    }
    let mut kind = |holds: bool, name: &str| {
        if holds {
            account.count("address with CN", name);
        }
    };
    let carried = clause.filter(|_| result.is_ok());
    let is_mapped = result.is_ok() && clause.is_none();
    kind(true, "handed over");
    kind(is_mapped && record.cn.is_some(), "mapped");
    kind(is_mapped && record.cn.is_none(), "mapped as a name");
    kind(carried.is_some(), "carried whole");
    kind(carried == Some(Clause::RepeatedKey), "carried: a key twice");
    kind(
        carried == Some(Clause::NotCanonical),
        "carried: not canonical",
    );
    kind(result == Err(1), "refused with 1");
    kind(result == Err(2), "refused with 2");
    kind(result == Err(3), "refused with 3");
    if is_mapped {
        count_kinds(account, "CN mapped", text, record);
    }
}

/// A carrier, were it not for its common name.
fn is_else_carrier(table: &Table, record: &Record) -> bool {
    let mut without = record.clone();
    without.cn = None;
    is_carrier(table, &without)
}

/// Counts a record text that is refused with 4, by all that may be wrong with it.
fn count_refused(account: &mut Account, text: &[u8], record: Option<&Record>) {
    let mut kind = |holds: bool, name: &str| {
        if holds {
            account.count("record with CN", name);
        }
    };
    let name = record.and_then(|record| record.cn);
    let is_loose = |record: &Record| record.s.is_none() && record.has_name();
    kind(true, "refused with 4");
    kind(times(text, b"/CN=") > 1, "refused: named twice");
    kind(name == Some(b""), "refused: empty");
    kind(
        name.is_some_and(|name| name.len() == BOUND + 1),
        "refused: of 65 bytes",
    );
    kind(
        record.is_some_and(is_loose),
        "refused: G, I or GQ without S",
    );
}

/// Counts what a record text came to: an address, or a refusal; where the text does not read, there is no record.
pub fn count_record(
    account: &mut Account,
    table: &Table,
    text: &[u8],
    record: Option<&Record>,
    result: Result<(), u8>,
) {
    if !is_named(text) {
        return;
    }
    account.count("record with CN", "handed over");
    match (result, record) {
        (Ok(()), Some(record)) => {
            account.count("record with CN", "written");
            if is_else_carrier(table, record) {
                account.count("record with CN", "written: else a carrier");
            }
            count_kinds(account, "CN written", text, record);
        }
        _ => count_refused(account, text, record),
    }
}

/// Whether two record texts that read give the same record.
fn are_same(one: &[u8], other: &[u8]) -> bool {
    let (mut scratch, mut other_scratch) = (Scratch::default(), Scratch::default());
    let (mut record, mut other_record) = (Record::default(), Record::default());
    read_record(one, &mut scratch, &mut record).is_some()
        && read_record(other, &mut other_scratch, &mut other_record).is_some()
        && record.is_same(&other_record)
}

/// Counts what the address that a record text went out as came back as: a record text, or nothing.
pub fn count_back(account: &mut Account, text: &[u8], back: Option<&[u8]>) {
    let how = match back {
        Some(back) if are_same(text, back) => "as it was",
        Some(_) => "as another record",
        None => "refused",
    };
    account.count("CN read back", how);
}
