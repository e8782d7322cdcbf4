//! Single calls of the two mappings, the check and the shared tail, each held against the rules.

use plain::address;
use plain::chars::same;
use plain::mapping::{self, comes_back, is_carrier};
use plain::record::Record;
use plain::run::read_record;
use plain::scratch::Scratch;
use plain::table::Table;

use crate::account::Account;
use crate::addresses::{self, EARLIER_LIMIT};
use crate::common_name_account::{count_address, count_back, count_record, is_named};
use crate::damage::noise;
use crate::lent::Lent;
use crate::library::{self, ANSWER_ROOM};
use crate::owned::written;
use crate::random::Random;
use crate::records;
use crate::round::{hex, Compared, Round};
use crate::tables::{joined, Sample};

/// A text, or a number and its line.
type Wanted = Result<Vec<u8>, (usize, usize)>;

/// Room for an answer of this length, at its edge more often than not.
pub fn room_about(random: &mut Random, length: usize) -> usize {
    match random.below(8) {
        0 => length.saturating_sub(1),
        1 => length + 1,
        2 => random.below(length + 1),
        3 => 0,
        4 | 5 => length,
        _ => ANSWER_ROOM,
    }
}

fn mapped(
    round: &mut Round,
    account: &mut Account,
    function: &'static str,
    call: library::Mapping,
    text: &[u8],
    wanted: &Wanted,
) -> Compared {
    let room = room_about(&mut round.random, wanted.as_ref().map_or(20, Vec::len));
    let (number, count, written) = match wanted {
        Ok(written) if written.len() <= room => (0, written.len(), &written[..]),
        Ok(_) => (6, 0, &b""[..]),
        Err((number, line)) => (*number, *line, &b""[..]),
    };
    let mut lent = Lent::new(&mut round.random, room);
    let found = call(round.given(), text, lent.room());
    account.calls += 1;
    account.count_number(function, number, count);
    if found != number + 16 * count || !lent.holds(written) {
        return Err(format!(
            "{function}, room {room}: wanted {number} with {count}, found {} with {}; differs: {}\n{}\ntext {}",
            found % 16,
            found / 16,
            lent.first_difference(written),
            round.shown(),
            hex(text)
        ));
    }
    round
        .beside_text(account, function, found, &lent, |table, out| {
            call(table, text, out)
        })
        .map_err(|why| format!("{why}\ntext {}", hex(text)))
}

fn settled_by(table: &Table, address: &[u8]) -> &'static str {
    let gateway = table.gateway().domain;
    let domain = &address[address.len() - gateway.len().min(address.len())..];
    match same(domain, gateway) {
        true => "at the gateway",
        false => "by a row",
    }
}

/// Counts an address whose length is the limit, the earlier one, or next to either.
fn count_length(account: &mut Account, length: usize, is_mapped: bool) {
    let kinds = [
        (length == EARLIER_LIMIT, "2,048 bytes"),
        (length == EARLIER_LIMIT + 1, "2,049 bytes"),
        (length == address::LIMIT - 1, "2,303 bytes"),
        (length == address::LIMIT, "2,304 bytes"),
        (length == address::LIMIT && is_mapped, "2,304 bytes, mapped"),
        (length == address::LIMIT + 1, "2,305 bytes"),
    ];
    for (_, name) in kinds.iter().filter(|(holds, _)| *holds) {
        account.count("address by length", name);
    }
}

/// What the rules make of an address: the record's text, or the refusal.
fn received(table: &Table, text: &[u8], account: &mut Account) -> Result<Vec<u8>, u8> {
    let (mut scratch, mut record) = (Scratch::default(), Record::default());
    let (result, clause) = mapping::to_record(table, text, &mut scratch, &mut record);
    match (result, clause) {
        (_, Some(clause)) => account.count_clause(clause, result.is_err()),
        (Ok(()), None) => account.count("address mapped", settled_by(table, text)),
        (Err(_), None) => {}
    }
    count_length(account, text.len(), result.is_ok() && clause.is_none());
    count_address(account, text, &record, result, clause);
    result.map(|()| written(&record, 0))
}

/// One call of address to record, by the library and by the rules.
fn receive(round: &mut Round, account: &mut Account, text: &[u8]) -> Result<Wanted, String> {
    let wanted = match &round.table {
        Err(line) => Err((7, *line)),
        Ok(table) => received(table, text, account).map_err(|number| (usize::from(number), 0)),
    };
    let function = round.name("to_record", "list_to_record");
    mapped(round, account, function, library::to_record, text, &wanted)?;
    Ok(wanted)
}

pub fn to_record(round: &mut Round, account: &mut Account) -> Compared {
    let text = addresses::address(&mut round.random, &round.sample);
    let text = round.spoiled(text);
    receive(round, account, &text).map(|_| ())
}

fn sent_as(table: &Table, record: &Record, address: &[u8]) -> &'static str {
    match address {
        _ if is_carrier(table, record) => "as a carrier",
        [b'/', ..] | [b'"', b'/', ..] => "as record text",
        _ => "as a name",
    }
}

/// What the rules make of a record text: the record's address, or the refusal.
fn sent(table: &Table, text: &[u8], account: &mut Account) -> Result<Vec<u8>, u8> {
    let (mut scratch, mut record) = (Scratch::default(), Record::default());
    let read = read_record(text, &mut scratch, &mut record);
    let mut address = Vec::new();
    let result = read
        .ok_or(4)
        .and_then(|()| mapping::to_address(table, &record, usize::MAX, &mut address));
    count_record(account, table, text, read.map(|()| &record), result);
    result?;
    account.count("record sent", sent_as(table, &record, &address));
    Ok(address)
}

pub fn to_address(round: &mut Round, account: &mut Account) -> Compared {
    let text = records::record_text(&mut round.random, &round.sample);
    let text = round.spoiled(text);
    let wanted = match &round.table {
        Err(line) => Err((7, *line)),
        Ok(table) => sent(table, &text, account).map_err(|number| (usize::from(number), 0)),
    };
    let function = round.name("to_address", "list_to_address");
    mapped(
        round,
        account,
        function,
        library::to_address,
        &text,
        &wanted,
    )?;
    // What a record with a common name went out as is read again.
    if let (Ok(address), true) = (wanted, is_named(&text)) {
        let back = receive(round, account, &address)?;
        count_back(account, &text, back.as_deref().ok());
    }
    Ok(())
}

/// Whether this is the text of a canonical record, no carrier, that does not come back.
fn is_witness(table: &Table, text: &[u8]) -> bool {
    let (mut scratch, mut record) = (Scratch::default(), Record::default());
    read_record(text, &mut scratch, &mut record).is_some()
        && record.is_canonical()
        && !is_carrier(table, &record)
        && !comes_back(table, &record)
        && written(&record, 0) == text
}

/// Some records near the rows of a table that was found sound must come back.
fn all_come_back(
    random: &mut Random,
    sample: &Sample,
    table: &Table,
    account: &mut Account,
) -> Compared {
    for _ in 0..if sample.rows.len() <= 40 { 40 } else { 4 } {
        let made = records::record(random, sample);
        let record = made.lent();
        if !record.is_canonical() || is_carrier(table, &record) {
            continue;
        }
        if !comes_back(table, &record) {
            let text = made.text(0);
            return Err(format!(
                "check: 0, but this does not come back: {}",
                hex(&text)
            ));
        }
        account.came_back += 1;
        if record.cn.is_some() {
            account.count("CN under a sound table", "came back");
        }
    }
    Ok(())
}

pub fn check(round: &mut Round, account: &mut Account) -> Compared {
    let function = round.name("check", "list_check");
    let rooms = [0, 1, 18, 26, 40, ANSWER_ROOM, ANSWER_ROOM, ANSWER_ROOM];
    let room = *round.random.pick(&rooms);
    let mut lent = Lent::new(&mut round.random, room);
    let found = library::check(round.given(), lent.room());
    account.calls += 1;
    judged(round, account, function, room, found, &lent).map_err(|why| {
        format!(
            "{function}, room {room}: found {} with {}: {why}\n{}",
            found % 16,
            found / 16,
            round.shown()
        )
    })?;
    round.beside_text(account, function, found, &lent, library::check)
}

/// What the rules have against an answer of the check, and what it left in a buffer of this room.
fn judged(
    round: &mut Round,
    account: &mut Account,
    function: &'static str,
    room: usize,
    found: usize,
    lent: &Lent,
) -> Compared {
    let failed = |why: &str| Err(why.to_string());
    let count = found / 16;
    let table = match &round.table {
        Err(line) => {
            account.count_number(function, 7, *line);
            if found != 7 + 16 * line || !lent.holds(b"") {
                return failed(&format!("wanted 7 with {line} and the buffer as before"));
            }
            return Ok(());
        }
        Ok(table) => table,
    };
    match found % 16 {
        0 if count != 0 || !lent.holds(b"") => failed("wanted no count and the buffer as before"),
        0 => {
            account.count(function, "0");
            all_come_back(&mut round.random, &round.sample, table, account)
        }
        8 if count <= room => {
            account.count(function, "8");
            let witness = lent.front(count).to_vec();
            if !lent.holds(&witness) {
                return failed("wanted the buffer behind the text as before");
            }
            if !is_witness(table, &witness) {
                return failed(&format!("this is no witness: {}", hex(&witness)));
            }
            Ok(())
        }
        8 => {
            account.count(function, "8, no room");
            if !lent.holds(b"") {
                return failed("wanted the buffer as before, since the text does not fit");
            }
            let mut lent = Lent::new(&mut round.random, count);
            let again = library::check(round.given(), lent.room());
            account.calls += 1;
            if again != found || !is_witness(table, lent.front(count)) {
                return failed("with just the room that it asked for, no witness");
            }
            Ok(())
        }
        _ => failed("no number that a check can give for a table that is well-formed"),
    }
}

fn dotted(random: &mut Random, sample: &Sample) -> Vec<u8> {
    let mut text = Vec::new();
    for _ in 0..random.below(6) {
        let label = if random.one_in(6) {
            Vec::new()
        } else {
            sample.label(random)
        };
        text = [&label[..], b".", &text].concat();
    }
    text.truncate(text.len().saturating_sub(usize::from(!random.one_in(4))));
    text
}

pub fn shared_tail(round: &mut Round, account: &mut Account) -> Compared {
    let tail = dotted(&mut round.random, &round.sample);
    let mut one = || {
        let front = match round.random.below(6) {
            0 => return noise(&mut round.random, 60),
            1 => return dotted(&mut round.random, &round.sample),
            2 => return round.random.cased(&tail),
            _ => dotted(&mut round.random, &round.sample),
        };
        let text = joined(&front, &tail);
        round.random.cased(&text)
    };
    let (first, second) = (one(), one());
    let (first, second) = (round.spoiled(first), round.spoiled(second));
    let wanted = address::shared_tail(&first, &second).len();
    let found = library::shared_tail(&first, &second);
    account.calls += 1;
    account.count(
        "shared_tail",
        match wanted {
            0 => "nothing",
            _ if wanted == first.len() => "all",
            _ => "a part",
        },
    );
    if found == wanted {
        return Ok(());
    }
    Err(format!(
        "shared_tail: wanted {wanted}, found {found}\nfirst {}\nsecond {}",
        hex(&first),
        hex(&second)
    ))
}
