//! Calls that make one text of another and need no table.

use crate::account::Account;
use crate::lent::Lent;
use crate::library;
use crate::random::Random;
use crate::round::{hex, Compared};

/// One call: what it must return and leave in a buffer of this room.
pub fn converted(
    random: &mut Random,
    account: &mut Account,
    function: &'static str,
    call: library::Conversion,
    text: &[u8],
    wanted: &Result<Vec<u8>, u8>,
    room: usize,
) -> Compared {
    let (number, written) = match wanted {
        Ok(written) if written.len() <= room => (0, &written[..]),
        Ok(_) => (6, &b""[..]),
        Err(number) => (usize::from(*number), &b""[..]),
    };
    let mut lent = Lent::new(random, room);
    let found = call(text, lent.room());
    account.calls += 1;
    account.count_number(function, number, 0);
    if found == number + 16 * written.len() && lent.holds(written) {
        return Ok(());
    }
    Err(format!(
        "{function}, room {room}: wanted {number} with {}, found {} with {}; differs: {}\ntext {}\nwhich is {}",
        written.len(),
        found % 16,
        found / 16,
        lent.first_difference(written),
        hex(text),
        String::from_utf8_lossy(text).escape_debug()
    ))
}

/// What a call writes, by the library alone and in this room.
pub fn by_the_library(
    account: &mut Account,
    call: library::Conversion,
    text: &[u8],
    room: usize,
) -> Vec<u8> {
    let mut out = vec![0; room];
    let answer = call(text, &mut out);
    account.calls += 1;
    match answer % 16 {
        0 => out[..(answer / 16).min(room)].to_vec(),
        number => format!("refused with {number}").into_bytes(),
    }
}
