//! Internet addresses: the accepted shape, unquoting, and the coding of an address that is carried whole.

use crate::chars::{dotted_atoms, is, is_dotted_atoms, same, ITSELF};
use crate::scratch::Room;

/// The longest address that is taken.
pub const LIMIT: usize = 2304;

pub struct Parts<'a> {
    pub local: &'a [u8],
    pub domain: &'a [u8],
}

/// The length of the quoted string at the front, its quotes included.
fn quoted_string(text: &[u8]) -> Option<usize> {
    let is_inner = |b: &u8| (32..=126).contains(b);
    let mut at = 1;
    loop {
        match *text.get(at)? {
            b'"' => return Some(at + 1),
            b'\\' => {
                text.get(at + 1).filter(|b| is_inner(b))?;
                at += 2;
            }
            b if is_inner(&b) => at += 1,
            _ => return None,
        }
    }
}

/// The accepted shape: a local part, `@`, a domain.
pub fn shape(text: &[u8]) -> Option<Parts<'_>> {
    let end = match text.first()? {
        b'"' => quoted_string(text)?,
        _ => dotted_atoms(text)?,
    };
    let (local, rest) = text.split_at(end);
    let domain = rest.strip_prefix(b"@")?;
    is_dotted_atoms(domain).then_some(Parts { local, domain })
}

/// What a local part says: without the quotes and backslashes of a quoted string.
pub fn unquote<'a>(local: &'a [u8], room: &mut Room<'a>) -> &'a [u8] {
    match local {
        [b'"', inner @ .., b'"'] if inner.contains(&b'\\') => room.keep_unmarked(inner, b'\\'),
        [b'"', inner @ .., b'"'] => inner,
        _ => local,
    }
}

/// Makes the text from `start` on a local part: bare where it is atoms joined by dots, else quoted. Record text and names hold neither
/// quote nor backslash.
pub fn quote(out: &mut Vec<u8>, start: usize) {
    if !is_dotted_atoms(&out[start..]) {
        out.insert(start, b'"');
        out.push(b'"');
    }
}

const LETTERS: [(u8, u8); 7] = [
    (b'a', b'@'),
    (b'p', b'%'),
    (b'b', b'!'),
    (b'q', b'"'),
    (b'u', b'_'),
    (b'l', b'('),
    (b'r', b')'),
];

/// Writes the value that carries an address.
pub fn code(text: &[u8], out: &mut Vec<u8>) {
    let mut before = 0;
    for &b in text {
        if is(ITSELF, b) || (b == b' ' && before != b' ') {
            out.push(b);
        } else {
            code_group(b, out);
        }
        before = b;
    }
}

fn code_group(b: u8, out: &mut Vec<u8>) {
    if let Some((letter, _)) = LETTERS.iter().find(|(_, coded)| *coded == b) {
        out.extend_from_slice(&[b'(', *letter, b')']);
    } else {
        let digit = |unit: u8| b'0' + b / unit % 10;
        out.extend_from_slice(&[b'(', digit(100), digit(10), digit(1), b')']);
    }
}

/// Writes the address that a value carries; None where a parenthesis stands outside the groups.
pub fn decode(value: &[u8], out: &mut Vec<u8>) -> Option<()> {
    let mut rest = value;
    while let Some(open) = rest.iter().position(|&b| b == b'(' || b == b')') {
        out.extend_from_slice(&rest[..open]);
        let group = rest[open..].strip_prefix(b"(")?;
        let close = group.iter().position(|&b| b == b')')?;
        out.push(decode_group(&LETTERS, &group[..close])?);
        rest = &group[close + 1..];
    }
    out.extend_from_slice(rest);
    Some(())
}

/// What stands between the marks of a group: one of these letters, in either case, or three digits up to 127.
pub fn decode_group(letters: &[(u8, u8)], group: &[u8]) -> Option<u8> {
    match group {
        [letter] => letters
            .iter()
            .find(|(known, _)| known.eq_ignore_ascii_case(letter))
            .map(|(_, b)| *b),
        [_, _, _] if group.iter().all(u8::is_ascii_digit) => {
            let number = group
                .iter()
                .fold(0u32, |number, digit| number * 10 + u32::from(digit - b'0'));
            u8::try_from(number).ok().filter(|number| *number <= 127)
        }
        _ => None,
    }
}

/// The tail that two domains share by whole parts, case aside, inside the first.
pub fn shared_tail<'a>(first: &'a [u8], second: &[u8]) -> &'a [u8] {
    let mut start = first.len();
    let (mut one, mut other) = (first.rsplit(|&b| b == b'.'), second.rsplit(|&b| b == b'.'));
    let mut end = first.len() + 1;
    while let (Some(a), Some(b)) = (one.next(), other.next()) {
        if !same(a, b) {
            break;
        }
        end -= a.len() + 1;
        start = end;
    }
    &first[start..]
}
