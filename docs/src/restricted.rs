//! RFC 1137's restricted encoding, for links that know only atoms: a local part's unquoted text coded, and decoded.

use crate::address::decode_group;
use crate::chars::is_atom;

/// The refusal of a text with a byte over 127.
pub const NOT_ASCII: u8 = 1;

/// The groups of one letter, and what each stands for. `=` and `/` stand for themselves when written, and their groups are only read.
const LETTERS: [(u8, u8); 9] = [
    (b'u', b'_'),
    (b'l', b'('),
    (b'r', b')'),
    (b'm', b','),
    (b'c', b':'),
    (b'b', b'\\'),
    (b'h', b'#'),
    (b'e', b'='),
    (b's', b'/'),
];

/// `a-char`: any character except specials (other than `@` and `.`), space, controls, `_` and `#`.
fn is_itself(b: u8) -> bool {
    b == b'@' || b == b'.' || (is_atom(b) && b != b'_' && b != b'#')
}

/// The text, if each byte is a character of ASCII.
fn ascii(text: &[u8]) -> Result<&[u8], u8> {
    text.is_ascii().then_some(text).ok_or(NOT_ASCII)
}

/// One character as it is written: itself, `_` for a space, or a group, by its letter if it has one.
fn put_coded(out: &mut Vec<u8>, b: u8) {
    let letter = LETTERS.iter().find(|(_, coded)| *coded == b);
    match (b, letter) {
        _ if is_itself(b) => out.push(b),
        (b' ', _) => out.push(b'_'),
        (_, Some((letter, _))) => out.extend_from_slice(&[b'#', *letter, b'#']),
        (_, None) => out.extend_from_slice(format!("#{b:03}#").as_bytes()),
    }
}

/// The coded form of a text.
pub fn restrict(text: &[u8]) -> Result<Vec<u8>, u8> {
    let mut out = Vec::with_capacity(text.len());
    for &b in ascii(text)? {
        put_coded(&mut out, b);
    }
    Ok(out)
}

/// The character that one outside the groups stands for.
fn outside_groups(b: u8) -> Option<u8> {
    match b {
        b'_' => Some(b' '),
        _ => Some(b).filter(|b| is_itself(*b)),
    }
}

/// The text whose coded form this is; None where it does not parse as one. Every `#` opens a group or closes one, so that between them
/// groups and text outside take turns, and text outside is first and last.
pub fn parsed(text: &[u8]) -> Option<Vec<u8>> {
    let pieces: Vec<&[u8]> = text.split(|&b| b == b'#').collect();
    if pieces.len().is_multiple_of(2) {
        return None;
    }
    let mut out = Vec::with_capacity(text.len());
    for (which, piece) in pieces.into_iter().enumerate() {
        if which % 2 == 1 {
            out.push(decode_group(&LETTERS, piece)?);
            continue;
        }
        for &b in piece {
            out.push(outside_groups(b)?);
        }
    }
    Some(out)
}

/// The text that a coded form stands for; what does not parse as coded is taken as it stands.
pub fn unrestrict(text: &[u8]) -> Result<Vec<u8>, u8> {
    let text = ascii(text)?;
    Ok(parsed(text).unwrap_or_else(|| text.to_vec()))
}
