//! The classes of characters, by one table, and letters compared case aside.

/// The printable string set: letters, digits, space and `' + , - . / : = ? ( )`.
pub const PRINTABLE: u8 = 1;
/// A printable string character other than a space.
pub const WORD: u8 = 2;
/// `/` and `=`, which stand in record text only after a `$`.
pub const MARK: u8 = 4;
/// A printable string character other than those.
pub const BARE: u8 = 8;
/// What an unquoted local part may hold if it is read: a printable string character or `$`.
pub const READ: u8 = 16;
/// A character of an RFC 822 atom: bytes 33 to 126 without the specials.
pub const ATOM: u8 = 32;
/// A letter, a digit or a hyphen: what keys and domain parts are made of.
pub const KEY: u8 = 64;
/// What stands for itself where an address is coded: a printable string character other than the space, of which the first of a run does
/// too, and the parentheses.
pub const ITSELF: u8 = 128;

/// The classes of each byte.
static CLASSES: [u8; 256] = classes();

const fn classes() -> [u8; 256] {
    let mut classes = [0; 256];
    let mut b = 0;
    while b < 256 {
        classes[b] = classes_of(b as u8);
        b += 1;
    }
    classes
}

const fn classes_of(b: u8) -> u8 {
    const ANY: u8 = PRINTABLE | READ;
    match b {
        b'A'..=b'Z' | b'a'..=b'z' | b'0'..=b'9' | b'-' => ANY | WORD | BARE | ITSELF | ATOM | KEY,
        b'\'' | b'+' | b'?' => ANY | WORD | BARE | ITSELF | ATOM,
        b',' | b'.' | b':' => ANY | WORD | BARE | ITSELF,
        b'(' | b')' => ANY | WORD | BARE,
        b'/' | b'=' => ANY | WORD | MARK | ITSELF | ATOM,
        b' ' => ANY | BARE,
        b'$' => READ | ATOM,
        b'<' | b'>' | b'@' | b';' | b'\\' | b'"' | b'[' | b']' => 0,
        33..=126 => ATOM,
        _ => 0,
    }
}

pub fn is(class: u8, b: u8) -> bool {
    CLASSES[usize::from(b)] & class != 0
}

/// How many bytes of a class the text begins with.
pub fn run_of(class: u8, text: &[u8]) -> usize {
    let end = text.iter().position(|&b| !is(class, b));
    end.unwrap_or(text.len())
}

pub fn is_printable(b: u8) -> bool {
    is(PRINTABLE, b)
}

pub fn is_atom(b: u8) -> bool {
    is(ATOM, b)
}

/// The length of the atoms joined by single dots that a text begins with; None where an atom is missing.
pub fn dotted_atoms(text: &[u8]) -> Option<usize> {
    let mut end = 0;
    loop {
        let atom = run_of(ATOM, &text[end..]);
        if atom == 0 {
            return None;
        }
        end += atom;
        if text.get(end) != Some(&b'.') {
            return Some(end);
        }
        end += 1;
    }
}

/// Atoms joined by single dots.
pub fn is_dotted_atoms(text: &[u8]) -> bool {
    dotted_atoms(text) == Some(text.len())
}

/// The length and the ends of a domain part: 1 to 63 characters, and hyphens only inside.
fn has_part_ends(part: &[u8]) -> bool {
    !matches!(part, [] | [b'-', ..] | [.., b'-']) && part.len() <= 63
}

/// 1 to 63 letters, digits and inner hyphens.
pub fn is_domain_part(part: &[u8]) -> bool {
    has_part_ends(part) && run_of(KEY, part) == part.len()
}

/// Domain parts joined by dots.
pub fn is_domain(text: &[u8]) -> bool {
    let mut rest = text;
    loop {
        let (part, behind) = rest.split_at(run_of(KEY, rest));
        match behind {
            _ if !has_part_ends(part) => return false,
            [] => return true,
            [b'.', next @ ..] => rest = next,
            _ => return false,
        }
    }
}

/// Leading, trailing or adjacent spaces.
pub fn has_loose_spaces(text: &[u8]) -> bool {
    text.first() == Some(&b' ')
        || text.last() == Some(&b' ')
        || text.windows(2).any(|pair| pair == b"  ")
}

/// The same, letter case aside; most that are the same are equal as they stand, which is seen sooner.
pub fn same(a: &[u8], b: &[u8]) -> bool {
    a == b || a.eq_ignore_ascii_case(b)
}
