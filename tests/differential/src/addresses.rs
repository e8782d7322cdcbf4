//! Internet addresses: names and record text at domains under a table's rows, at the gateway and elsewhere, each clause of "carried
//! whole", lengths at the limits, and texts that are no addresses.

use plain::address::LIMIT;
use plain::chars::is_dotted_atoms;

use crate::common_names::odd_segments;
use crate::damage::noise;
use crate::random::Random;
use crate::records::{local_text, longest, odd_text, record};
use crate::tables::{joined, Sample};

/// No domain part, or at the edge of one.
const ODD_LABELS: &[&[u8]] = &[
    b"a_b", b"-a", b"a-", b"a-b", b"a--b", b"a/b", b"!", b"a+", b"7", b"$",
];

fn label(random: &mut Random, table: &Sample) -> Vec<u8> {
    match random.below(16) {
        0 => random.pick(ODD_LABELS).to_vec(),
        // at the bounds of PRMD, units, O and a domain part
        1 => vec![b'k'; *random.pick(&[16, 17, 32, 33, 62, 63, 64, 65])],
        _ => table.label(random),
    }
}

fn domain(random: &mut Random, table: &Sample) -> Vec<u8> {
    let mut domain = match random.below(12) {
        0 => return b"else.test".to_vec(),
        1 => return noise(random, 12),
        2 => random
            .pick(&[&b""[..], b".", b"a..b", b"a.", b".a", b"[1.2]", b"a b"])
            .to_vec(),
        3 | 4 => table.gateway.domain.clone(),
        5 => Vec::new(),
        _ if table.rows.is_empty() => Vec::new(),
        _ => random.pick(&table.rows).1.domain.clone(),
    };
    domain = random.cased(&domain);
    let more = *random.pick(&[0, 0, 0, 1, 1, 2, 3, 5, 9]);
    for _ in 0..more {
        domain = joined(&label(random, table), &domain);
    }
    domain
}

fn name(random: &mut Random) -> Vec<u8> {
    const NAMES: &[&[u8]] = &[
        b"Ann.Lee",
        b"Lee",
        b"Marshall.M.T.Rose",
        b"M.T.Rose",
        b"Marshall.",
        b"M.",
        b"M.T.",
        b"J.Linnimouth",
        b"van Dam",
        b"a",
        b"A.B.C.D.E.F.G",
        b"Jean-Luc.7of9",
        b"O'Hara",
        b"Ann.Lee.Rose",
        b"a b.c",
        b"x.y.",
        b"/Lee",
        b"Lee/",
        b"$",
        b"a$b",
    ];
    match random.below(8) {
        // over a bound: given name 16, initials 5, surname 40
        0 => {
            let length = *random.pick(&[15, 16, 17, 39, 40, 41]);
            let surname = *random.pick(&[1, 39, 40, 41]);
            [vec![b'n'; length], vec![b's'; surname]].join(&b'.')
        }
        _ => random.pick(NAMES).to_vec(),
    }
}

/// A local part that unquotes to this text.
fn local(random: &mut Random, text: &[u8]) -> Vec<u8> {
    if is_dotted_atoms(text) && !random.one_in(4) {
        return text.to_vec();
    }
    let loose = random.one_in(4);
    let mut out = vec![b'"'];
    for &b in text {
        if b == b'"' || b == b'\\' || (loose && random.one_in(4)) {
            out.push(b'\\');
        }
        out.push(b);
    }
    out.push(b'"');
    out
}

/// Local parts, unquoted, that a rule has something against, or nearly.
const SPECIAL: &[&[u8]] = &[
    b"",
    b" ",
    b" a",
    b"a ",
    b"a  b",
    b"a_b",
    b"a%b",
    b"a!b",
    b"a\"b",
    b"a\\b",
    b"a@b",
    b"(a)",
    b"#",
    b"/",
    b"//",
    b"/=/",
    b"/S=a",
    b"/S=a//",
    b"/FOO.x=1/",
    b"/S=a$",
    b"/S=a$_/",
    b"/PN=ab./",
    b"/PN=/",
    b"/PN=Ann.Lee/",
    b"/PN=Ann.Lee/GQ=3/",
    b"/S=a/PN=b/",
    b"/DD=x/",
    b"/CN=x/",
    b"/S=a/s=b/",
    b"/S=a/PRMD=x/",
    b"/S=a/O=/",
    b"/S=a/C=XY/",
    b"/G=Ann/",
    b"/DD.FENDER-10=x/",
    b"/DD.=x/",
    b"Marshall.",
];

/// A local part, unquoted, that names a common name and is odd.
fn odd_name(random: &mut Random) -> Vec<u8> {
    [&odd_segments(random)[..], b"/"].concat()
}

fn unquoted(random: &mut Random, table: &Sample) -> Vec<u8> {
    match random.below(18) {
        0..=5 => name(random),
        6..=8 => local_text(random, table),
        9 | 10 => record(random, table).text(0),
        11 | 12 => odd_text(random),
        13 => (0..random.below(60))
            .map(|_| 32 + random.below(95) as u8)
            .collect(),
        // the coded form at 128 and about
        14 => vec![b'a'; random.between(90, 130)],
        15 | 16 => odd_name(random),
        _ => random.pick(SPECIAL).to_vec(),
    }
}

/// The limit before records had common names; nothing ends there now.
pub const EARLIER_LIMIT: usize = 2048;

/// The longest record's text at the gateway, with as many backslashes as bring the address to this length.
fn filled_address(random: &mut Random, table: &Sample, length: usize) -> Vec<u8> {
    let text = longest(random).text(0);
    let domain = &table.gateway.domain;
    let unfilled = [b"\"", &text[..], b"\"@", domain].concat().len();
    let (front, rest) = text.split_at(text.len().min(length.saturating_sub(unfilled)));
    let front: Vec<u8> = front.iter().flat_map(|&b| [b'\\', b]).collect();
    [b"\"", &front[..], rest, b"\"@", domain].concat()
}

/// An address of about the longest length, in its local part, in its domain, by many segments, or by one record.
fn long_address(random: &mut Random, table: &Sample) -> Vec<u8> {
    let edge = *random.pick(&[LIMIT, LIMIT, EARLIER_LIMIT]);
    let length = random.between(edge - 1, edge + 1);
    let domain = domain(random, table);
    let room = length.saturating_sub(domain.len() + 1);
    match random.below(6) {
        0 => [vec![b'a'; room], domain].join(&b'@'),
        1 => [
            [b"\"", &vec![b' '; room.saturating_sub(2)][..], b"\""].concat(),
            domain,
        ]
        .join(&b'@'),
        2 => {
            let front = b"k.".repeat(room / 2);
            [b"a@", &front[..], &domain].concat()
        }
        3 | 4 => filled_address(random, table, length),
        _ => {
            let text = [&b"/OU=x".repeat(room.saturating_sub(20) / 5)[..], b"/S="].concat();
            let rest = vec![b's'; room.saturating_sub(text.len() + 1)];
            [&text[..], &rest, b"/@", &domain].concat()
        }
    }
}

/// An address that a row maps, or the gateway's domain, unless the table has something against it.
fn plausible(random: &mut Random, table: &Sample) -> Vec<u8> {
    if table.rows.is_empty() || random.one_in(4) {
        let text = record(random, table).text(0);
        return [local(random, &text), table.gateway.domain.clone()].join(&b'@');
    }
    let row = &random.pick(&table.rows).1;
    let mut domain = row.domain.clone();
    for _ in 0..random.below(3) {
        domain = joined(&table.label(random), &domain);
    }
    let text = match random.below(7) {
        0 | 1 => random.pick(SPECIAL).to_vec(),
        2 | 3 => name(random),
        4 => odd_name(random),
        _ => local_text(random, table),
    };
    [local(random, &text), random.cased(&domain)].join(&b'@')
}

/// An address of any kind.
pub fn address(random: &mut Random, table: &Sample) -> Vec<u8> {
    match random.below(60) {
        0 | 1 => long_address(random, table),
        2 => noise(random, 200),
        // the coded form of `a..a@else.test` is its length and two more
        3 => [vec![b'a'; random.between(113, 120)], b"else.test".to_vec()].join(&b'@'),
        4 => [local(random, b"a"), domain(random, table), b"b".to_vec()].join(&b'@'),
        5..=25 => plausible(random, table),
        _ => {
            let text = unquoted(random, table);
            let domain = domain(random, table);
            [local(random, &text), domain].join(&b'@')
        }
    }
}
