//! Records and record texts: canonical ones near a table's rows, carriers, and texts that break each rule.

use plain::address::code;
use plain::levels::LEVELS;

use crate::addresses::address;
use crate::common_names::{common_name, odd_segments};
use crate::damage::{damaged, noise};
use crate::owned::Owned;
use crate::random::Random;
use crate::tables::Sample;

const PRINTABLE: &[u8] = b"abzABZ019'+,-./:=?()";
const SURNAMES: &[&[u8]] = &[
    b"Lee",
    b"Rose",
    b"van Dam",
    b"O'Hara",
    b"a.b",
    b"ab.c",
    b"J.P",
    b"7of9",
    b"/S=a",
    b"b/",
    b"X",
    b"St. John",
    b"Lee.",
];
const GIVEN: &[&[u8]] = &[
    b"Ann",
    b"Jean-Luc",
    b"A",
    b"AB",
    b"A.B",
    b"/S=a",
    b"a b",
    b"Marshall",
];
const INITIALS: &[&[u8]] = &[b"M", b"MT", b"J1", b"ABCDE", b".", b"m-t"];
const TYPES: &[&[u8]] = &[
    b"RFC-822",
    b"rfc-822",
    b"FENDER-1",
    b"x",
    b"a.b",
    b"a/b=",
    b"C",
];

/// A value that keeps the rules of one with this bound.
pub fn value(random: &mut Random, bound: usize) -> Vec<u8> {
    let length = match random.below(4) {
        0 => bound,
        1 => random.between(1, bound),
        _ => random.between(1, bound.min(6)),
    };
    let mut text = random.text(length, PRINTABLE);
    if length > 2 && random.one_in(3) {
        text[length / 2] = b' ';
    }
    text
}

fn of(random: &mut Random, known: &[&[u8]], bound: usize) -> Vec<u8> {
    if random.one_in(5) {
        value(random, bound)
    } else {
        random.pick(known).to_vec()
    }
}

/// A value that breaks a rule, or nearly.
fn bad_value(random: &mut Random) -> Vec<u8> {
    match random.below(6) {
        0 => Vec::new(),
        1 => b" a".to_vec(),
        2 => b"a ".to_vec(),
        3 => b"a  b".to_vec(),
        4 => noise(random, 12),
        _ => vec![b'x'; *random.pick(&[4, 6, 9, 17, 33, 41, 65, 129, 300])],
    }
}

fn add_name(random: &mut Random, record: &mut Owned) {
    record.s = Some(of(random, SURNAMES, 40));
    record.g = random.one_in(2).then(|| of(random, GIVEN, 16));
    record.i = random.one_in(3).then(|| of(random, INITIALS, 5));
    record.gq = random.one_in(8).then(|| value(random, 3));
}

/// A personal name, a common name, both or neither.
fn add_names(random: &mut Random, record: &mut Owned) {
    let kind = random.below(8);
    if kind >= 2 {
        add_name(random, record);
    }
    if (1..=2).contains(&kind) {
        record.cn = Some(common_name(random));
    }
}

fn add_dds(random: &mut Random, record: &mut Owned) {
    for _ in 0..random.between(1, 4) {
        let kind = of(random, TYPES, 8);
        record.dds.push((kind, value(random, 128)));
    }
}

/// The levels of a row's path, of the gateway's or of none, and further ones behind.
fn add_levels(random: &mut Random, table: &Sample, record: &mut Owned) {
    let path = match random.below(8) {
        0 => table.gateway.path.clone(),
        1 => Vec::new(),
        _ if table.rows.is_empty() => Vec::new(),
        _ => random.pick(&table.rows).1.path.clone(),
    };
    let kept = if random.one_in(8) {
        random.below(path.len() + 1)
    } else {
        path.len()
    };
    let more = *random.pick(&[0, 0, 1, 1, 2, 3, 6]);
    for level in 0..LEVELS.min((kept + more).max(2)) {
        match path.get(level).filter(|_| level < kept) {
            Some(named) if named.is_empty() => {}
            Some(named) => record.set_level(level, &random.cased(named)),
            // a gap, but units have none
            None if (2..4).contains(&level) && random.one_in(5) => {}
            None => {
                let fresh = random.one_in(6);
                let named = if level > 1 && fresh {
                    b"fresh".to_vec()
                } else {
                    table.level(random, level)
                };
                record.set_level(level, &named);
            }
        }
    }
}

/// A record that is canonical, or nearly always so, near the table's rows.
pub fn record(random: &mut Random, table: &Sample) -> Owned {
    let mut record = Owned::default();
    add_levels(random, table, &mut record);
    add_names(random, &mut record);
    if (record.s.is_none() && record.cn.is_none()) || random.one_in(6) {
        add_dds(random, &mut record);
    }
    record
}

/// A record with the longest values that the bounds allow, each of which is written with `$` throughout.
pub fn longest(random: &mut Random) -> Owned {
    let of = |n: usize| Some(vec![b'/'; n]);
    Owned {
        c: Some(b"XY".to_vec()),
        admd: of(16),
        prmd: of(16),
        o: of(64),
        units: vec![vec![b'='; 32]; random.between(3, 4)],
        cn: of(64),
        s: of(40),
        g: of(16),
        i: of(5),
        gq: of(3),
        dds: vec![(vec![b'='; 8], vec![b'/'; 128]); random.between(3, 4)],
    }
}

/// The gateway's path with one DD of type RFC-822, whose value is what coding gave or is damaged.
fn carrier(random: &mut Random, table: &Sample) -> Owned {
    let mut record = Owned::default();
    for (level, value) in table.gateway.path.iter().enumerate() {
        if !value.is_empty() {
            record.set_level(level, &random.cased(value));
        }
    }
    let groups: &[&[u8]] = &[
        b"(128)", b"(127)", b"(097)", b"(a", b"a)", b"(A)x", b"()", b"(12)", b"((a))", b"(032)",
    ];
    let mut coded = match random.below(4) {
        0 => [&b"a(a)b"[..], *random.pick(groups)].concat(),
        1 => b"a(u)b(A)else.test".to_vec(),
        _ => {
            let mut coded = Vec::new();
            code(&address(random, table), &mut coded);
            coded
        }
    };
    if random.one_in(4) {
        coded = damaged(random, &coded);
    }
    coded.truncate(128);
    if coded.is_empty() {
        coded.push(b'x');
    }
    record.dds.push((random.cased(b"RFC-822"), coded));
    match random.below(12) {
        // nearly a carrier
        0 => add_name(random, &mut record),
        1 => record.dds.push((b"RFC-822".to_vec(), b"x".to_vec())),
        2 => record.units.push(b"u".to_vec()),
        3 => record.cn = Some(common_name(random)),
        _ => {}
    }
    record
}

/// One `/key=value`, with `$` before `/` and `=` and anywhere else it may stand.
pub fn segment(random: &mut Random, key: &[u8], value: &[u8]) -> Vec<u8> {
    let loose = random.one_in(6);
    let mut out = [b"/", &random.cased(key)[..], b"="].concat();
    for &b in value {
        if b == b'/' || b == b'=' || (loose && random.one_in(4)) {
            out.push(b'$');
        }
        out.push(b);
    }
    out
}

/// Segments that break a rule of keys or values, or nearly.
fn odd_segment(random: &mut Random) -> Vec<u8> {
    const KEYS: &[&[u8]] = &[
        b"C",
        b"ADMD",
        b"PRMD",
        b"O",
        b"OU",
        b"S",
        b"G",
        b"I",
        b"GQ",
        b"PN",
        b"DD.x",
        b"DD.RFC-822",
        b"RFC-822",
        b"DD",
        b"DD.",
        b"X",
        b"CN",
        b"FENDER-1",
        b"DD.a.b",
        b"DD.FENDER-10",
        b"S.x",
        b"",
        b"O U",
    ];
    const NAMES: &[&[u8]] = &[
        b"Ann.M.Lee",
        b"Lee",
        b"ab.",
        b"a.b.",
        b"",
        b"M.T.Rose",
        b"J.Linnimouth",
    ];
    let key = *random.pick(KEYS);
    let value = match random.below(4) {
        0 => bad_value(random),
        1 => random.pick(NAMES).to_vec(),
        2 => b"XY".to_vec(),
        _ => value(random, 8),
    };
    segment(random, key, &value)
}

/// Record text of one to many segments of any kind.
pub fn odd_text(random: &mut Random) -> Vec<u8> {
    let count = *random.pick(&[1, 1, 2, 2, 3, 4, 6, 9, 40]);
    let mut text: Vec<u8> = (0..count).flat_map(|_| odd_segment(random)).collect();
    text.push(b'/');
    text
}

/// The text with its segments in another order, another one among them, or one of them twice.
fn rearranged(random: &mut Random, text: &[u8]) -> Vec<u8> {
    let mut segments: Vec<Vec<u8>> = text[1..]
        .split(|&b| b == b'/')
        .filter(|piece| !piece.is_empty())
        .map(|piece| [b"/", piece].concat())
        .collect();
    if segments.is_empty() {
        return text.to_vec();
    }
    for _ in 0..random.between(1, 2) {
        let (at, other) = (random.below(segments.len()), random.below(segments.len()));
        match random.below(4) {
            0 => segments.swap(at, other),
            1 => segments.insert(at, segments[other].clone()),
            2 => segments.insert(at, odd_segment(random)),
            _ if segments.len() > 1 => {
                segments.remove(at);
            }
            _ => {}
        }
    }
    [segments.concat(), b"/".to_vec()].concat()
}

/// Segments that name a common name and are odd, and the levels of a record behind them.
fn odd_name_text(random: &mut Random, table: &Sample) -> Vec<u8> {
    let mut record = Owned::default();
    add_levels(random, table, &mut record);
    [odd_segments(random), record.text(0)].concat()
}

/// A record text of any kind.
pub fn record_text(random: &mut Random, table: &Sample) -> Vec<u8> {
    let text = match random.below(22) {
        0..=9 => record(random, table).text(0),
        10..=14 => carrier(random, table).text(0),
        15 => longest(random).text(0),
        16 => odd_text(random),
        17 => [
            odd_text(random),
            record(random, table).text(0)[1..].to_vec(),
        ]
        .concat(),
        18 => noise(random, 300),
        19 | 20 => odd_name_text(random, table),
        _ => {
            let from = random.below(LEVELS);
            record(random, table).text(from)
        }
    };
    if text.len() > 1 && random.one_in(5) {
        return rearranged(random, &text);
    }
    text
}

/// What a local part may name beside the levels that its domain settles: names, units, DDs.
pub fn local_text(random: &mut Random, table: &Sample) -> Vec<u8> {
    let mut record = Owned::default();
    add_names(random, &mut record);
    if random.one_in(4) {
        add_dds(random, &mut record);
    }
    for _ in 0..*random.pick(&[0, 0, 1, 2, 5]) {
        record.units.push(table.level(random, 4));
    }
    if random.one_in(4) {
        let level = random.below(4);
        record.set_level(level, b"XY");
    }
    record.text(0)
}
