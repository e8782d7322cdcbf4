//! Table texts: well-formed ones of all sizes, with labels that rows share, and those that are not.

use std::collections::HashSet;

use plain::table::LIMIT;

use crate::damage::{altered, damaged, noise};
use crate::random::Random;

/// The fields of a path from C on; an empty field is an omitted PRMD.
pub type Path = Vec<Vec<u8>>;

pub struct Row {
    pub domain: Vec<u8>,
    pub path: Path,
}

/// A table's text, and what it was made of: a damaged text keeps the rows of the good one, so that addresses still aim at them.
pub struct Sample {
    pub text: Vec<u8>,
    pub gateway: Row,
    pub rows: Vec<(u8, Row)>,
    pub labels: Vec<Vec<u8>>,
}

pub const ROWS: usize = 512;
const FEW: &[&[u8]] = &[b"a", b"b", b"c"];
const WORDS: &[&[u8]] = &[
    b"tow", b"test", b"harbour", b"pilots", b"brack", b"x-1", b"7", b"survey", b"q", b"TOW",
];
/// Good values that are no domain parts.
const VALUES: &[&[u8]] = &[
    b"Fender Two",
    b"a/b",
    b"x=y",
    b"-",
    b"A.B",
    b"(c)",
    b"GOLD 400",
];

impl Sample {
    fn new(random: &mut Random) -> Sample {
        let mut labels: Vec<Vec<u8>> = match random.below(3) {
            0 => FEW[..random.between(1, 3)].to_vec(),
            1 => FEW.to_vec(),
            _ => WORDS.to_vec(),
        }
        .iter()
        .map(|label| label.to_vec())
        .collect();
        if random.one_in(4) {
            let length = *random.pick(&[16, 17, 32]);
            labels.push(vec![b'l'; length]);
        }
        let mut sample = Sample {
            text: Vec::new(),
            gateway: Row {
                domain: b"gw.test".to_vec(),
                path: Vec::new(),
            },
            rows: Vec::new(),
            labels,
        };
        sample.gateway.path = sample.path(random);
        sample
    }

    pub fn label(&self, random: &mut Random) -> Vec<u8> {
        let label = random.pick(&self.labels).clone();
        random.cased(&label)
    }

    /// A value of level `level` within its bound.
    pub fn level(&self, random: &mut Random, level: usize) -> Vec<u8> {
        const BOUNDS: [usize; 8] = [3, 16, 16, 64, 32, 32, 32, 32];
        let mut value = match (level, random.below(12)) {
            (0, 0) => b"124".to_vec(),
            (0, 1) => b"GB".to_vec(),
            (0, _) => random.cased(b"XY"),
            (1, 0) => b" ".to_vec(),
            (1, 1..=7) => random.cased(b"P"),
            (_, 0) => random.pick(VALUES).to_vec(),
            (_, 1) => vec![b'v'; *random.pick(&[BOUNDS[level], BOUNDS[level] - 1])],
            _ => self.label(random),
        };
        value.truncate(BOUNDS[level]);
        value
    }

    fn path(&self, random: &mut Random) -> Path {
        let length = *random.pick(&[2, 2, 3, 3, 3, 4, 4, 5, 6, 7, 8]);
        let omitted = random.one_in(3);
        (0..length)
            .map(|level| {
                if level == 2 && omitted {
                    Vec::new()
                } else {
                    self.level(random, level)
                }
            })
            .collect()
    }

    /// A domain of at most 40 bytes.
    fn domain(&self, random: &mut Random, tail: &[u8]) -> Vec<u8> {
        let mut domain = tail.to_vec();
        for _ in 0..random.between(usize::from(tail.is_empty()), 2) {
            domain = joined(&self.label(random), &domain);
        }
        if domain.len() <= 40 {
            domain
        } else {
            b"t".to_vec()
        }
    }

    /// Adds D and R rows of a few domains and paths, most of them both ways.
    fn add_rows(&mut self, random: &mut Random, pairs: usize) {
        let bases: Vec<Vec<u8>> = (0..2).map(|_| self.domain(random, b"")).collect();
        let paths: Vec<Path> = (0..pairs.max(1)).map(|_| self.path(random)).collect();
        for _ in 0..pairs {
            let base = random.pick(&bases).clone();
            let mut row = (self.domain(random, &base), random.pick(&paths).clone());
            for tag in [b'D', b'R'] {
                if !random.one_in(6) {
                    self.rows.push(self.row(random, tag, &row));
                }
                // The way back of a pair may differ in an omitted PRMD alone, which few records show.
                if random.one_in(4) {
                    match row.1.len() {
                        2 => row.1.push(Vec::new()),
                        3 if row.1[2].is_empty() => row.1.truncate(2),
                        _ => {}
                    }
                }
            }
        }
        self.gateway.domain = match random.below(8) {
            0 | 1 => self.domain(random, &bases[0]),
            // the longest domain, and the longest part
            2 => [
                b"g".repeat(63),
                b"w".repeat(63),
                b"h".repeat(62),
                b"i".repeat(62),
            ]
            .join(&b'.'),
            3 => b"g".repeat(63),
            _ => b"gw.survey.test".to_vec(),
        };
    }

    /// Adds `pairs` rows each way, no two of which overlap.
    fn add_apart(&mut self, random: &mut Random, pairs: usize) {
        for i in 0..pairs {
            let mut path = self.path(random);
            path.resize_with(path.len().max(4), || b"o".to_vec());
            path[3] = format!("o{i}").into_bytes();
            let row = (format!("n{i}.test").into_bytes(), path);
            for tag in [b'D', b'R'] {
                self.rows.push(self.row(random, tag, &row));
            }
        }
    }

    fn row(&self, random: &mut Random, tag: u8, (domain, path): &(Vec<u8>, Path)) -> (u8, Row) {
        let row = Row {
            domain: random.cased(domain),
            path: path.iter().map(|value| random.cased(value)).collect(),
        };
        (tag, row)
    }

    /// Rows of an exact size in all, so that the text has `size` bytes.
    fn fill(&mut self, size: usize) {
        let mut left = size - line(b'G', &self.gateway).len();
        while left > 0 {
            let length = if left > 400 {
                200
            } else if left > 200 {
                left / 2
            } else {
                left
            };
            self.rows
                .push((b'D', row_of_length(self.rows.len(), length)));
            left -= length;
        }
    }

    /// Two rows of one key make a table malformed.
    fn drop_repeated(&mut self) {
        let mut seen = HashSet::new();
        self.rows.retain(|(tag, row)| {
            let key = if *tag == b'D' {
                row.domain.to_ascii_lowercase()
            } else {
                row.path.join(&b'\t').to_ascii_lowercase()
            };
            seen.insert((*tag, key))
        });
    }

    fn written(mut self) -> Sample {
        let mut text = line(b'G', &self.gateway);
        for (tag, row) in &self.rows {
            text.extend(line(*tag, row));
        }
        self.text = text;
        self
    }
}

fn line(tag: u8, row: &Row) -> Vec<u8> {
    [
        &[tag, b'\t'],
        &row.domain[..],
        b"\t",
        &row.path.join(&b'\t'),
        b"\n",
    ]
    .concat()
}

/// A D row whose line has this length, from 40 to 200.
fn row_of_length(number: usize, length: usize) -> Row {
    let mut row = Row {
        domain: format!("d{number:03}").into_bytes(),
        path: vec![b"XY".to_vec(), b"P".to_vec(), b"Q".to_vec(), Vec::new()],
    };
    let left = length - line(b'D', &row).len();
    row.path[3] = vec![b'o'; left.min(63)];
    for bound in [32, 32, 32] {
        let left = length - line(b'D', &row).len();
        if left > 1 {
            row.path.push(vec![b'u'; (left - 1).min(bound)]);
        }
    }
    let left = length - line(b'D', &row).len();
    row.domain.extend(vec![b'x'; left]);
    row
}

/// A row with a domain or a path at its bound or just past it, and a tag.
pub fn edge_row(random: &mut Random) -> (u8, Row) {
    const BOUNDS: [usize; 6] = [16, 16, 64, 32, 32, 32];
    let mut row = Row {
        domain: b"edge.test".to_vec(),
        path: vec![random.pick(&[&b"XY"[..], b"xy", b"124"]).to_vec()],
    };
    for bound in &BOUNDS[..random.between(1, 6)] {
        row.path.push(vec![b'e'; *random.pick(&[1, *bound])]);
    }
    let level = random.below(row.path.len());
    match random.below(6) {
        0 => row.domain = [b"e".repeat(19), b"e".repeat(random.between(19, 22))].join(&b'.'),
        1 => row.path[level].push(b'e'),
        2 => {
            row.path[0] = random
                .pick(&[&b"X1"[..], b"XYZ", b"12", b"1234", b"X"])
                .to_vec()
        }
        3 => row.path.resize(random.between(7, 9), b"e".to_vec()),
        4 => row.path.truncate(random.between(1, 2)),
        _ => {
            row.path[level] = random
                .pick(&[&b""[..], b" ", b"a ", b" a", b"a  b", b"a_b"])
                .to_vec()
        }
    }
    (*random.pick(b"DRDRGd"), row)
}

pub fn joined(label: &[u8], domain: &[u8]) -> Vec<u8> {
    match domain {
        b"" => label.to_vec(),
        _ => [label, domain].join(&b'.'),
    }
}

/// A table of any kind.
pub fn table(random: &mut Random) -> Sample {
    let mut sample = Sample::new(random);
    let kind = random.below(200);
    match kind {
        0 => sample.add_apart(random, ROWS / 2),
        1 => sample.add_rows(random, ROWS),
        2 => {
            let size = *random.pick(&[LIMIT - 1, LIMIT, LIMIT + 1, LIMIT + 200]);
            sample.fill(size);
        }
        3 => sample.fill(20_000),
        4..=9 => {
            let pairs = random.between(8, 30);
            sample.add_rows(random, pairs);
        }
        10..=39 => {
            let pairs = random.between(1, 6);
            sample.add_apart(random, pairs);
        }
        40..=49 => {}
        _ => {
            let pairs = random.between(1, 5);
            sample.add_rows(random, pairs);
        }
    }
    sample.drop_repeated();
    sample.rows.truncate(ROWS);
    let mut sample = sample.written();
    match kind {
        // a row too many, whatever stands in it
        0 if random.one_in(3) => {
            let more: &[&[u8]] = &[b"\n", b"R\tz.test\tXY\tP\tz\n", b"D", b"\n\n"];
            sample.text.extend_from_slice(random.pick::<&[u8]>(more));
        }
        50..=79 => sample.text = damaged(random, &sample.text),
        80 => sample.text = noise(random, 400),
        81 => sample.text.clear(),
        82 | 83 => sample.text.resize(LIMIT + random.between(1, 400), b'\n'),
        84..=97 => {
            let (tag, row) = edge_row(random);
            sample.text.extend(line(tag, &row));
        }
        // the G line's own bounds
        98..=99 => {
            let longer = [&b"G\tx"[..], &sample.text[2..]].concat();
            sample.text = longer;
        }
        _ => {}
    }
    sample
}

/// A table whose text is damaged or of no kind.
pub fn hostile_table(random: &mut Random) -> Sample {
    let mut sample = table(random);
    sample.text = match random.below(40) {
        0 | 1 => noise(random, 2000),
        2 => noise(random, 2 * LIMIT),
        3..=24 => altered(random, &sample.text),
        _ => damaged(random, &sample.text),
    };
    sample
}
