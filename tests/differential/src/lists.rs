//! Rows as a list over a text: well-formed ones laid out in several ways, and each way in which an entry can be bad.

use plain::list::RowEntry;
use plain::table::LIMIT;

use crate::damage::{altered, damaged, noise};
use crate::library::Row;
use crate::random::Random;
use crate::round::hex;
use crate::tables::{self, edge_row, Sample, ROWS};

pub const G: usize = b'G' as usize;
pub const D: usize = b'D' as usize;
pub const R: usize = b'R' as usize;

pub struct List {
    pub text: Vec<u8>,
    pub rows: Vec<Row>,
    /// The text of a table with the same rows, if there is one.
    pub spelt: Option<Vec<u8>>,
}

/// How far back a value is looked for that may share its place: no further, for speed.
const NEAR: usize = 2048;

/// How the values of a list stand in its text.
#[derive(Clone, Copy, PartialEq, Eq)]
enum Layout {
    /// Behind each other, often with other bytes between.
    Apart,
    /// Where the text has their bytes already, if that is near, else behind.
    Shared,
    /// In the lines of a table's text.
    Lines,
}

impl List {
    fn new(random: &mut Random) -> List {
        let length = match random.below(30) {
            0 => LIMIT + random.below(3000),
            1..=8 => random.below(40),
            _ => 0,
        };
        List {
            text: (0..length).map(|_| random.byte()).collect(),
            rows: Vec::new(),
            spelt: None,
        }
    }

    /// Puts a value into the text, and returns its place and its length.
    fn put(&mut self, value: &[u8], layout: Layout) -> (usize, usize) {
        let near = self.text.len().saturating_sub(NEAR);
        let found = match layout {
            Layout::Shared if !value.is_empty() => self.text[near..]
                .windows(value.len())
                .position(|window| window == value)
                .map(|at| near + at),
            _ => None,
        };
        let place = found.unwrap_or(self.text.len());
        if found.is_none() {
            self.text.extend_from_slice(value);
        }
        (place, value.len())
    }

    fn add(&mut self, random: &mut Random, layout: Layout, kind: u8, row: &tables::Row) {
        match layout {
            Layout::Apart if random.one_in(2) => self.text.extend(noise(random, 12)),
            Layout::Lines => self.text.extend_from_slice(&[kind, b'\t']),
            _ => {}
        }
        let (domain, domain_len) = self.put(&row.domain, layout);
        if layout == Layout::Lines {
            self.text.push(b'\t');
        }
        let (path, path_len) = self.put(&row.path.join(&b'\t'), layout);
        if layout == Layout::Lines {
            self.text.push(b'\n');
        }
        self.rows.push(Row {
            kind: usize::from(kind),
            domain,
            domain_len,
            path,
            path_len,
        });
    }

    /// Adds rows, short ones or long ones, until there are so many entries.
    fn pad(&mut self, random: &mut Random, layout: Layout, entries: usize) {
        let long = random.one_in(2);
        while self.rows.len() < entries {
            let number = format!("{}", self.rows.len()).into_bytes();
            let mut row = tables::Row {
                domain: [b"pad", &number[..]].concat(),
                path: vec![b"XY".to_vec(), b"pad".to_vec(), number],
            };
            if long {
                row.path.push(vec![b'o'; 64]);
                row.path.resize(8, vec![b'u'; 32]);
            }
            let kind = *random.pick(b"DR");
            self.add(random, layout, kind, &row);
        }
    }

    pub fn entries(&self) -> Vec<RowEntry> {
        let entry = |row: &Row| RowEntry {
            kind: row.kind,
            domain: row.domain,
            domain_len: row.domain_len,
            path: row.path,
            path_len: row.path_len,
        };
        self.rows.iter().map(entry).collect()
    }

    /// So many bytes from this place on; None where they are not all in the text.
    fn part(&self, place: usize, length: usize) -> Option<&[u8]> {
        self.text.get(place..place.checked_add(length)?)
    }

    pub fn domain(&self, row: &Row) -> Option<&[u8]> {
        self.part(row.domain, row.domain_len)
    }

    pub fn path(&self, row: &Row) -> Option<&[u8]> {
        self.part(row.path, row.path_len)
    }

    /// The list, as a message shows it: the text, and five numbers for each entry.
    pub fn shown(&self) -> String {
        let entry = |row: &Row| {
            format!(
                "{} {} {} {} {}",
                row.kind, row.domain, row.domain_len, row.path, row.path_len
            )
        };
        let entries: Vec<String> = self.rows.iter().map(entry).collect();
        format!("text {}\nrows {}", hex(&self.text), entries.join("; "))
    }

    /// The list as it goes to the calls, without room to spare, so that valgrind sees what is read past an end.
    fn finished(mut self) -> List {
        self.text.shrink_to_fit();
        self.rows.shrink_to_fit();
        self.spelt = self.lines().filter(|text| text.len() <= LIMIT);
        self
    }

    /// The rows as lines; None where one has a byte by which its line would be another row, or more lines than one.
    pub fn lines(&self) -> Option<Vec<u8>> {
        let mut text = Vec::new();
        for row in &self.rows {
            let kind = u8::try_from(row.kind).ok()?;
            let (domain, path) = (self.domain(row)?, self.path(row)?);
            let fields = [&[kind], domain, path];
            let plain = !b"\t\n".contains(&kind)
                && !domain.iter().any(|b| b"\t\n".contains(b))
                && !path.contains(&b'\n');
            plain.then(|| text.extend(fields.join(&b'\t')))?;
            text.push(b'\n');
        }
        Some(text)
    }
}

/// A number that no place of a text has, or hardly any.
fn far(random: &mut Random) -> usize {
    let far = *random.pick(&[usize::MAX, 1 << 63, 1 << 32, 1 << 31, 65536]);
    far.wrapping_add(random.below(3)).wrapping_sub(1)
}

/// A place and a length that are not inside a text of this size, or of nothing at its end, in place of a good one. One that was spoilt
/// before may be any, so all sums wrap.
fn outside(random: &mut Random, size: usize, place: usize, length: usize) -> (usize, usize) {
    let end = place.wrapping_add(length);
    match random.below(9) {
        0 => (size, 0),
        1 => (size, 1),
        2 => (size + 1, 0),
        3 => ((size + 1).saturating_sub(length), length),
        4 => (place, size.wrapping_sub(place).wrapping_add(1)),
        5 => (place, far(random)),
        6 => (far(random), length),
        // sums that wrap to the end of the good part
        7 => (place.wrapping_sub(1 << 63), length.wrapping_add(1 << 63)),
        _ => (usize::MAX - size, end.wrapping_add(size + 1)),
    }
}

/// A domain that breaks a rule, or nearly.
fn odd_domain(random: &mut Random, domain: &[u8]) -> Vec<u8> {
    const ODD: &[&[u8]] = &[
        b"", b".", b"a.", b".a", b"a..b", b"-a", b"a-", b"a_b", b"a b", b"a\n", b"a\0", b"a-b",
    ];
    match random.below(4) {
        0 => random.pick(ODD).to_vec(),
        1 => [domain, random.pick::<&[u8]>(&[b"\tXY", b"\n"])].concat(),
        2 => {
            let length = *random.pick(&[40, 41, 253, 254]);
            let mut long = b"a.".repeat(length / 2 - 1);
            long.resize(length, b'b');
            long
        }
        _ => damaged(random, domain),
    }
}

/// A path that breaks a rule, or nearly.
fn odd_path(random: &mut Random, path: &[u8]) -> Vec<u8> {
    const ODD: &[&[u8]] = &[
        b"",
        b"\t",
        b"XY",
        b"XY\t",
        b"XY\tP\t",
        b"XY\t\tQ",
        b"XY\tP\t\t",
        b"XY\tP\n",
        b"XY\n",
        b"X1\tP",
    ];
    match random.below(4) {
        0 => random.pick(ODD).to_vec(),
        1 => [path, random.pick::<&[u8]>(&[b"\t", b"\n"])].concat(),
        2 => [path, &b"\tu".repeat(random.between(1, 8))[..]].concat(),
        _ => damaged(random, path),
    }
}

/// The first entry, the last, or one between them.
fn some_entry(random: &mut Random, count: usize) -> usize {
    match random.below(4) {
        0 => 0,
        1 => count - 1,
        _ => random.below(count),
    }
}

/// Makes an entry bad, or nearly, where there is one.
fn spoil(random: &mut Random, list: &mut List) {
    if list.rows.is_empty() {
        return;
    }
    let at = some_entry(random, list.rows.len());
    let (row, size) = (list.rows[at], list.text.len());
    match random.below(12) {
        0 => list.rows[at].kind = *random.pick(&[G, D, R, 0, 70, 72, 100, 103, 114, 255]),
        // numbers with the low byte of a good kind
        1 => {
            let more = *random.pick(&[256, 1 << 32, 1 << 63, usize::MAX << 8]);
            list.rows[at].kind = row.kind.wrapping_add(more);
        }
        2 => list.rows.swap(0, at),
        3 | 4 => {
            let part = outside(random, size, row.domain, row.domain_len);
            (list.rows[at].domain, list.rows[at].domain_len) = part;
        }
        5 | 6 => {
            let part = outside(random, size, row.path, row.path_len);
            (list.rows[at].path, list.rows[at].path_len) = part;
        }
        7 => {
            let odd = list.domain(&row).unwrap_or_default().to_vec();
            let odd = odd_domain(random, &odd);
            (list.rows[at].domain, list.rows[at].domain_len) = list.put(&odd, Layout::Apart);
        }
        8 => {
            let odd = list.path(&row).unwrap_or_default().to_vec();
            let odd = odd_path(random, &odd);
            (list.rows[at].path, list.rows[at].path_len) = list.put(&odd, Layout::Apart);
        }
        9 => {
            let (kind, row) = edge_row(random);
            list.add(random, Layout::Apart, kind, &row);
        }
        // an entry twice, in its place or in letters of any case
        10 => list.rows.push(row),
        _ => {
            let domain = random.cased(list.domain(&row).unwrap_or_default());
            let path = random.cased(list.path(&row).unwrap_or_default());
            let (domain, domain_len) = list.put(&domain, Layout::Apart);
            let (path, path_len) = list.put(&path, Layout::Apart);
            list.rows.push(Row {
                kind: row.kind,
                domain,
                domain_len,
                path,
                path_len,
            });
        }
    }
}

/// An entry of any numbers.
fn any_entry(random: &mut Random) -> Row {
    let mut number = || match random.below(3) {
        0 => far(random),
        _ => random.below(200),
    };
    Row {
        kind: number(),
        domain: number(),
        domain_len: number(),
        path: number(),
        path_len: number(),
    }
}

/// A list of the rows of a sample, of any kind.
fn of_sample(random: &mut Random, sample: &Sample) -> List {
    let layout = *random.pick(&[Layout::Apart, Layout::Shared, Layout::Lines]);
    let mut list = List::new(random);
    list.add(random, layout, b'G', &sample.gateway);
    let kind = random.below(100);
    if kind == 0 {
        return list;
    }
    for (tag, row) in &sample.rows {
        list.add(random, layout, *tag, row);
    }
    match kind {
        1 | 2 => list.pad(random, layout, ROWS + 1),
        3..=5 => {
            let entries = random.between(ROWS + 2, 600);
            list.pad(random, layout, entries);
            let behind = random.between(ROWS + 1, entries - 1);
            list.rows[behind] = any_entry(random);
            if kind == 5 {
                spoil(random, &mut list);
            }
        }
        6 => list.rows.clear(),
        7 => list.rows.push(any_entry(random)),
        8..=37 => spoil(random, &mut list),
        _ => {}
    }
    list
}

pub fn list(random: &mut Random, sample: &Sample) -> List {
    of_sample(random, sample).finished()
}

/// A list whose text or entries are damaged, or of no kind.
pub fn hostile_list(random: &mut Random, sample: &Sample) -> List {
    let mut list = of_sample(random, sample);
    match random.below(10) {
        0 => list.text = noise(random, 2000),
        1 => list.text = damaged(random, &list.text),
        2..=4 => {
            for _ in 0..random.between(1, 2) {
                spoil(random, &mut list);
            }
        }
        5 => {
            list.rows = (0..random.below(6)).map(|_| any_entry(random)).collect();
        }
        _ => list.text = altered(random, &list.text),
    }
    list.finished()
}
