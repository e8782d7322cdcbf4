//! The table: its rows, read from a text with the first bad line, and looked up by ordered search.

use crate::chars::is_domain;
use crate::index::{Index, JOINT};
use crate::levels::{is_level_value, Levels, Value, BOUNDS, LEVELS, PRMD};

/// The longest table that is taken.
pub const LIMIT: usize = 65_536;
const ROWS: usize = 512;
/// The longest domain of the gateway, and of any other row.
const GATEWAY_DOMAIN: usize = 253;
const ROW_DOMAIN: usize = 40;

/// A row, lent by its table.
#[derive(Clone, Copy)]
pub struct Row<'a> {
    pub domain: &'a [u8],
    /// The fields from C on, parted by tabs; an empty field is an omitted PRMD.
    path: &'a [u8],
    /// Where each field ends.
    ends: &'a [u8],
}

impl<'a> Row<'a> {
    /// How many fields the path has.
    pub fn fields(&self) -> usize {
        self.ends.len()
    }

    /// The levels of the path: each one named, or omitted.
    pub fn levels(&self) -> impl Iterator<Item = Value<'a>> {
        let (path, mut start) = (self.path, 0);
        self.ends.iter().map(move |&end| {
            let value = &path[start..usize::from(end)];
            start = usize::from(end) + 1;
            Some(value).filter(|value| !value.is_empty())
        })
    }
}

/// The longest path: each level at its bound, and a tab between any two.
const LONGEST_PATH: usize = {
    let (mut length, mut level) = (LEVELS - 1, 0);
    while level < LEVELS {
        length += BOUNDS[level];
        level += 1;
    }
    length
};

/// Where the fields of a path end. Each place in a path fits into a byte.
#[derive(Default)]
struct Ends {
    ends: [u8; LEVELS],
    count: usize,
}
const _: () = assert!(LONGEST_PATH <= u8::MAX as usize);

/// Where a row stands in its table's text: the domain, and the path right behind it.
struct Place {
    domain: usize,
    path: usize,
    end: usize,
    fields: Ends,
}

/// A row is known by its number: the gateway's is 0.
#[derive(Default)]
pub struct Table {
    /// The domains and paths as they were given.
    text: Vec<u8>,
    places: Vec<Place>,
    /// D rows by domain, its bytes from the last to the first.
    to_path: Index,
    /// R rows by path.
    to_domain: Index,
}

/// The bytes of a domain's key: in small letters, its last part first, and each part backwards.
fn domain_key(domain: &[u8]) -> impl Iterator<Item = u8> + '_ {
    domain.iter().rev().map(|&b| match b {
        b'.' => JOINT,
        _ => b.to_ascii_lowercase(),
    })
}

/// Where the fields of a path end, if it keeps its rules.
fn field_ends(path: &[u8]) -> Option<Ends> {
    let mut fields = Ends::default();
    let mut end = 0;
    for value in path.split(|&b| b == b'\t') {
        let level = fields.count;
        let is_omitted = level == PRMD && value.is_empty();
        if level == LEVELS || !(is_omitted || is_level_value(level, value)) {
            return None;
        }
        end += value.len();
        fields.ends[level] = end as u8;
        fields.count += 1;
        end += 1;
    }
    Some(fields).filter(|fields| fields.count >= 2)
}

/// What a row is made of, not yet held against the rules: its tag, its domain, and its path, the fields parted by tabs.
pub(crate) struct Spelt<'a> {
    pub tag: u8,
    pub domain: &'a [u8],
    pub path: &'a [u8],
}

/// What a line spells; None where its LF or a tab behind tag or domain is missing, or the tag is not one byte.
fn spelt(line: &[u8]) -> Option<Spelt<'_>> {
    let [tag, b'\t', fields @ .., b'\n'] = line else {
        return None;
    };
    let tab = fields.iter().position(|&b| b == b'\t')?;
    Some(Spelt {
        tag: *tag,
        domain: &fields[..tab],
        path: &fields[tab + 1..],
    })
}

impl Table {
    /// The table that a text spells, or the number of its first bad line.
    pub fn read(text: &[u8]) -> Result<Table, usize> {
        if text.len() > LIMIT {
            return Err(0);
        }
        Table::of_rows(text.split_inclusive(|&b| b == b'\n').map(spelt))
    }

    /// The table of these rows, the gateway's first, or the number of the first bad one, counted from 1. None stands for a row that is
    /// bad whatever the others are.
    pub(crate) fn of_rows<'a>(
        mut rows: impl Iterator<Item = Option<Spelt<'a>>>,
    ) -> Result<Table, usize> {
        let mut table = Table::default();
        let is_bad = |row: Option<Spelt>| row.and_then(|row| table.add(row)).is_none();
        let any_bad = rows.any(is_bad);
        // The rows that were taken are good but for repeated keys, and the one behind them is bad, if there is one or they are none.
        let first_bad = (any_bad || table.places.is_empty()).then_some(table.places.len());
        let repeated = [table.to_path.put_in_order(), table.to_domain.put_in_order()];
        let numbers = repeated.into_iter().chain([first_bad]).flatten();
        numbers.min().map_or(Ok(table), |number| Err(number + 1))
    }

    /// Takes one row more; None where it is bad by itself, or one too many.
    fn add(&mut self, row: Spelt) -> Option<()> {
        let number = self.places.len();
        let longest = match number {
            0 => GATEWAY_DOMAIN,
            _ => ROW_DOMAIN,
        };
        if number > ROWS || row.domain.len() > longest || !is_domain(row.domain) {
            return None;
        }
        let fields = field_ends(row.path)?;
        match (number, row.tag) {
            (0, b'G') => {}
            (1.., b'D') => self.to_path.add(domain_key(row.domain), number),
            (1.., b'R') => {
                let path = row.path.iter().map(u8::to_ascii_lowercase);
                self.to_domain.add(path, number);
            }
            _ => return None,
        }
        let domain = self.text.len();
        self.text.extend_from_slice(row.domain);
        let path = self.text.len();
        self.text.extend_from_slice(row.path);
        self.places.push(Place {
            domain,
            path,
            end: self.text.len(),
            fields,
        });
        Some(())
    }

    fn row(&self, number: usize) -> Row<'_> {
        let place = &self.places[number];
        Row {
            domain: &self.text[place.domain..place.path],
            path: &self.text[place.path..place.end],
            ends: &place.fields.ends[..place.fields.count],
        }
    }

    pub fn gateway(&self) -> Row<'_> {
        self.row(0)
    }

    /// The D row with the longest domain that is a tail of this one by whole parts, and the text of the parts left over.
    pub fn row_of_domain<'a>(&self, domain: &'a [u8]) -> Option<(Row<'_>, &'a [u8])> {
        // What stands further to the left than any row's domain and a dot is in no key.
        let mut key = [0; ROW_DOMAIN + 1];
        let mut length = 0;
        for (place, b) in key.iter_mut().zip(domain_key(domain)) {
            *place = b;
            length += 1;
        }
        let row = self.row(self.to_path.longest(&key[..length])?);
        let left = domain.len() - row.domain.len();
        Some((row, &domain[..left.saturating_sub(1)]))
    }

    /// The R row with the longest path that begins these levels, which keep their rules.
    pub fn row_of_levels(&self, levels: &Levels) -> Option<Row<'_>> {
        let mut key = [0; LONGEST_PATH];
        let mut end = 0;
        for (level, value) in levels.iter().enumerate() {
            let value = match value {
                Some(value) => value,
                None if level == PRMD => b"",
                None => break,
            };
            if level > 0 {
                key[end] = JOINT;
                end += 1;
            }
            key[end..end + value.len()].copy_from_slice(value);
            end += value.len();
        }
        let key = &mut key[..end];
        key.make_ascii_lowercase();
        self.to_domain.longest(key).map(|number| self.row(number))
    }
}
