//! The keys of a table's rows in order, and the row with the longest key that begins another, found by one binary search.
//!
//! A key is small-letter parts joined by `JOINT`, which is below any byte of a part: so all keys that a key begins by whole parts stand
//! right behind it, and those that begin a key are the nearest one before it and the ones above that.

/// What joins the parts of a key.
pub const JOINT: u8 = b'\t';

/// A key's place among all keys, the number of its row, and the entry with the longest other key that begins it.
struct Entry {
    start: usize,
    end: usize,
    row: usize,
    above: Option<usize>,
}

#[derive(Default)]
pub struct Index {
    keys: Vec<u8>,
    entries: Vec<Entry>,
}

/// Whether `front` begins `key` by whole parts.
fn begins(front: &[u8], key: &[u8]) -> bool {
    key.strip_prefix(front)
        .is_some_and(|rest| rest.is_empty() || rest[0] == JOINT)
}

impl Index {
    /// Adds the key of a row. The index is to be put in order when all are added.
    pub fn add(&mut self, key: impl Iterator<Item = u8>, row: usize) {
        let start = self.keys.len();
        self.keys.extend(key);
        self.entries.push(Entry {
            start,
            end: self.keys.len(),
            row,
            above: None,
        });
    }

    /// Puts the keys in order; returns the first row whose key an earlier row has, if there is one.
    pub fn put_in_order(&mut self) -> Option<usize> {
        let keys = &self.keys;
        let key = |entry: &Entry| &keys[entry.start..entry.end];
        self.entries
            .sort_unstable_by(|a, b| key(a).cmp(key(b)).then(a.row.cmp(&b.row)));
        for at in 1..self.entries.len() {
            self.entries[at].above = self.nearest(at - 1, self.key(&self.entries[at]));
        }
        self.entries
            .windows(2)
            .filter(|pair| self.key(&pair[0]) == self.key(&pair[1]))
            .map(|pair| pair[1].row)
            .min()
    }

    /// The row with the longest key that begins this one by whole parts.
    pub fn longest(&self, key: &[u8]) -> Option<usize> {
        let behind = self.entries.partition_point(|entry| self.key(entry) <= key);
        let found = self.nearest(behind.checked_sub(1)?, key)?;
        Some(self.entries[found].row)
    }

    fn key(&self, entry: &Entry) -> &[u8] {
        &self.keys[entry.start..entry.end]
    }

    /// This entry, or the nearest above it, whose key begins the other by whole parts.
    fn nearest(&self, at: usize, key: &[u8]) -> Option<usize> {
        let mut at = Some(at);
        while let Some(entry) = at.map(|at| &self.entries[at]) {
            if begins(self.key(entry), key) {
                break;
            }
            at = entry.above;
        }
        at
    }
}
