//! The rows as a list, which a caller's program builds itself: entries over one text, in place of a table's lines.

use crate::table::{Spelt, Table};

/// One entry. Its domain and its path, the fields parted by single tabs, stand at these places of the text and have these lengths; places
/// may overlap and be shared.
#[derive(Clone, Copy, Debug, PartialEq, Eq)]
pub struct RowEntry {
    /// The byte `G`, `D` or `R`.
    pub kind: usize,
    pub domain: usize,
    pub domain_len: usize,
    pub path: usize,
    pub path_len: usize,
}

/// So many bytes of the text from this place on; None where they are not all inside it.
fn part(text: &[u8], place: usize, length: usize) -> Option<&[u8]> {
    text.get(place..place.checked_add(length)?)
}

/// What an entry spells; None where its kind is no byte, or a place of it is outside the text.
fn spelt<'a>(text: &'a [u8], entry: &RowEntry) -> Option<Spelt<'a>> {
    Some(Spelt {
        tag: u8::try_from(entry.kind).ok()?,
        domain: part(text, entry.domain, entry.domain_len)?,
        path: part(text, entry.path, entry.path_len)?,
    })
}

/// The table that a list spells, or the number of its first bad entry, the gateway's being 1.
pub fn read_list(text: &[u8], entries: &[RowEntry]) -> Result<Table, usize> {
    Table::of_rows(entries.iter().map(|entry| spelt(text, entry)))
}
