//! The O/R address record, whose values are lent by the texts they were read from, and when it is canonical.

use crate::chars::same;
use crate::levels::{alike, is_value, Levels, Value};

/// The most DDs.
pub const DDS: usize = 4;
const KIND_BOUND: usize = 8;
/// The upper bound of a DD's value.
pub const DD_BOUND: usize = 128;

/// A DD: its type and its value.
#[derive(Clone, Copy, Debug, Default)]
pub struct Dd<'a> {
    pub kind: &'a [u8],
    pub value: &'a [u8],
}

impl Dd<'_> {
    /// Of the type RFC-822, which has a short key and makes carriers.
    pub fn is_rfc_822(&self) -> bool {
        same(self.kind, b"RFC-822")
    }
}

/// Any number of DDs can be added. Of more than four the number is kept and the first four: no such record is canonical.
#[derive(Clone, Debug, Default)]
pub struct Record<'a> {
    pub levels: Levels<'a>,
    /// The common name.
    pub cn: Value<'a>,
    pub s: Value<'a>,
    pub g: Value<'a>,
    pub i: Value<'a>,
    pub gq: Value<'a>,
    dds: [Dd<'a>; DDS],
    dd_count: usize,
}

impl<'a> Record<'a> {
    pub fn add_dd(&mut self, dd: Dd<'a>) {
        if let Some(free) = self.dds.get_mut(self.dd_count) {
            *free = dd;
        }
        self.dd_count += 1;
    }

    /// The DDs in order.
    pub fn dds(&self) -> &[Dd<'a>] {
        &self.dds[..self.dd_count.min(DDS)]
    }

    /// Whether a part of a personal name is there; the common name is none.
    pub fn has_name(&self) -> bool {
        self.s.is_some() || self.g.is_some() || self.i.is_some() || self.gq.is_some()
    }

    pub fn is_canonical(&self) -> bool {
        let names = [
            (self.cn, 64),
            (self.s, 40),
            (self.g, 16),
            (self.i, 5),
            (self.gq, 3),
        ];
        (self.s.is_some() || ((self.cn.is_some() || self.dd_count > 0) && !self.has_name()))
            && self.dd_count <= DDS
            && self.levels.is_canonical()
            && names
                .iter()
                .all(|(value, bound)| value.is_none_or(|value| is_value(value, *bound)))
            && self
                .dds()
                .iter()
                .all(|dd| is_value(dd.kind, KIND_BOUND) && is_value(dd.value, DD_BOUND))
    }

    /// The same record: letter case aside, but DD values byte for byte.
    pub fn is_same(&self, other: &Record) -> bool {
        self.levels.is_same(&other.levels)
            && alike(self.cn, other.cn)
            && alike(self.s, other.s)
            && alike(self.g, other.g)
            && alike(self.i, other.i)
            && alike(self.gq, other.gq)
            && self.dd_count == other.dd_count
            && self
                .dds()
                .iter()
                .zip(other.dds())
                .all(|(a, b)| same(a.kind, b.kind) && a.value == b.value)
    }
}
