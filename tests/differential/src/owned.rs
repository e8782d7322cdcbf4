//! Records that own their values, as they are made here; those of the rules only lend them.

use plain::record::{Dd, Record};
use plain::text::write_text;

type Value = Option<Vec<u8>>;

#[derive(Default)]
pub struct Owned {
    pub c: Value,
    pub admd: Value,
    pub prmd: Value,
    pub o: Value,
    /// The most significant first.
    pub units: Vec<Vec<u8>>,
    pub cn: Value,
    pub s: Value,
    pub g: Value,
    pub i: Value,
    pub gq: Value,
    /// Type and value.
    pub dds: Vec<(Vec<u8>, Vec<u8>)>,
}

impl Owned {
    /// Sets a level; units must come in their order.
    pub fn set_level(&mut self, level: usize, value: &[u8]) {
        let value = value.to_vec();
        match level {
            0 => self.c = Some(value),
            1 => self.admd = Some(value),
            2 => self.prmd = Some(value),
            3 => self.o = Some(value),
            _ => self.units.push(value),
        }
    }

    pub fn lent(&self) -> Record<'_> {
        let mut record = Record::default();
        for (level, value) in [&self.c, &self.admd, &self.prmd, &self.o]
            .into_iter()
            .enumerate()
        {
            *record.levels.get_mut(level) = value.as_deref();
        }
        for unit in &self.units {
            record.levels.add_unit(unit);
        }
        record.cn = self.cn.as_deref();
        record.s = self.s.as_deref();
        record.g = self.g.as_deref();
        record.i = self.i.as_deref();
        record.gq = self.gq.as_deref();
        for (kind, value) in &self.dds {
            record.add_dd(Dd { kind, value });
        }
        record
    }

    /// Record text of the DDs, the names and the levels from `from` on.
    pub fn text(&self, from: usize) -> Vec<u8> {
        written(&self.lent(), from)
    }
}

/// Record text of the DDs, the names and the levels from `from` on.
pub fn written(record: &Record, from: usize) -> Vec<u8> {
    let mut text = Vec::new();
    write_text(record, from, &mut text);
    text
}
