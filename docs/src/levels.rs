//! The levels of a record, from C down to the units, and the rule of each.

use crate::chars::{run_of, same, WORD};

/// A value that is there or is not, lent by the text it stands in.
pub type Value<'a> = Option<&'a [u8]>;

/// C, ADMD, PRMD, O, OU1 to OU4.
pub const LEVELS: usize = 8;
pub const C: usize = 0;
pub const ADMD: usize = 1;
pub const PRMD: usize = 2;
pub const O: usize = 3;
/// The level of the first unit.
pub const OU: usize = 4;

/// The upper bounds of ADMD, PRMD, O and the units; C has a rule of its own.
pub const BOUNDS: [usize; LEVELS] = [3, 16, 16, 64, 32, 32, 32, 32];

/// Non-empty, within its bound, of printable characters, no leading, trailing or adjacent spaces: words joined by single spaces.
pub fn is_value(value: &[u8], bound: usize) -> bool {
    let mut rest = value;
    loop {
        let (word, behind) = rest.split_at(run_of(WORD, rest));
        match behind {
            _ if word.is_empty() => return false,
            [] => return value.len() <= bound,
            [b' ', next @ ..] => rest = next,
            _ => return false,
        }
    }
}

fn is_country(value: &[u8]) -> bool {
    match value {
        [_, _] => value.iter().all(u8::is_ascii_alphabetic),
        [_, _, _] => value.iter().all(u8::is_ascii_digit),
        _ => false,
    }
}

/// Whether `value` keeps the rule of level `level`, counted from 0.
pub fn is_level_value(level: usize, value: &[u8]) -> bool {
    match level {
        C => is_country(value),
        ADMD if value == b" " => true,
        _ => is_value(value, BOUNDS[level]),
    }
}

/// Both absent, or the same case aside.
pub fn alike(a: Value, b: Value) -> bool {
    match (a, b) {
        (Some(a), Some(b)) => same(a, b),
        (None, None) => true,
        _ => false,
    }
}

/// Any number of units can be added. Of more than four the number is kept and the first four: no such record is canonical.
#[derive(Clone, Copy, Debug, Default)]
pub struct Levels<'a> {
    values: [Value<'a>; LEVELS],
    units: usize,
}

impl<'a> Levels<'a> {
    pub fn get(&self, level: usize) -> Value<'a> {
        self.values[level]
    }

    /// The place of a level above the units.
    pub fn get_mut(&mut self, level: usize) -> &mut Value<'a> {
        &mut self.values[..OU][level]
    }

    /// The values from C to OU4.
    pub fn iter(&self) -> impl Iterator<Item = Value<'a>> + '_ {
        self.values.iter().copied()
    }

    /// Sets a level; units must come in their order.
    pub fn set(&mut self, level: usize, value: &'a [u8]) {
        if level < OU {
            self.values[level] = Some(value);
        } else {
            self.add_unit(value);
        }
    }

    /// Adds a unit under those that are there.
    pub fn add_unit(&mut self, value: &'a [u8]) {
        if let Some(free) = self.values.get_mut(OU + self.units) {
            *free = Some(value);
        }
        self.units += 1;
    }

    /// Turns the order of the units round, unless there are too many.
    pub fn reverse_units(&mut self) {
        if let Some(units) = self.values[OU..].get_mut(..self.units) {
            units.reverse();
        }
    }

    /// Adds the levels that a domain settled, at most four units of which stand above these; no other level is in both.
    pub fn add_settled(&mut self, settled: &Levels<'a>) {
        self.values[OU..].rotate_right(settled.units);
        for (place, value) in self.values.iter_mut().zip(settled.iter()) {
            if value.is_some() {
                *place = value;
            }
        }
        self.units += settled.units;
    }

    /// C and ADMD are there, there is no fifth unit, and each value keeps its rule.
    pub fn is_canonical(&self) -> bool {
        self.values[C].is_some()
            && self.values[ADMD].is_some()
            && OU + self.units <= LEVELS
            && (0..LEVELS)
                .all(|level| self.values[level].is_none_or(|value| is_level_value(level, value)))
    }

    pub fn is_same(&self, other: &Levels) -> bool {
        self.units == other.units && self.iter().zip(other.iter()).all(|(a, b)| alike(a, b))
    }
}
