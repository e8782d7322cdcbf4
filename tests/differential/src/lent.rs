//! A buffer that is lent to a call, filled beforehand and fenced on both sides, so that every byte that changes is seen.

use crate::random::Random;

const FENCE: usize = 64;

pub struct Lent {
    bytes: Vec<u8>,
    before: Vec<u8>,
}

impl Lent {
    pub fn new(random: &mut Random, room: usize) -> Lent {
        let (start, step) = (random.byte(), random.byte() | 1);
        let before: Vec<u8> = (0..room + 2 * FENCE)
            .map(|i| start.wrapping_add(step.wrapping_mul(i as u8)))
            .collect();
        Lent {
            bytes: before.clone(),
            before,
        }
    }

    /// A buffer that is filled as this one was.
    pub fn afresh(&self) -> Lent {
        Lent {
            bytes: self.before.clone(),
            before: self.before.clone(),
        }
    }

    /// Whether two buffers that were filled alike hold the same, fences too.
    pub fn is_as(&self, other: &Lent) -> bool {
        self.bytes == other.bytes
    }

    pub fn room(&mut self) -> &mut [u8] {
        let end = self.bytes.len() - FENCE;
        &mut self.bytes[FENCE..end]
    }

    /// The front of the room.
    pub fn front(&self, length: usize) -> &[u8] {
        &self.bytes[FENCE..FENCE + length]
    }

    /// This text at the front, and every other byte as before.
    pub fn holds(&self, text: &[u8]) -> bool {
        let end = FENCE + text.len();
        self.bytes[..FENCE] == self.before[..FENCE]
            && self.bytes[FENCE..end] == *text
            && self.bytes[end..] == self.before[end..]
    }

    /// The first byte that differs, counted from the front of the room.
    pub fn first_difference(&self, text: &[u8]) -> String {
        let at = (0..self.bytes.len()).find(|&i| {
            let wanted = i
                .checked_sub(FENCE)
                .and_then(|j| text.get(j))
                .unwrap_or(&self.before[i]);
            self.bytes[i] != *wanted
        });
        match at {
            Some(at) => format!("byte {} of the buffer", at as isize - FENCE as isize),
            None => "no byte of the buffer".to_string(),
        }
    }
}
