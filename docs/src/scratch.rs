//! Room for the values of a line that do not stand in it as they are: those that lose a `\` or a `$`, initials, and coded addresses. It is
//! kept from line to line, so that a line allocates nothing.

use std::{iter, mem};

#[derive(Default)]
pub struct Scratch {
    bytes: Vec<u8>,
    coded: Vec<u8>,
}

impl Scratch {
    /// Room for so many bytes in all, and a buffer for the value that carries an address; what was there has no use any more.
    pub(crate) fn room(&mut self, size: usize) -> (Room<'_>, &mut Vec<u8>) {
        if self.bytes.len() < size {
            self.bytes.resize(size, 0);
        }
        let room = Room {
            free: &mut self.bytes,
        };
        (room, &mut self.coded)
    }
}

/// What is free of a scratch; what is taken from it stays lent as long as the scratch itself.
pub struct Room<'a> {
    free: &'a mut [u8],
}

impl<'a> Room<'a> {
    /// Keeps these bytes. More of them than were asked for are a mistake of the caller's, and a panic.
    pub fn keep(&mut self, bytes: impl Iterator<Item = u8>) -> &'a [u8] {
        let free = mem::take(&mut self.free);
        let mut length = 0;
        for b in bytes {
            free[length] = b;
            length += 1;
        }
        let (kept, free) = free.split_at_mut(length);
        self.free = free;
        kept
    }

    /// Keeps a text without its marks, each of which takes the byte behind it.
    pub fn keep_unmarked(&mut self, text: &[u8], mark: u8) -> &'a [u8] {
        let mut bytes = text.iter();
        self.keep(iter::from_fn(|| {
            let &b = bytes.next()?;
            if b == mark {
                return bytes.next().copied();
            }
            Some(b)
        }))
    }
}
