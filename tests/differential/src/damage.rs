//! Texts that were good and are damaged, and texts that were never good.

use crate::random::Random;

/// Bytes that mean something to one reader or another, and their neighbours.
const MARKS: &[u8] = b"@./=$\t\n\"\\()% !_-+,:?'AaZz09GDROgdro\r\0\x1f\x7f\x80\xff;<>[]{}~";

fn another_of_its_class(random: &mut Random, b: u8) -> u8 {
    match b {
        b'a'..=b'z' | b'A'..=b'Z' if random.one_in(2) => b ^ 32,
        b'a'..=b'z' => b'a' + random.below(26) as u8,
        b'A'..=b'Z' => b'A' + random.below(26) as u8,
        b'0'..=b'9' => b'0' + random.below(10) as u8,
        _ => b,
    }
}

fn edit(random: &mut Random, text: &mut Vec<u8>) {
    if text.is_empty() {
        text.push(*random.pick(MARKS));
        return;
    }
    let at = random.below(text.len());
    match random.below(14) {
        0 => text[at] = random.byte(),
        1 | 2 => text[at] = *random.pick(MARKS),
        3 | 4 => text[at] = another_of_its_class(random, text[at]),
        5 => {
            text.remove(at);
        }
        6 => text.insert(at, *random.pick(MARKS)),
        7 => text.insert(at, text[at]),
        8 => {
            let other = random.below(text.len());
            text.swap(at, other);
        }
        9 => text.truncate(at),
        10 => {
            text.pop();
        }
        // a piece twice, or a line twice
        11 => {
            let end = random.between(at, text.len().min(at + 80));
            let piece = text[at..end].to_vec();
            text.splice(end..end, piece);
        }
        12 => {
            let start = text[..at]
                .iter()
                .rposition(|&b| b == b'\n')
                .map_or(0, |lf| lf + 1);
            let end = text[at..]
                .iter()
                .position(|&b| b == b'\n')
                .map_or(text.len(), |lf| at + lf + 1);
            let line = text[start..end].to_vec();
            text.extend(line);
        }
        // one byte so often that a bound is passed
        _ => {
            let (b, times) = (text[at], random.between(1, 130));
            text.splice(at..at, std::iter::repeat_n(b, times));
        }
    }
}

pub fn damaged(random: &mut Random, text: &[u8]) -> Vec<u8> {
    let mut text = text.to_vec();
    for _ in 0..random.between(1, 3) {
        edit(random, &mut text);
    }
    text
}

/// Letters and digits changed into others, which most rules do not mind.
pub fn altered(random: &mut Random, text: &[u8]) -> Vec<u8> {
    let mut text = text.to_vec();
    for _ in 0..random.between(1, 3) {
        if !text.is_empty() {
            let at = random.below(text.len());
            text[at] = another_of_its_class(random, text[at]);
        }
    }
    text
}

/// Bytes of no kind.
pub fn noise(random: &mut Random, longest: usize) -> Vec<u8> {
    let longest = *random.pick(&[longest, 40, 8]);
    let length = random.below(longest.max(1));
    match random.below(3) {
        0 => (0..length).map(|_| random.byte()).collect(),
        1 => (0..length).map(|_| 32 + random.below(95) as u8).collect(),
        _ => random.text(length, MARKS),
    }
}
