//! Lines with a header mailbox, valid for the most part: white space, folds and comments in every place, comments of every depth about the
//! limit, quoted words, routes, lines about the longest that is read, and lines that the grammar does not take.

use plain::chars::is_atom;

use crate::damage::noise;
use crate::random::Random;

/// What is put into a line where it is refused, or at the edge of that.
const BETWEEN_FAULTS: &[&[u8]] = &[
    b"\r",
    b"\n",
    b"\r\n",
    b"\r\n\r\n ",
    b"\n ",
    b"\r ",
    b"\n\r ",
    b"\x0b",
    b"\0",
    b"\x7f",
    b"\xa0",
    b")",
    b"(",
    b"\\",
    b"\\ ",
    b"\"",
    b"[",
    b"]",
    b";",
    b",",
];
const QUOTED_FAULTS: &[&[u8]] = &[
    b"\t",
    b"\\\t",
    b"\r\n\t",
    b"\\\r\n\t",
    b"\r",
    b"\n",
    b"\r\n",
    b"\r\n\r\n ",
    b"\n ",
    b"\\\r",
    b"\\\n",
    b"\0",
    b"\x1f",
    b"\x7f",
    b"\\\x7f",
    b"\x80",
    b"\\\xff",
    b"\"",
];
const COMMENT_FAULTS: &[&[u8]] = &[
    b"\r",
    b"\r\n",
    b"\r\r\n ",
    b"\r\n\r\n\t",
    b"\x80",
    b"\xff",
    b"\\\x80",
    b"\\\xff",
    b"(",
    b")",
];

const SPACES: &[&[u8]] = &[
    b" ",
    b" ",
    b"\t",
    b"\r\n ",
    b"\r\n\t",
    b" \r\n \r\n\t ",
    b"  ",
];
const IN_COMMENTS: &[&[u8]] = &[
    b"x", b"Joe", b" ", b"\t", b"\"", b"\\\"", b"\\(", b"\\)", b"\\\\", b"\\\r", b"\\\r\n ",
    b"\\\n", b"\\\0", b"\r\n ", b"\r\n\t", b"\n", b"\0", b"\x7f", b"<a@b>", b",;:.[]",
];
const IN_QUOTES: &[&[u8]] = &[
    b"x",
    b"Joe",
    b" ",
    b"  ",
    b".",
    b"@",
    b"(",
    b")",
    b"((((((((((",
    b"<:,;>[]",
    b"\\\"",
    b"\\\\",
    b"\\a",
    b"\\ ",
    b"\\(",
    b"\r\n ",
    b"\\\r\n ",
    b"\r\n \r\n ",
];
const ATOMS: &[&[u8]] = &[
    b"a", b"b", b"Joe", b"Soap", b"tow", b"test", b"x-y", b"a_b", b"=?x?=", b"7",
];

/// Shapes that are none, or only just one.
const ODD: &[&[u8]] = &[
    b"<a@b>",
    b" (x) <a@b>",
    b"<@r:a@b>",
    b"A <:a@b>",
    b"A <,:a@b>",
    b"A <@r a@b>",
    b"A <@r @s:a@b>",
    b"A <@r.:a@b>",
    b"A <@\"r\":a@b>",
    b"@r:a@b",
    b"A <>",
    b"A <a>",
    b"A <a@b",
    b"A a@b>",
    b"A <a@b>>",
    b"A <a@b> B",
    b"A <<a@b>>",
    b"G: a@b;",
    b"G:;",
    b"G: A <a@b>, c@d;",
    b"a@b, c@d",
    b"A <a@b>, B <c@d>",
    b"a@b,",
    b",a@b",
    b"a@[1.2.3.4]",
    b"A <a@[1]>",
    b"A <@[1]:a@b>",
    b"J. Soap <a@b>",
    b"\"J. Soap\" <a@b>",
    b"a b@c",
    b"\"a\"\"b\"@c",
    b"\"a\"b@c",
    b"a@b c",
    b"a@\"b\"",
    b"a@b.\"c\"",
    b"A <@r.\"s\":a@b>",
    b"a@b@c",
    b"a..b@c",
    b".a@b",
    b"a.@b",
    b"a@.b",
    b"a@b.",
    b"a@",
    b"@b",
    b"a",
    b"\"a\"",
    b"(a)",
    b"\\a@b",
    b"a\\@b",
    b"a@b \\",
    b"a@b (\\",
    b"a@b (x",
    b"a@b )",
    b"\"a",
    b"\"a\\",
    b"\"a\\\"@b",
    b"a@b\r\n",
    b"\r\na@b",
];

/// What is repeated in a long line, and what stands before and behind it.
const LONG: &[(&[u8], &[u8], &[u8])] = &[
    (b"", b"a", b"@b"),
    (b"", b"a.", b"a@b"),
    (b"", b"a . ", b"a@b"),
    (b"\"", b"x", b"\"@b"),
    (b"\"", b"\\a", b"\"@b"),
    (b"\"", b"\\\"", b"\"@b"),
    (b"\"", b"\r\n ", b"\"@b"),
    (b"", b"\"\".", b"a@b"),
    (b"a@", b"b.", b"c"),
    (b"a@b", b" ", b""),
    (b"", b"\r\n\t", b"a@b"),
    (b"", b"()", b"a@b"),
    (b"(", b"\\)", b")a@b"),
    (b"(", b"x", b")a@b"),
    (b"((((((((", b"x", b"))))))))a@b"),
    (b"(((((((((", b"x", b")))))))))a@b"),
    (b"", b"w", b"<a@b>"),
    (b"", b"w ", b"<a@b>"),
    (b"", b"\"\"", b"<a@b>"),
    (b"A <", b"@r,", b":a@b>"),
    (b"A <", b",", b"@r:a@b>"),
    (b"A <@", b"r.", b"r:a@b>"),
    (b"", b"(", b""),
    (b"\"", b"(", b"\"@b"),
    (b"", b"\\", b""),
    (b"\"", b"\\", b""),
    (b"", b"\x80", b""),
];

/// A line as it is put together.
struct Line<'a> {
    random: &'a mut Random,
    bytes: Vec<u8>,
    /// Of four places between two tokens, in how many there is something.
    gaps: usize,
    /// How deep its comments go; 0 where it has none.
    deepest: usize,
    /// Whether it has pieces that are refused.
    faulty: bool,
}

impl Line<'_> {
    fn push(&mut self, piece: &[u8]) {
        self.bytes.extend_from_slice(piece);
    }

    fn push_one(&mut self, pieces: &[&[u8]]) {
        let piece = *self.random.pick(pieces);
        self.push(piece);
    }

    fn fault(&mut self, pieces: &[&[u8]]) {
        if self.faulty && self.random.one_in(12) {
            self.push_one(pieces);
        }
    }

    /// What may stand between two tokens and at both ends: nothing, white space, folds and comments.
    fn gap(&mut self) {
        if self.random.below(4) >= self.gaps {
            return;
        }
        for _ in 0..self.random.between(1, 3) {
            if self.deepest > 0 && self.random.one_in(2) {
                let depth = self.random.between(1, 3).min(self.deepest);
                let depth = if self.random.one_in(3) {
                    self.deepest
                } else {
                    depth
                };
                self.comment(depth);
            } else {
                self.push_one(SPACES);
            }
            self.fault(BETWEEN_FAULTS);
        }
    }

    /// A comment with others in it, down to this depth.
    fn comment(&mut self, depth: usize) {
        self.push(b"(");
        self.comment_text();
        if depth > 1 {
            self.comment(depth - 1);
            self.comment_text();
            if self.random.one_in(6) {
                self.comment(1);
            }
        }
        self.push(b")");
    }

    fn comment_text(&mut self) {
        for _ in 0..self.random.below(4) {
            self.push_one(IN_COMMENTS);
            self.fault(COMMENT_FAULTS);
        }
    }

    fn atom(&mut self) {
        if self.random.one_in(4) {
            let all: Vec<u8> = (0..=255).filter(|b| is_atom(*b)).collect();
            let length = self.random.between(1, 6);
            let atom = self.random.text(length, &all);
            self.push(&atom);
        } else {
            self.push_one(ATOMS);
        }
    }

    fn quoted(&mut self) {
        self.push(b"\"");
        for _ in 0..self.random.below(6) {
            if self.random.one_in(3) {
                let b = self.random.between(32, 126) as u8;
                self.push(if b"\"\\".contains(&b) { b"\\" } else { b"" });
                self.push(&[b]);
            } else {
                self.push_one(IN_QUOTES);
            }
            self.fault(QUOTED_FAULTS);
        }
        self.push(b"\"");
    }

    fn mark(&mut self, mark: &[u8]) {
        self.gap();
        self.push(mark);
        self.gap();
    }

    /// Atoms joined by dots, or words of which every so many is quoted.
    fn dotted(&mut self, quoted: Option<usize>) {
        let count = *self.random.pick(&[1, 1, 2, 2, 3, 5]);
        for which in 0..count {
            if which > 0 {
                self.mark(b".");
            }
            match quoted {
                Some(every) if self.random.one_in(every) => self.quoted(),
                _ => self.atom(),
            }
        }
    }

    fn address(&mut self) {
        let quoted = *self.random.pick(&[None, Some(1), Some(2), Some(3)]);
        self.dotted(quoted);
        self.mark(b"@");
        self.domain();
    }

    fn domain(&mut self) {
        let has_fault = self.faulty && self.random.one_in(12);
        self.dotted(if has_fault { Some(2) } else { None });
    }

    /// Words, with or without something between them. Two atoms with nothing between them are one.
    fn phrase(&mut self) {
        for _ in 0..*self.random.pick(&[1, 1, 2, 2, 3, 5]) {
            if self.random.one_in(3) {
                self.quoted();
            } else {
                self.atom();
            }
            let space: &[u8] = if self.random.one_in(3) { b"" } else { b" " };
            self.push(space);
            self.gap();
        }
    }

    /// Hops parted by commas, some with nothing between them.
    fn route(&mut self) {
        let hops = *self.random.pick(&[1, 1, 1, 2, 2, 3, 5]);
        let nulls = self.random.one_in(3);
        for which in 0..hops {
            let commas = usize::from(which > 0) + if nulls { self.random.below(3) } else { 0 };
            for _ in 0..commas {
                self.mark(b",");
            }
            self.mark(b"@");
            self.domain();
        }
        if nulls && self.random.one_in(2) {
            self.mark(b",");
        }
        self.mark(b":");
    }

    fn mailbox(&mut self) {
        self.gap();
        if self.random.one_in(3) {
            self.address();
            return self.gap();
        }
        self.phrase();
        self.mark(b"<");
        if self.random.one_in(2) {
            self.route();
        }
        self.address();
        self.mark(b">");
    }
}

fn made(random: &mut Random) -> Vec<u8> {
    let gaps = *random.pick(&[0, 0, 1, 1, 2, 4]);
    let deepest = *random.pick(&[0, 1, 2, 2, 3, 7, 8, 8, 8, 9, 10]);
    let faulty = random.one_in(4);
    let mut line = Line {
        random,
        bytes: Vec::new(),
        gaps,
        deepest,
        faulty,
    };
    line.mailbox();
    line.bytes
}

/// A line of about the longest that is read: one piece over and over, or another line with filling in front of it or behind it.
fn long(random: &mut Random) -> Vec<u8> {
    let length = *random.pick(&[4095, 4096, 4096, 4096, 4096, 4097, 4097, 4098, 5000]);
    if random.one_in(2) {
        let (front, piece, back) = *random.pick(LONG);
        let times = (length - front.len() - back.len()) / piece.len();
        let line = [front, &piece.repeat(times), back].concat();
        return filled(line, length, true, b' ');
    }
    let line = made(random);
    let behind = random.one_in(2);
    filled(line, length, behind, *random.pick(b" \tx"))
}

/// The line with white space, or a comment of other bytes, in front of it or behind it, up to this length.
fn filled(line: Vec<u8>, length: usize, behind: bool, fill: u8) -> Vec<u8> {
    let mut filling = vec![fill; length.saturating_sub(line.len())];
    if !b" \t".contains(&fill) && filling.len() >= 2 {
        filling[0] = b'(';
        *filling.last_mut().expect("two bytes at least") = b')';
    }
    if behind {
        [line, filling].concat()
    } else {
        [filling, line].concat()
    }
}

/// A line of any kind.
pub fn line(random: &mut Random) -> Vec<u8> {
    match random.below(40) {
        0 => Vec::new(),
        1 => noise(random, 300),
        2..=4 => random.pick(ODD).to_vec(),
        5..=7 => long(random),
        _ => made(random),
    }
}
