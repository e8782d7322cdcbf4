//! Header mailboxes by RFC 822's grammar, without domain literals: the bare address of one, and where its phrase stands in the line.
//!
//!     mailbox    = addr-spec / phrase "<" [route] addr-spec ">"
//!     addr-spec  = local-part "@" domain
//!     local-part = word *("." word)
//!     domain     = atom *("." atom)
//!     route      = 1#("@" domain) ":"
//!     phrase     = 1*word
//!     word       = atom / quoted-string
//!
//! The line loses its folds, what is left is cut into words and marks, and these are read by the grammar. White space and comments may
//! stand between any two of them and at both ends.

use std::iter::Peekable;
use std::slice::Iter;

use crate::chars::is_atom;

/// The longest line that is read.
pub const LIMIT: usize = 4096;
/// How deep comments may stand in each other.
pub const DEEPEST: usize = 8;

/// The refusals, of which the first that holds is given.
pub const LONG_LINE: u8 = 2;
pub const TOO_DEEP: u8 = 9;
pub const NO_MAILBOX: u8 = 1;

#[derive(Clone, Debug, PartialEq)]
pub struct Mailbox {
    pub address: Vec<u8>,
    pub phrase: Phrase,
}

/// Where the phrase stands in the line, from its first word to its last; with none, the line's empty start.
#[derive(Clone, Copy, Debug, Default, PartialEq)]
pub struct Phrase {
    pub start: usize,
    pub length: usize,
}

pub fn read(line: &[u8]) -> Result<Mailbox, u8> {
    if line.len() > LIMIT {
        return Err(LONG_LINE);
    }
    if depth(line) > DEEPEST {
        return Err(TOO_DEEP);
    }
    tokens(line)
        .and_then(|tokens| mailbox(&tokens))
        .ok_or(NO_MAILBOX)
}

/// How deep comments stand in each other, in any line at all: quotes open only outside comments, a backslash takes the next byte in
/// either, and a stray `)` counts nothing.
pub fn depth(line: &[u8]) -> usize {
    let (mut now, mut deepest, mut quoted) = (0, 0, false);
    let mut bytes = line.iter();
    while let Some(b) = bytes.next() {
        match b {
            b'\\' if quoted || now > 0 => {
                bytes.next();
            }
            b'"' if now == 0 => quoted = !quoted,
            b'(' if !quoted => now += 1,
            b')' if !quoted && now > 0 => now -= 1,
            _ => {}
        }
        deepest = deepest.max(now);
    }
    deepest
}

/// A byte of the unfolded line, and where it stood.
#[derive(Clone, Copy)]
struct Placed {
    byte: u8,
    at: usize,
}

type Rest<'a> = Peekable<Iter<'a, Placed>>;

/// The line without the CR and LF of its folds: a fold is CR LF directly followed by a space or a tab, which stays.
fn unfolded(line: &[u8]) -> Vec<Placed> {
    let is_fold = |at: usize| matches!(line[at..], [b'\r', b'\n', b' ' | b'\t', ..]);
    (0..line.len())
        .filter(|&at| !is_fold(at) && (at == 0 || !is_fold(at - 1)))
        .map(|at| Placed { byte: line[at], at })
        .collect()
}

#[derive(Clone, Copy, PartialEq)]
enum Kind {
    Atom,
    Quoted,
    Mark,
}

struct Token {
    kind: Kind,
    /// What it says: without the quotes and backslashes of a quoted string.
    text: Vec<u8>,
    /// Its first byte in the line, and the one behind its last.
    start: usize,
    end: usize,
}

fn tokens(line: &[u8]) -> Option<Vec<Token>> {
    let bytes = unfolded(line);
    let mut rest = bytes.iter().peekable();
    let mut tokens = Vec::new();
    while let Some(&&first) = rest.peek() {
        if is_atom(first.byte) {
            tokens.push(atom(first.at, &mut rest));
            continue;
        }
        rest.next();
        match first.byte {
            b' ' | b'\t' => {}
            b'(' => comment(&mut rest)?,
            b'"' => tokens.push(quoted_string(first.at, &mut rest)?),
            b'.' | b'@' | b'<' | b'>' | b',' | b':' => tokens.push(mark(first)),
            _ => return None,
        }
    }
    Some(tokens)
}

/// As many characters of an atom as there are.
fn atom(start: usize, rest: &mut Rest) -> Token {
    let mut text = Vec::new();
    while let Some(next) = rest.next_if(|next| is_atom(next.byte)) {
        text.push(next.byte);
    }
    let end = start + text.len();
    Token {
        kind: Kind::Atom,
        text,
        start,
        end,
    }
}

fn mark(Placed { byte, at }: Placed) -> Token {
    Token {
        kind: Kind::Mark,
        text: vec![byte],
        start: at,
        end: at + 1,
    }
}

/// The rest of a comment: text, quoted pairs and comments, up to its `)`. Text is any ASCII but parentheses, backslashes and CR.
fn comment(rest: &mut Rest) -> Option<()> {
    loop {
        match rest.next()?.byte {
            b')' => return Some(()),
            b'(' => comment(rest)?,
            b'\\' => {
                rest.next().filter(|taken| taken.byte.is_ascii())?;
            }
            b'\r' | 128.. => return None,
            _ => {}
        }
    }
}

/// The rest of a quoted string: bytes 32 to 126, any of them behind a backslash, and `"` and `\` only so, up to its `"`.
fn quoted_string(start: usize, rest: &mut Rest) -> Option<Token> {
    let is_inner = |b: u8| (32..=126).contains(&b);
    let mut text = Vec::new();
    loop {
        let next = rest.next()?;
        match next.byte {
            b'"' => {
                return Some(Token {
                    kind: Kind::Quoted,
                    text,
                    start,
                    end: next.at + 1,
                })
            }
            b'\\' => text.push(
                rest.next()
                    .map(|taken| taken.byte)
                    .filter(|b| is_inner(*b))?,
            ),
            b if is_inner(b) => text.push(b),
            _ => return None,
        }
    }
}

/// `addr-spec / phrase route-addr`, and nothing behind it.
fn mailbox(tokens: &[Token]) -> Option<Mailbox> {
    bare_address(Reader { left: tokens }).or_else(|| route_address(Reader { left: tokens }))
}

fn bare_address(mut reader: Reader) -> Option<Mailbox> {
    let address = reader.addr_spec()?;
    reader.end()?;
    Some(Mailbox {
        address,
        phrase: Phrase::default(),
    })
}

fn route_address(mut reader: Reader) -> Option<Mailbox> {
    let phrase = reader.phrase()?;
    reader.mark(b'<')?;
    if reader.sees(b'@') || reader.sees(b',') {
        reader.route()?;
    }
    let address = reader.addr_spec()?;
    reader.mark(b'>')?;
    reader.end()?;
    Some(Mailbox { address, phrase })
}

/// Takes what the grammar says next, or fails.
struct Reader<'a> {
    left: &'a [Token],
}

impl<'a> Reader<'a> {
    fn token(&mut self, holds: impl Fn(&Token) -> bool) -> Option<&'a Token> {
        let (first, left) = self.left.split_first()?;
        if !holds(first) {
            return None;
        }
        self.left = left;
        Some(first)
    }

    fn mark(&mut self, b: u8) -> Option<&'a Token> {
        self.token(|token| token.kind == Kind::Mark && token.text == [b])
    }

    fn sees(&self, b: u8) -> bool {
        Reader { left: self.left }.mark(b).is_some()
    }

    fn end(&self) -> Option<()> {
        self.left.is_empty().then_some(())
    }

    fn word(&mut self) -> Option<&'a Token> {
        self.token(|token| token.kind != Kind::Mark)
    }

    fn atom(&mut self) -> Option<&'a Token> {
        self.token(|token| token.kind == Kind::Atom)
    }

    /// `1*word`
    fn phrase(&mut self) -> Option<Phrase> {
        let first = self.word()?;
        let mut last = first;
        while let Some(word) = self.word() {
            last = word;
        }
        Some(Phrase {
            start: first.start,
            length: last.end - first.start,
        })
    }

    /// `word *("." word)`
    fn local_part(&mut self) -> Option<Vec<&'a Token>> {
        let mut words = vec![self.word()?];
        while self.mark(b'.').is_some() {
            words.push(self.word()?);
        }
        Some(words)
    }

    /// `atom *("." atom)`
    fn domain(&mut self) -> Option<Vec<&'a Token>> {
        let mut atoms = vec![self.atom()?];
        while self.mark(b'.').is_some() {
            atoms.push(self.atom()?);
        }
        Some(atoms)
    }

    /// `local-part "@" domain`, as it is written.
    fn addr_spec(&mut self) -> Option<Vec<u8>> {
        let local = self.local_part()?;
        self.mark(b'@')?;
        let domain = self.domain()?;
        Some([written_local(&local), joined(&domain)].join(&b'@'))
    }

    /// `1#("@" domain) ":"`: hops parted by commas, of which some may have nothing between them, and one hop at least. It is dropped.
    fn route(&mut self) -> Option<()> {
        let mut hops = 0;
        loop {
            if self.mark(b'@').is_some() {
                self.domain()?;
                hops += 1;
            }
            if self.mark(b',').is_none() {
                break;
            }
        }
        self.mark(b':').filter(|_| hops > 0).map(|_| ())
    }
}

/// What the words say, joined by dots.
fn joined(words: &[&Token]) -> Vec<u8> {
    let texts: Vec<&[u8]> = words.iter().map(|word| &word.text[..]).collect();
    texts.join(&b'.')
}

/// A local part with a quoted word is one quoted string of the same meaning, in which only `"` and `\` have a backslash.
fn written_local(words: &[&Token]) -> Vec<u8> {
    let text = joined(words);
    if words.iter().all(|word| word.kind == Kind::Atom) {
        return text;
    }
    let mut out = vec![b'"'];
    for b in text {
        if b == b'"' || b == b'\\' {
            out.push(b'\\');
        }
        out.push(b);
    }
    out.push(b'"');
    out
}
