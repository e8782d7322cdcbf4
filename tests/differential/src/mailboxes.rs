//! Header mailboxes: the address and the phrase's place held against the rules, and what was written read again.

use plain::address::shape;
use plain::mailbox::{self, Mailbox, Phrase};

use crate::account::Account;
use crate::calls::room_about;
use crate::library;
use crate::mailbox_lines;
use crate::round::{hex, Compared, Round};
use crate::texts::{by_the_library, converted};

/// Where a byte stands.
#[derive(Clone, Copy, PartialEq)]
enum Within {
    Nothing,
    Comments,
    Quotes,
}

/// What a line has, for the account alone: nothing is judged by it.
struct Seen {
    /// The line without comments, white space and what stands in quotes, of which the opening one is left.
    bones: Vec<u8>,
    deepest: usize,
    folds: Vec<Within>,
    parenthesis_in_quotes: bool,
    quote_in_comments: bool,
    /// Where the line ends.
    end: Within,
    ends_in_backslash: bool,
}

fn is_fold(text: &[u8]) -> bool {
    matches!(text, [b'\r', b'\n', b' ' | b'\t', ..])
}

fn look(line: &[u8]) -> Seen {
    let mut seen = Seen {
        bones: Vec::new(),
        deepest: 0,
        folds: Vec::new(),
        parenthesis_in_quotes: false,
        quote_in_comments: false,
        end: Within::Nothing,
        ends_in_backslash: false,
    };
    let (mut depth, mut at) = (0, 0);
    while at < line.len() {
        if is_fold(&line[at..]) {
            seen.folds.push(seen.end);
        }
        match (seen.end, line[at]) {
            (Within::Comments | Within::Quotes, b'\\') => {
                at += 1;
                seen.ends_in_backslash = at == line.len();
            }
            (Within::Nothing | Within::Comments, b'(') => {
                depth += 1;
                seen.deepest = seen.deepest.max(depth);
                seen.end = Within::Comments;
            }
            (Within::Comments, b')') => {
                depth -= 1;
                if depth == 0 {
                    seen.end = Within::Nothing;
                }
            }
            (Within::Comments, b'"') => seen.quote_in_comments = true,
            (Within::Quotes, b'(' | b')') => seen.parenthesis_in_quotes = true,
            (Within::Quotes, b'"') => seen.end = Within::Nothing,
            (Within::Nothing, b' ' | b'\t' | b'\r' | b'\n') => {}
            (Within::Nothing, b) => {
                seen.bones.push(b);
                if b == b'"' {
                    seen.end = Within::Quotes;
                }
            }
            _ => {}
        }
        at += 1;
    }
    seen
}

fn count_taken(account: &mut Account, line: &[u8], found: &Mailbox) {
    let seen = look(line);
    let mut kind = |holds: bool, name: &str| {
        if holds {
            account.count("mailbox taken", name);
        }
    };
    let count = |text: &[u8], mark: u8| text.iter().filter(|b| **b == mark).count();
    let inner = seen.bones.rsplit(|b| *b == b'<').next().unwrap_or(b"");
    let local = inner.rsplit(|b| *b == b':').next().unwrap_or(b"");
    let local = local.split(|b| *b == b'@').next().unwrap_or(b"");
    let (hops, commas) = (count(inner, b'@') - 1, count(inner, b','));
    kind(found.phrase.length == 0, "without a phrase");
    kind(found.phrase.length > 0, "with a phrase");
    kind(found.phrase.start > 0, "with a phrase further on");
    kind(hops == 1, "route of one hop");
    kind(hops > 1, "route of several hops");
    kind(hops > 0 && commas >= hops, "null element in a route");
    kind(!local.contains(&b'"'), "local part of atoms");
    kind(local == b"\"", "quoted local part");
    kind(local.contains(&b'"') && local != b"\"", "mixed local part");
    kind(found.address.contains(&b'\\'), "backslash written");
    kind(seen.deepest == mailbox::DEEPEST, "comments eight deep");
    kind(seen.parenthesis_in_quotes, "parenthesis in quotes");
    kind(seen.quote_in_comments, "quote in a comment");
    kind(seen.folds.contains(&Within::Nothing), "fold between words");
    kind(seen.folds.contains(&Within::Comments), "fold in a comment");
    kind(seen.folds.contains(&Within::Quotes), "fold in quotes");
    kind(line.len() == mailbox::LIMIT, "line of 4,096 bytes");
    kind(
        found.address.len() > plain::address::LIMIT,
        "address over 2,304 bytes",
    );
}

/// What a refused line has; more than one thing may be wrong with it.
fn count_refused(account: &mut Account, line: &[u8], number: u8) {
    let seen = look(line);
    let mut kind = |holds: bool, name: &str| {
        if holds {
            account.count("mailbox refused", name);
        }
    };
    let is_long = number == mailbox::LONG_LINE;
    kind(line.len() == mailbox::LIMIT + 1, "2: line of 4,097 bytes");
    kind(
        is_long && seen.deepest > mailbox::DEEPEST,
        "2: and comments too deep",
    );
    let is_deep = number == mailbox::TOO_DEEP;
    kind(is_deep && seen.deepest == 9, "9: comments nine deep");
    kind(
        is_deep && seen.end == Within::Comments,
        "9: and within a comment at the end",
    );
    if number != mailbox::NO_MAILBOX {
        return;
    }
    kind(
        seen.end == Within::Comments,
        "1: within a comment at the end",
    );
    kind(seen.end == Within::Quotes, "1: within quotes at the end");
    kind(seen.ends_in_backslash, "1: backslash at the end");
    kind(seen.bones.starts_with(b"<"), "1: no phrase before <");
    kind(seen.bones.contains(&b'['), "1: domain literal");
    kind(seen.bones.ends_with(b";"), "1: group");
    kind(
        seen.bones
            .windows(2)
            .any(|pair| pair == b"<:" || pair == b",:"),
        "1: route of no hop, or nearly",
    );
    kind(!line.is_ascii(), "1: byte over 127");
    kind(line.is_empty(), "1: empty line");
}

fn count_kinds(account: &mut Account, line: &[u8], wanted: &Result<Mailbox, u8>) {
    match wanted {
        Ok(found) => count_taken(account, line, found),
        Err(number) => count_refused(account, line, *number),
    }
}

/// The phrase's place as the library gives it: the empty start where there is none, or no mailbox.
fn same_phrase(account: &mut Account, line: &[u8], wanted: Phrase) -> Compared {
    let found = library::phrase(line);
    account.calls += 1;
    account.count(
        "phrase",
        match wanted {
            Phrase { length: 0, .. } => "none",
            Phrase { start: 0, .. } => "at the start",
            _ => "further on",
        },
    );
    if found == wanted.start * 65536 + wanted.length {
        return Ok(());
    }
    Err(format!(
        "phrase: wanted {} bytes from {} on, found {} from {} on\nline {}\nwhich is {}",
        wanted.length,
        wanted.start,
        found % 65536,
        found / 65536,
        hex(line),
        String::from_utf8_lossy(line).escape_debug()
    ))
}

/// This line has this address, by the library alone.
fn reads_as(account: &mut Account, line: &[u8], address: &[u8]) -> Compared {
    let again = by_the_library(account, library::mailbox, line, line.len());
    if again == address {
        return Ok(());
    }
    Err(format!(
        "mailbox: {} became {}, and not {}",
        String::from_utf8_lossy(line).escape_debug(),
        String::from_utf8_lossy(&again),
        String::from_utf8_lossy(address)
    ))
}

/// What was written is of the accepted shape and reads as itself, and so it does behind its phrase.
fn again(account: &mut Account, line: &[u8], phrase: Phrase) -> Compared {
    let address = by_the_library(account, library::mailbox, line, line.len());
    if shape(&address).is_none() {
        return Err(format!("mailbox: wrote no address: {}", hex(&address)));
    }
    reads_as(account, &address, &address)?;
    same_phrase(account, &address, Phrase::default())?;
    account.count("mailbox again", "address");
    if phrase.length == 0 {
        return Ok(());
    }
    let words = &line[phrase.start..][..phrase.length];
    let behind = [words, b"<", &address, b">"].concat();
    reads_as(account, &behind, &address)?;
    same_phrase(account, &behind, Phrase { start: 0, ..phrase })?;
    account.count("mailbox again", "address behind its phrase");
    Ok(())
}

pub fn mailbox(round: &mut Round, account: &mut Account) -> Compared {
    let line = mailbox_lines::line(&mut round.random);
    let line = round.spoiled(line);
    let wanted = mailbox::read(&line);
    count_kinds(account, &line, &wanted);
    let (address, phrase) = match wanted {
        Ok(found) => (Ok(found.address), found.phrase),
        Err(number) => (Err(number), Phrase::default()),
    };
    let room = room_about(&mut round.random, address.as_ref().map_or(20, Vec::len));
    converted(
        &mut round.random,
        account,
        "mailbox",
        library::mailbox,
        &line,
        &address,
        room,
    )?;
    same_phrase(account, &line, phrase)?;
    if address.is_ok() && round.random.one_in(4) {
        again(account, &line, phrase)?;
    }
    Ok(())
}
