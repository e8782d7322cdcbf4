//! The restricted encoding, both ways held against the rules, and what was coded decoded again.

use plain::chars::is_dotted_atoms;
use plain::restricted;

use crate::account::Account;
use crate::calls::room_about;
use crate::damage::noise;
use crate::library;
use crate::random::Random;
use crate::round::{hex, Compared, Round};
use crate::texts::{by_the_library, converted};

/// Bytes that stand for themselves, that have a short form, and that have none.
const ITSELF: &[u8] = b"abcXYZ019@..!$%&'*+-/=?^`{|}~";
const SHORT: &[u8] = b" _(),:\\#";
const NUMBERED: &[u8] = b"\"<>;[]\0\t\n\r\x1f\x7f";

/// Groups that are read, and groups that do not parse.
const GROUPS: &[&[u8]] = &[
    b"#u#", b"#l#", b"#r#", b"#m#", b"#c#", b"#b#", b"#h#", b"#e#", b"#s#", b"#E#", b"#S#", b"#U#",
    b"#L#", b"#H#", b"#034#", b"#000#", b"#127#", b"#126#", b"#097#", b"#035#", b"#032#", b"#095#",
    b"#046#", b"#064#",
];
const BROKEN: &[&[u8]] = &[
    b"#", b"##", b"###", b"#x#", b"#uu#", b"#0#", b"#12#", b"#1234#", b"#128#", b"#255#", b"#999#",
    b"#01a#", b"# 12#", b"#+12#", b"#u", b"u#", b"#_#", b"#.#", b" ", b"(", b")", b",", b":",
    b"\\", b"\"", b";", b"<", b"[", b"\t", b"\0", b"\x7f",
];

/// Text that is no code yet.
fn plain_text(random: &mut Random) -> Vec<u8> {
    let sets: &[&[&[u8]]] = &[
        &[ITSELF],
        &[ITSELF, SHORT],
        &[ITSELF, ITSELF, SHORT, NUMBERED],
        &[SHORT],
        &[NUMBERED],
    ];
    let sets = *random.pick(sets);
    (0..random.below(24))
        .map(|_| {
            let set = *random.pick(sets);
            *random.pick(set)
        })
        .collect()
}

/// Coded text, as it is written or otherwise; now and then with one piece that does not parse.
fn coded_text(random: &mut Random) -> Vec<u8> {
    let mut pieces: Vec<Vec<u8>> = (0..random.below(10))
        .map(|_| match random.below(8) {
            0..=2 => vec![*random.pick(ITSELF)],
            3 => b"_".to_vec(),
            4 => format!("#{:03}#", random.below(128)).into_bytes(),
            _ => random.pick(GROUPS).to_vec(),
        })
        .collect();
    if random.one_in(3) {
        let at = random.below(pieces.len() + 1);
        pieces.insert(at, random.pick(BROKEN).to_vec());
    }
    pieces.concat()
}

fn text(random: &mut Random) -> Vec<u8> {
    match random.below(24) {
        0 => Vec::new(),
        1 => noise(random, 300),
        2 => {
            let piece = if random.one_in(2) {
                plain_text(random)
            } else {
                coded_text(random)
            };
            piece.repeat(random.between(20, 200))
        }
        3 => {
            let mut text = plain_text(random);
            text.push(*random.pick(b"\x80\xa0\xff"));
            text
        }
        4..=12 => plain_text(random),
        _ => coded_text(random),
    }
}

/// Whether a text that is coded becomes atoms joined by dots: it is not empty, has no `@`, and its dots are single and inner.
fn becomes_atoms(text: &[u8]) -> bool {
    !text.contains(&b'@') && text.split(|b| *b == b'.').all(|piece| !piece.is_empty())
}

fn count_coded(account: &mut Account, text: &[u8], coded: &[u8]) {
    let mut kind = |holds: bool, name: &str| {
        if holds {
            account.count("restricted", name);
        }
    };
    let has = |set: &[u8]| text.iter().any(|b| set.contains(b));
    kind(text.is_empty(), "nothing");
    kind(!text.is_empty() && coded == text, "as it was");
    kind(has(b" "), "with a space");
    kind(has(&SHORT[1..]), "with a short form");
    kind(has(NUMBERED), "with a number");
    kind(has(b"~/="), "with ~, / or =");
    kind(
        !text.is_empty() && coded.len() == 5 * text.len(),
        "five times as long",
    );
    kind(is_dotted_atoms(coded), "to atoms and dots");
    kind(!is_dotted_atoms(coded), "to something else");
}

/// Groups of three digits.
fn numbers(text: &[u8]) -> impl Iterator<Item = &[u8]> {
    text.windows(5).filter(|piece| {
        piece[0] == b'#' && piece[4] == b'#' && piece[1..4].iter().all(u8::is_ascii_digit)
    })
}

fn is_needless(group: &[u8]) -> bool {
    restricted::parsed(group).is_some_and(|b| restricted::restrict(&b) != Ok(group.to_vec()))
}

fn count_decoded(account: &mut Account, text: &[u8]) {
    let parsed = restricted::parsed(text);
    let mut kind = |holds: bool, name: &str| {
        if holds {
            account.count("unrestricted", name);
        }
    };
    let has = |groups: &[&[u8]]| {
        groups
            .iter()
            .any(|group| text.windows(group.len()).any(|piece| piece == *group))
    };
    let hashes = text.iter().filter(|b| **b == b'#').count();
    let Some(parsed) = parsed else {
        kind(true, "as it stands");
        kind(hashes % 2 == 1, "as it stands: open group");
        kind(
            numbers(text).any(|group| group > b"#127#"),
            "as it stands: over 127",
        );
        kind(has(&[b"##"]), "as it stands: adjacent #");
        return kind(has(&[b" "]), "as it stands: space");
    };
    let written = restricted::restrict(&parsed) == Ok(text.to_vec());
    kind(text.is_empty(), "parsed: nothing");
    kind(hashes > 0, "parsed: with groups");
    kind(has(&[b"_"]), "parsed: with _");
    kind(has(&[b"#e#", b"#s#", b"#E#", b"#S#"]), "parsed: / or =");
    kind(has(&[b"#U#", b"#L#", b"#H#"]), "parsed: capital");
    kind(numbers(text).any(is_needless), "parsed: needless number");
    kind(written, "parsed: as it is written");
    kind(!written, "parsed: and written otherwise");
}

/// By the library alone: what was coded is atoms where it should be, and decodes to the text.
fn comes_back(account: &mut Account, text: &[u8]) -> Compared {
    let coded = by_the_library(account, library::restrict, text, 5 * text.len());
    if is_dotted_atoms(&coded) != becomes_atoms(text) {
        return Err(format!(
            "restrict: {} is atoms and dots, or should be and is not\ntext {}",
            String::from_utf8_lossy(&coded),
            hex(text)
        ));
    }
    let back = by_the_library(account, library::unrestrict, &coded, coded.len());
    account.count("restrict, then unrestrict", "came back");
    if back == text {
        return Ok(());
    }
    Err(format!(
        "restrict: {} became {}, which went back to {}",
        hex(text),
        String::from_utf8_lossy(&coded),
        hex(&back)
    ))
}

pub fn restricted(round: &mut Round, account: &mut Account) -> Compared {
    let text = text(&mut round.random);
    let text = round.spoiled(text);
    let codes = round.random.one_in(2);
    let (function, call, wanted): (_, library::Conversion, _) = if codes {
        ("restrict", library::restrict, restricted::restrict(&text))
    } else {
        (
            "unrestrict",
            library::unrestrict,
            restricted::unrestrict(&text),
        )
    };
    let room = room_about(&mut round.random, wanted.as_ref().map_or(20, Vec::len));
    match &wanted {
        Ok(coded) if codes => count_coded(account, &text, coded),
        Ok(_) => count_decoded(account, &text),
        Err(_) => {}
    }
    converted(
        &mut round.random,
        account,
        function,
        call,
        &text,
        &wanted,
        room,
    )?;
    if wanted.is_ok() && round.random.one_in(4) {
        comes_back(account, &text)?;
    }
    Ok(())
}
