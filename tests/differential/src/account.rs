//! How often each answer of each function came up, and whether one that can come up did not.

use std::collections::BTreeMap;

use plain::mapping::{Clause, CLAUSES};

const ALL_CLAUSES: [Clause; CLAUSES] = [
    Clause::NoRow,
    Clause::NoDomainPart,
    Clause::PastBound,
    Clause::PastOu4,
    Clause::EmptyLocal,
    Clause::LooseSpaces,
    Clause::OtherCharacter,
    Clause::NoReading,
    Clause::UnknownKey,
    Clause::RepeatedKey,
    Clause::NameBesidePn,
    Clause::PnIsNoName,
    Clause::NamedAgain,
    Clause::NotCanonical,
];

/// The account of calls whose list is handed over as a text, too.
pub const BESIDE_TEXT: &str = "list beside its text";

/// What a record with a common name has beside it, and how long the name is.
const WITH_CN: &[&str] = &[
    "alone",
    "beside S",
    "beside PN",
    "beside DDs",
    "of 1 byte",
    "of 63 bytes",
    "of 64 bytes",
    "with / or =",
];

/// Every answer that can come up.
const ANSWERS: &[(&str, &[&str])] = &[
    ("to_record", &["0", "1", "2", "3", "6", "7", "7, line 0"]),
    ("to_address", &["0", "4", "5", "6", "7", "7, line 0"]),
    ("check", &["0", "7", "7, line 0", "8", "8, no room"]),
    ("address mapped", &["by a row", "at the gateway"]),
    (
        "address by length",
        &[
            "2,048 bytes",
            "2,049 bytes",
            "2,303 bytes",
            "2,304 bytes",
            "2,304 bytes, mapped",
            "2,305 bytes",
        ],
    ),
    (
        "record sent",
        &["as a name", "as record text", "as a carrier"],
    ),
    (
        "address with CN",
        &[
            "handed over",
            "mapped",
            "mapped as a name",
            "carried whole",
            "carried: a key twice",
            "carried: not canonical",
            "refused with 1",
            "refused with 2",
            "refused with 3",
        ],
    ),
    ("CN mapped", WITH_CN),
    (
        "record with CN",
        &[
            "handed over",
            "written",
            "written: else a carrier",
            "refused with 4",
            "refused: named twice",
            "refused: empty",
            "refused: of 65 bytes",
            "refused: G, I or GQ without S",
        ],
    ),
    ("CN written", WITH_CN),
    (
        "CN read back",
        &["as it was", "as another record", "refused"],
    ),
    ("CN under a sound table", &["came back"]),
    ("shared_tail", &["nothing", "a part", "all"]),
    (
        "route",
        &[
            "all is taken",
            "waits for more",
            "next does not fit",
            "over",
        ],
    ),
    ("route's lines", &["0", "1", "2", "3", "4", "5", "7"]),
    ("date_to_822", &["0", "6", "10"]),
    (
        "UTCTime taken",
        &[
            "with seconds",
            "without seconds",
            "zone by name",
            "zone by offset",
            "zone -0000",
            "negative below an hour",
            "29 February",
        ],
    ),
    ("UTCTime refused", &["29 February"]),
    ("date_to_x400", &["0", "6", "10"]),
    (
        "date-time taken",
        &[
            "with seconds",
            "without seconds",
            "zone by name",
            "zone by offset",
            "zone -0000",
            "negative below an hour",
            "29 February",
            "day name",
            "one-digit day",
        ],
    ),
    ("date-time refused", &["29 February"]),
    (
        "date there and back",
        &["from a UTCTime", "from a date-time"],
    ),
    ("mailbox", &["0", "1", "2", "6", "9"]),
    (
        "mailbox taken",
        &[
            "without a phrase",
            "with a phrase",
            "with a phrase further on",
            "route of one hop",
            "route of several hops",
            "null element in a route",
            "local part of atoms",
            "quoted local part",
            "mixed local part",
            "backslash written",
            "comments eight deep",
            "parenthesis in quotes",
            "quote in a comment",
            "fold between words",
            "fold in a comment",
            "fold in quotes",
            "line of 4,096 bytes",
            "address over 2,304 bytes",
        ],
    ),
    (
        "mailbox refused",
        &[
            "2: line of 4,097 bytes",
            "2: and comments too deep",
            "9: comments nine deep",
            "9: and within a comment at the end",
            "1: within a comment at the end",
            "1: within quotes at the end",
            "1: backslash at the end",
            "1: no phrase before <",
            "1: domain literal",
            "1: group",
            "1: route of no hop, or nearly",
            "1: byte over 127",
            "1: empty line",
        ],
    ),
    ("phrase", &["none", "at the start", "further on"]),
    ("mailbox again", &["address", "address behind its phrase"]),
    ("restrict", &["0", "1", "6"]),
    (
        "restricted",
        &[
            "nothing",
            "as it was",
            "with a space",
            "with a short form",
            "with a number",
            "with ~, / or =",
            "five times as long",
            "to atoms and dots",
            "to something else",
        ],
    ),
    ("unrestrict", &["0", "1", "6"]),
    (
        "unrestricted",
        &[
            "parsed: nothing",
            "parsed: with groups",
            "parsed: with _",
            "parsed: / or =",
            "parsed: capital",
            "parsed: needless number",
            "parsed: as it is written",
            "parsed: and written otherwise",
            "as it stands",
            "as it stands: open group",
            "as it stands: over 127",
            "as it stands: adjacent #",
            "as it stands: space",
        ],
    ),
    ("restrict, then unrestrict", &["came back"]),
    ("list_to_record", &["0", "1", "2", "3", "6", "7"]),
    ("list_to_address", &["0", "4", "5", "6", "7"]),
    ("list_check", &["0", "7", "8", "8, no room"]),
    (
        "list_route",
        &[
            "all is taken",
            "waits for more",
            "next does not fit",
            "over",
        ],
    ),
    ("list_route's lines", &["0", "1", "2", "3", "4", "5", "7"]),
    (
        BESIDE_TEXT,
        &[
            "list_to_record",
            "list_to_address",
            "list_check",
            "list_route",
            "malformed",
        ],
    ),
    (
        "list taken",
        &[
            "the gateway's entry alone",
            "513 entries",
            "shared places",
            "overlapping places",
            "up to the text's end",
            "text over 65,536 bytes",
            "spells over 65,536 bytes",
        ],
    ),
    (
        "list refused",
        &[
            "empty list",
            "first entry not G",
            "G further on",
            "other kind",
            "kind over a byte",
            "place past the end",
            "sum that wraps",
            "nothing, at the end",
            "long domain",
            "tab in a domain",
            "LF in a domain or a path",
            "other domain",
            "other path",
            "repeated domain",
            "repeated path",
            "entry 514",
            "more than 513 entries, an earlier one bad",
        ],
    ),
    (
        "bad entry",
        &["the first", "in the middle", "the last", "514 of more"],
    ),
];

pub struct Account {
    answers: BTreeMap<(&'static str, &'static str), u64>,
    clauses: [[u64; 2]; CLAUSES],
    pub calls: u64,
    pub tables: u64,
    pub came_back: u64,
}

impl Account {
    pub fn new() -> Account {
        let answers = ANSWERS
            .iter()
            .flat_map(|(function, answers)| answers.iter().map(|answer| ((*function, *answer), 0)))
            .collect();
        Account {
            answers,
            clauses: [[0; 2]; CLAUSES],
            calls: 0,
            tables: 0,
            came_back: 0,
        }
    }

    /// An answer that is not in the list is one that cannot be right, and its comparison has failed before.
    pub fn count(&mut self, function: &'static str, answer: &str) {
        let (_, answers) = ANSWERS
            .iter()
            .find(|(known, _)| *known == function)
            .expect("a function of the list");
        if let Some(answer) = answers.iter().find(|known| **known == answer) {
            *self.answers.get_mut(&(function, *answer)).expect("listed") += 1;
        }
    }

    pub fn count_number(&mut self, function: &'static str, number: usize, line: usize) {
        const NUMBERS: [&str; 11] = ["0", "1", "2", "3", "4", "5", "6", "7", "8", "9", "10"];
        if number == 7 && line == 0 {
            self.count(function, "7, line 0");
        } else {
            self.count(function, NUMBERS[number]);
        }
    }

    pub fn count_clause(&mut self, clause: Clause, refused: bool) {
        self.clauses[clause as usize][usize::from(refused)] += 1;
    }

    pub fn print(&self) {
        println!("| function | answer | times |\n|---|---|---|");
        for (function, answers) in ANSWERS {
            for answer in *answers {
                println!(
                    "| {function} | {answer} | {} |",
                    self.answers[&(*function, *answer)]
                );
            }
        }
        println!("\n| carried whole by | carried | refused with 3 |\n|---|---|---|");
        for clause in ALL_CLAUSES {
            let [carried, refused] = self.clauses[clause as usize];
            println!("| {clause:?} | {carried} | {refused} |");
        }
        println!(
            "\n{} calls, {} tables; {} records tried under tables that were found sound, and all came back",
            self.calls, self.tables, self.came_back
        );
    }

    /// What never came up.
    pub fn missing(&self) -> Vec<String> {
        let answers = self
            .answers
            .iter()
            .filter(|(_, times)| **times == 0)
            .map(|((function, answer), _)| format!("{function}: {answer}"));
        let clauses = ALL_CLAUSES
            .iter()
            .filter(|clause| self.clauses[**clause as usize] == [0, 0])
            .map(|clause| format!("carried whole by {clause:?}"));
        answers.chain(clauses).collect()
    }
}
