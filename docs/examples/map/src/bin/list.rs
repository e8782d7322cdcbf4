//! `list`: builds the rows of a table in memory, checks them, maps an address and a record under them, each alone and both as lines of a run, and
//! shows how a bad row is told.

use std::io::{self, BufWriter, Write};

use map::{
    list_check, list_route, list_to_address, list_to_record, List, Refusal, Row, Verdict,
    ANSWER_ROOM,
};

/// The rows, and the text in which their domains and paths stand.
#[derive(Default)]
struct Building {
    text: Vec<u8>,
    rows: Vec<Row>,
}

impl Building {
    /// Puts a value behind the others, and returns its place and its length.
    fn put(&mut self, value: &[u8]) -> (usize, usize) {
        let place = self.text.len();
        self.text.extend_from_slice(value);
        (place, value.len())
    }

    /// One row of each of these kinds. They share one place of the text.
    fn add(&mut self, kinds: &[u8], domain: &str, path: &[&str]) {
        let (domain, domain_len) = self.put(domain.as_bytes());
        let (path, path_len) = self.put(path.join("\t").as_bytes());
        self.rows.extend(kinds.iter().map(|&kind| Row {
            kind: usize::from(kind),
            domain,
            domain_len,
            path,
            path_len,
        }));
    }

    fn list(&self) -> List<'_> {
        List {
            text: &self.text,
            rows: &self.rows,
        }
    }
}

fn say_check(out: &mut impl Write, list: List) -> io::Result<()> {
    match list_check(list) {
        Verdict::Sound => writeln!(out, "The list is sound."),
        Verdict::Malformed(entry) => writeln!(out, "Entry {entry} is bad."),
        Verdict::Unsound(witness) => writeln!(
            out,
            "The list is unsound; this does not come back: {}",
            String::from_utf8_lossy(&witness)
        ),
    }
}

/// What a mapping answered about `given`.
fn say(
    out: &mut impl Write,
    given: &str,
    what: &str,
    mapped: Result<Vec<u8>, Refusal>,
) -> io::Result<()> {
    writeln!(out, "{given}")?;
    match mapped {
        Ok(text) => writeln!(out, "  {what} {}", String::from_utf8_lossy(&text)),
        Err(refusal) => writeln!(out, "  is refused: {refusal:?}"),
    }
}

/// The answers to all lines of a run at once.
fn say_run(out: &mut impl Write, list: List, lines: &str) -> io::Result<()> {
    let mut answers = [0; 2 * ANSWER_ROOM];
    let routed = list_route(list, false, lines.as_bytes(), true, &mut answers);
    out.write_all(&answers[..routed.written])
}

fn main() -> io::Result<()> {
    let address = "Ann.Lee@brack.tow.test";
    let record = "/S=Lee/OU=Fender Two/O=brack/PRMD=TOW/ADMD=PORTNET/C=XY/";
    let mut out = BufWriter::new(io::stdout().lock());
    let mut rows = Building::default();
    rows.add(b"G", "gw.survey.test", &["XY", " ", "SURVEY"]);
    rows.add(b"DR", "tow.test", &["XY", "PORTNET", "TOW"]);
    let list = rows.list();
    say_check(&mut out, list)?;
    let mapped = list_to_record(list, address.as_bytes());
    say(&mut out, address, "is", mapped)?;
    let mapped = list_to_address(list, record.as_bytes());
    say(&mut out, record, "goes out as", mapped)?;
    say_run(&mut out, list, &format!("A\t{address}\nO\t{record}\n"))?;
    // A second row for the domain: the later of the two is bad.
    rows.add(b"D", "tow.test", &["XY", "PORTNET", "HULL"]);
    say_check(&mut out, rows.list())?;
    out.flush()
}
