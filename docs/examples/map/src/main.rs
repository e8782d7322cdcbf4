//! `map TABLE`: maps addresses and record texts of standard input, one a line, under a table, and says in words what each comes to. A line
//! that begins with `/` is record text.

use std::io::{self, BufRead, BufWriter, Write};
use std::process::ExitCode;
use std::{env, fs};

use map::{check, to_address, to_record, Refusal, Verdict};

fn in_words(refusal: Refusal) -> String {
    match refusal {
        Refusal::NoAddress => "not an address of the form local-part@domain".to_string(),
        Refusal::LongAddress => "an address over 2,304 bytes".to_string(),
        Refusal::LongCarried => {
            "it would have to be carried whole, and is too long for that".to_string()
        }
        Refusal::NoRecord => "not the text of a record".to_string(),
        Refusal::BadCarried => "it carries something that is not an address".to_string(),
        Refusal::BadTable(line) => format!("the table is malformed at line {line}"),
    }
}

fn say(out: &mut impl Write, before: &str, text: &[u8], behind: &str) -> io::Result<()> {
    out.write_all(before.as_bytes())?;
    out.write_all(text)?;
    out.write_all(behind.as_bytes())
}

fn answer(out: &mut impl Write, table: &[u8], line: &[u8]) -> io::Result<()> {
    say(out, "", line, "\n")?;
    let (mapped, what) = if line.first() == Some(&b'/') {
        (to_address(table, line), "goes out as")
    } else {
        (to_record(table, line), "is")
    };
    match mapped {
        Ok(text) => say(out, &format!("  {what} "), &text, "\n"),
        Err(refusal) => writeln!(out, "  is refused: {}", in_words(refusal)),
    }
}

fn run(name: &str) -> io::Result<()> {
    let table = fs::read(name)?;
    let mut out = BufWriter::new(io::stdout().lock());
    match check(&table) {
        Verdict::Sound => writeln!(out, "The table is sound.")?,
        Verdict::Unsound(witness) => say(
            &mut out,
            "The table is unsound; this does not come back: ",
            &witness,
            "\n",
        )?,
        Verdict::Malformed(line) => writeln!(out, "The table is malformed at line {line}.")?,
    }
    for line in io::stdin().lock().split(b'\n') {
        answer(&mut out, &table, &line?)?;
    }
    out.flush()
}

fn main() -> ExitCode {
    let names: Vec<String> = env::args().skip(1).collect();
    let [name] = &names[..] else {
        eprintln!("usage: map TABLE < addresses and record texts, one a line");
        return ExitCode::from(2);
    };
    match run(name) {
        Ok(()) => ExitCode::SUCCESS,
        Err(error) => {
            eprintln!("map: {name}: {error}");
            ExitCode::FAILURE
        }
    }
}
