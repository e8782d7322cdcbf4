//! `orroute` in ordinary Rust: `table.tsv` of the working directory and standard input, answers to standard output.

use std::fs;
use std::io::{self, BufRead, ErrorKind, Read, Write};

use plain::run::{answer_line, LIMIT};
use plain::scratch::Scratch;
use plain::table::Table;

/// The room for what is read at a time.
const CHUNK: usize = 1 << 15;

fn main() -> io::Result<()> {
    let table = Table::read(&fs::read("table.tsv").unwrap_or_default());
    let (mut input, mut output) = (io::stdin().lock(), io::stdout().lock());
    let (mut scratch, mut out) = (Scratch::default(), Vec::with_capacity(CHUNK));
    let mut buffer = vec![0; CHUNK];
    // How much of the buffer's front is of a line that has not ended yet.
    let mut held = 0;
    loop {
        let end = held + read(&mut input, &mut buffer[held..])?;
        let is_last = end == held;
        let mut start = 0;
        while let Some(length) = line_length(&buffer[start..end], is_last) {
            let line = &buffer[start..start + length];
            let line = line.strip_suffix(b"\n").unwrap_or(line);
            answer_line(&table, line, &mut scratch, &mut out);
            start += length;
        }
        output.write_all(&out)?;
        if is_last {
            return output.flush();
        }
        out.clear();
        // Of a line over the limit, no more is held than shows that it is.
        held = (end - start).min(LIMIT + 1);
        buffer.copy_within(start..start + held, 0);
    }
}

/// Reads what there is; 0 is the end.
fn read(input: &mut impl Read, buffer: &mut [u8]) -> io::Result<usize> {
    loop {
        match input.read(buffer) {
            Err(error) if error.kind() == ErrorKind::Interrupted => {}
            read => return read,
        }
    }
}

/// The length of the first line with its LF, which the last line may lack; None where no line has ended.
fn line_length(text: &[u8], is_last: bool) -> Option<usize> {
    let mut rest = text;
    let length = rest.skip_until(b'\n').ok()?;
    (length > 0 && (is_last || text[length - 1] == b'\n')).then_some(length)
}
