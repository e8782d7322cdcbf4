//! Runs of lines through the router, cut anywhere and with room of any size. Each call is held against what it owes, and all that
//! the calls of a run wrote against the rules' answer to the whole run.

use plain::run::{answer_line, run, LIMIT};
use plain::scratch::Scratch;
use plain::table::Table;

use crate::account::Account;
use crate::addresses::address;
use crate::damage::noise;
use crate::lent::Lent;
use crate::library::{self, ANSWER_ROOM};
use crate::records::record_text;
use crate::round::{hex, Compared, Round};

fn line(round: &mut Round) -> Vec<u8> {
    let random = &mut round.random;
    let text = match random.below(24) {
        0..=10 => [b"A\t", &address(random, &round.sample)[..]].concat(),
        11..=18 => [b"O\t", &record_text(random, &round.sample)[..]].concat(),
        // at the limit, and far over it
        19 => {
            let length = *random.pick(&[4094, 4095, 4096, 4097, 4098, 5000, 8192, 12_000]);
            let front = *random.pick(&[&b"A\t"[..], b"O\t/S=", b""]);
            let mut text = front.to_vec();
            text.resize(length, b'x');
            return text;
        }
        20 => Vec::new(),
        21 => [b"a\t", &address(random, &round.sample)[..]].concat(),
        22 => random
            .pick(&[
                &b"A"[..],
                b"O",
                b"A\t",
                b"O\t",
                b"\t",
                b"AO\t",
                b"A a@b",
                b"A\ta@b\r",
            ])
            .to_vec(),
        _ => noise(random, 100),
    };
    round.spoiled(text)
}

fn lines(round: &mut Round) -> Vec<u8> {
    let mut text = Vec::new();
    for _ in 0..round.random.below(12) {
        text.extend(line(round));
        text.push(b'\n');
    }
    if round.random.one_in(2) {
        text.extend(line(round));
    }
    text
}

/// What one call owes: its state, how much it takes, and its answers.
fn owed(
    table: &Result<Table, usize>,
    over: bool,
    input: &[u8],
    last: bool,
    room: usize,
) -> (bool, usize, Vec<u8>) {
    let lf = |from: usize| {
        input[from..]
            .iter()
            .position(|&b| b == b'\n')
            .map(|at| from + at)
    };
    let (mut scratch, mut out) = (Scratch::default(), Vec::new());
    let mut at = match (over, lf(0)) {
        (false, _) => 0,
        (true, Some(end)) => end + 1,
        (true, None) => return (true, input.len(), out),
    };
    while at < input.len() {
        let end = lf(at);
        let too_long = input.len() - at > LIMIT;
        if end.is_none() && !last && !too_long {
            break;
        }
        let before = out.len();
        let line = &input[at..end.unwrap_or(input.len())];
        answer_line(table, line, &mut scratch, &mut out);
        if out.len() > room {
            out.truncate(before);
            break;
        }
        match end {
            Some(end) => at = end + 1,
            None => return (too_long, input.len(), out),
        }
    }
    (false, at, out)
}

/// The room of a call: enough for any answer, or about what the next answer needs.
fn room_for(round: &mut Round, over: bool, input: &[u8], last: bool) -> usize {
    let enough = ANSWER_ROOM + *round.random.pick(&[0, 0, 1, 100, 5000]);
    if round.random.one_in(2) {
        return enough;
    }
    let (_, _, answers) = owed(&round.table, over, input, last, usize::MAX);
    let next = answers
        .iter()
        .position(|&b| b == b'\n')
        .map_or(0, |lf| lf + 1);
    match round.random.below(4) {
        0 => next,
        1 => next + round.random.below(4),
        2 => next.saturating_sub(1),
        _ => round.random.below(answers.len() + 2),
    }
}

fn count_lines(account: &mut Account, lines: &'static str, answers: &[u8]) {
    for answer in answers.split_inclusive(|&b| b == b'\n') {
        account.count_number(lines, usize::from(answer[0] - b'0'), 1);
    }
}

pub fn route(round: &mut Round, account: &mut Account) -> Compared {
    let function = round.name("route", "list_route");
    let of_lines = round.name("route's lines", "list_route's lines");
    let all = lines(round);
    let (mut arrived, mut taken_in_all, mut over, mut lacked) = (0, 0, false, false);
    let mut out = Vec::new();
    loop {
        if !lacked {
            let more = *round
                .random
                .pick(&[0, 1, 7, 100, 100, 400, 400, 2000, 5000, 9000]);
            arrived = all.len().min(arrived + more);
        }
        let last = arrived == all.len() && (lacked || round.random.one_in(2));
        let input = &all[taken_in_all..arrived];
        let room = if lacked {
            ANSWER_ROOM
        } else {
            room_for(round, over, input, last)
        };
        let (next_over, taken, answers) = owed(&round.table, over, input, last, room);
        let mut lent = Lent::new(&mut round.random, room);
        let found = library::route(round.given(), over, input, last, lent.room());
        account.calls += 1;
        if found != (next_over, taken, answers.len()) || !lent.holds(&answers) {
            return Err(format!(
                "{function}, over {over}, last {last}, room {room}: wanted over, taken and written {:?}, found {found:?}; differs: {}\n{}\ninput {}",
                (next_over, taken, answers.len()),
                lent.first_difference(&answers),
                round.shown(),
                hex(input)
            ));
        }
        round
            .beside_text(account, function, found, &lent, |table, out| {
                library::route(table, over, input, last, out)
            })
            .map_err(|why| format!("{why}\ninput {}", hex(input)))?;
        let rest = &input[taken..];
        lacked =
            !next_over && !rest.is_empty() && (last || rest.len() > LIMIT || rest.contains(&b'\n'));
        account.count(
            function,
            match (next_over, lacked, rest.is_empty()) {
                (true, _, _) => "over",
                (_, true, _) => "next does not fit",
                (_, _, true) => "all is taken",
                _ => "waits for more",
            },
        );
        count_lines(account, of_lines, &answers);
        out.extend_from_slice(&answers);
        over = next_over;
        taken_in_all += taken;
        if last && taken_in_all == all.len() {
            break;
        }
    }
    if out == run(&round.table, &all) {
        return Ok(());
    }
    Err(format!(
        "{function}: the answers to all parts are not the answer to the whole\n{}\ninput {}",
        round.shown(),
        hex(&all)
    ))
}
