//! Calls the compiled library and the plain rules of docs/src/ on the same inputs, and compares all that comes out.
//!
//!     differential [--calls N] [--seed S] [--hostile] [--from ROUND]
//!
//! A seed settles every input; what fails names its round, which `--from` runs again first. `--hostile` damages every input. At the end it
//! prints how often each answer came up; with 100,000 calls or more, an answer that can come up and did not is a failure (exit status 1).

mod account;
mod addresses;
mod calls;
mod common_name_account;
mod common_names;
mod damage;
mod dates;
mod lent;
mod library;
mod list_account;
mod lists;
mod mailbox_lines;
mod mailboxes;
mod owned;
mod random;
mod records;
mod restricted;
mod round;
mod routes;
mod tables;
mod texts;

use std::env;
use std::process::ExitCode;
use std::thread;

use account::Account;
use round::{Compared, Round};

/// What docs/include/gateway.h promises to be enough for any call.
const STACK: usize = 256 * 1024;
const CALLS_OF_A_ROUND: usize = 40;
/// Fewer calls need not reach every answer.
const FULL_ACCOUNT: u64 = 100_000;

#[derive(Clone, Copy)]
struct Options {
    calls: u64,
    seed: u64,
    from: u64,
    hostile: bool,
}

fn options() -> Option<Options> {
    let mut options = Options {
        calls: 1_000_000,
        seed: 1,
        from: 0,
        hostile: false,
    };
    let mut words = env::args().skip(1);
    while let Some(word) = words.next() {
        if word == "--hostile" {
            options.hostile = true;
            continue;
        }
        let value = words.next()?.parse().ok()?;
        match &word[..] {
            "--calls" => options.calls = value,
            "--seed" => options.seed = value,
            "--from" => options.from = value,
            _ => return None,
        }
    }
    Some(options)
}

fn one_round(round: &mut Round, account: &mut Account) -> Compared {
    account.tables += 1;
    list_account::count(round, account);
    for _ in 0..CALLS_OF_A_ROUND {
        if round.list.is_some() && round.random.one_in(8) {
            round.hand_over_list();
            account.tables += 1;
            list_account::count(round, account);
        }
        match round.random.below(24) {
            0..=6 => calls::to_record(round, account)?,
            7..=14 => calls::to_address(round, account)?,
            15 => calls::check(round, account)?,
            16 => calls::shared_tail(round, account)?,
            17 => routes::route(round, account)?,
            18 | 19 => dates::date(round, account)?,
            20..=22 => mailboxes::mailbox(round, account)?,
            _ => restricted::restricted(round, account)?,
        }
    }
    Ok(())
}

fn all_rounds(options: Options) -> Result<Account, String> {
    let mut account = Account::new();
    for number in options.from.. {
        if account.calls >= options.calls {
            break;
        }
        let mut round = Round::new(options.seed, number, options.hostile);
        one_round(&mut round, &mut account)
            .map_err(|why| format!("seed {}, round {number}: {why}", options.seed))?;
    }
    Ok(account)
}

fn main() -> ExitCode {
    let Some(options) = options() else {
        eprintln!("usage: differential [--calls N] [--seed S] [--hostile] [--from ROUND]");
        return ExitCode::from(2);
    };
    println!(
        "seed {}{}",
        options.seed,
        if options.hostile { ", hostile" } else { "" }
    );
    let work = thread::Builder::new()
        .stack_size(STACK)
        .spawn(move || all_rounds(options))
        .expect("a thread");
    let account = match work
        .join()
        .expect("the rules and the comparison do not panic")
    {
        Ok(account) => account,
        Err(why) => {
            eprintln!("DIFFERS: {why}");
            return ExitCode::FAILURE;
        }
    };
    account.print();
    let missing = account.missing();
    if account.calls >= FULL_ACCOUNT && !missing.is_empty() {
        eprintln!("NEVER CAME UP: {}", missing.join("; "));
        return ExitCode::FAILURE;
    }
    println!("no difference");
    ExitCode::SUCCESS
}
