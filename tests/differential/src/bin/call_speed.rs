//! Makes one kind of call on one text, over and over, by the compiled library or by the plain rules of docs/src/, so that valgrind can count what a
//! call costs: the difference between two numbers of calls.
//!
//!     call_speed library|plain mailbox|restrict|unrestrict TEXT CALLS
//!
//! It first sees that the two agree on the text, and prints what comes out.

#[allow(dead_code)]
#[path = "../library.rs"]
mod library;

use std::env;
use std::hint::black_box;
use std::process::ExitCode;

use plain::{mailbox, restricted};

/// More than any text of a measurement takes.
const ROOM: usize = 4096;

fn by_library(call: &str, text: &[u8], out: &mut [u8]) -> Vec<u8> {
    let value = match call {
        "mailbox" => library::mailbox(text, out),
        "restrict" => library::restrict(text, out),
        _ => library::unrestrict(text, out),
    };
    out[..value / 16].to_vec()
}

fn by_rules(call: &str, text: &[u8]) -> Vec<u8> {
    let result = match call {
        "mailbox" => mailbox::read(text).map(|read| read.address),
        "restrict" => restricted::restrict(text),
        _ => restricted::unrestrict(text),
    };
    result.unwrap_or_default()
}

fn main() -> ExitCode {
    let words: Vec<String> = env::args().skip(1).collect();
    let [by, call, text, calls] = &words[..] else {
        eprintln!("usage: call_speed library|plain mailbox|restrict|unrestrict TEXT CALLS");
        return ExitCode::from(2);
    };
    let text = text.as_bytes();
    let calls: usize = calls.parse().unwrap_or(0);
    let mut out = [0; ROOM];
    let wanted = by_rules(call, text);
    if by_library(call, text, &mut out) != wanted {
        eprintln!("the two do not agree");
        return ExitCode::FAILURE;
    }
    println!("{}", String::from_utf8_lossy(&wanted));
    for _ in 0..calls {
        if by == "library" {
            black_box(by_library(call, black_box(text), &mut out));
        } else {
            black_box(by_rules(call, black_box(text)));
        }
    }
    ExitCode::SUCCESS
}
