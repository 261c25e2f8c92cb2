//! The proved end beside one written by hand: whether they answer alike, and what each call costs.

mod calls;
mod compare;
mod plain;
mod proved;
mod time;
mod traffic;

use calls::Kind;
use std::env::args;
use std::process::ExitCode;

const USAGE: &str =
    "speed compare N [SEED] | time [ROUNDS] | rows [ROUNDS] | lists | play plain|proved LIST";

fn number(word: Option<String>, usual: u64) -> u64 {
    word.map_or(usual, |word| word.parse().expect("a number"))
}

/// Plays one list once on one end over a dome, for callgrind.
fn play(end: Option<String>, list: Option<String>) {
    let calls = time::list(&list.expect("a list"));
    let sum = match end.as_deref() {
        Some("proved") => proved::time(Kind::Dome, &calls),
        _ => plain::plain_time(Kind::Dome, &calls),
    };
    println!("{sum}");
}

fn main() -> ExitCode {
    let mut words = args().skip(1);
    match words.next().as_deref() {
        Some("compare") => {
            let least = number(words.next(), 1_000_000);
            return compare::compare(least, number(words.next(), 1));
        }
        Some("time") => time::time(number(words.next(), 2001) as usize),
        Some("rows") => time::rows(number(words.next(), 2001) as usize),
        Some("lists") => time::lists(),
        Some("play") => play(words.next(), words.next()),
        _ => {
            eprintln!("{USAGE}");
            return ExitCode::FAILURE;
        }
    }
    ExitCode::SUCCESS
}
