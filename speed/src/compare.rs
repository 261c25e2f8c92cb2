//! Both ends on the same calls, every answer compared, and a count of what the traffic came to.

use crate::calls::{Kind, OPEN, SHORT, TICK};
use crate::plain::end::{End, Forbids};
use crate::plain::head::{Camera, Head};
use crate::plain::{self, rows};
use crate::proved;
use crate::traffic::{Dice, lecture_calls, random};
use std::collections::BTreeMap;
use std::process::ExitCode;

const STRETCH: usize = 40_000;

type Counts = BTreeMap<String, u64>;

fn count(counts: &mut Counts, what: impl Into<String>) {
    *counts.entry(what.into()).or_default() += 1;
}

/// What an answer of a byte or a tick was.
fn count_answer(counts: &mut Counts, call: u16, record: &[u8]) {
    if record[1] != 0 {
        count(counts, format!("fault {}", record[1]));
    }
    let tick = call % 512 == TICK;
    match &record[4..] {
        [] => {}
        [_, 0x41 | 0x42, 0xff] => count(counts, "acknowledged"),
        [_, 0x50, 0xff] => count(counts, "rule 5, clear"),
        [_, 0x51 | 0x52, 0xff] if tick => count(counts, "done"),
        [_, 0x61 | 0x62, 0x41, 0xff] if tick => count(counts, "jammed"),
        [_, 0x61 | 0x62, 4, 0xff] => count(counts, "cancelled"),
        [_, _, 5, 0xff] => count(counts, "error 05"),
        [_, 0x60, 2, 0xff] => count(counts, "error 02"),
        [_, 0x60, 3, 0xff] => count(counts, "error 03"),
        [_, 0x60, 0x41, 0xff] => count(counts, "error 41"),
        [_, 0x61 | 0x62, 4, 0xff, _, 0x41 | 0x42, 0xff] => count(counts, "displaced"),
        _ if tick => count(counts, "two endings at one tick"),
        [_, 0x50, ..] if matches!(record[0], 4 | 7 | 11) => {
            count(counts, format!("inquiry answered in {} bytes", record[0]));
        }
        _ => count(counts, "sent on"),
    }
}

/// What forbids a command that is about to become whole.
fn count_modes<H: Head>(counts: &mut Counts, end: &End<H>, begun: &[u8]) {
    let [_, 0x01, body @ ..] = begun else { return };
    if let Ok(order) = rows::command(body) {
        match end.station().forbids(&order) {
            Some(reason) if end.open() != [true; 2] => {
                count(counts, format!("forbidden by {reason:?}"))
            }
            _ => {}
        }
    }
}

/// Counts rules and modes on the end that was written by hand.
fn count_calls<H: Head>(counts: &mut Counts, head: H, calls: &[u16]) {
    let mut end = End::new(head);
    let mut begun: Vec<u8> = Vec::new();
    let mut address = 0;
    for call in calls.iter().filter(|call| **call < SHORT && **call != OPEN) {
        let mut out = [0; 16];
        if *call == TICK {
            let _ = end.tick(&mut out);
            continue;
        }
        let byte = *call as u8;
        if byte == 0xff && begun.len() > 1 && begun.len() < 16 {
            if address != 0 && begun[0] / 16 % 8 == address {
                count(counts, "rule 1, taken off");
            } else if let [0x88, 0x30, w @ 1..=7] = begun[..] {
                count(counts, "rule 2, address set");
                address = w;
            } else if begun == [0x88, 1, 0, 1] {
                count(counts, "rule 3, clear for all");
            } else if address == 0 || begun[0] != 0x80 + address {
                count(counts, "rule 4, sent on");
            } else {
                count(counts, "rule 5, for this end");
                count_modes(counts, &end, &begun);
            }
        }
        if byte == 0xff {
            begun.clear();
        } else if !begun.is_empty() || byte >= 0x80 {
            begun.push(byte);
        }
        let _ = end.byte(byte, &mut out);
    }
}

fn count_kind(counts: &mut Counts, kind: Kind, calls: &[u16]) {
    match kind {
        Kind::Block => count_calls(counts, Camera::<true>::new(false), calls),
        Kind::Dome => count_calls(counts, Camera::<false>::new(false), calls),
        Kind::StalledDome => count_calls(counts, Camera::<false>::new(true), calls),
    }
}

fn count_records(counts: &mut Counts, calls: &[u16], log: &[u8]) {
    let mut at = 0;
    for call in calls {
        let length = match call % 512 {
            OPEN.. => 2,
            _ => 4 + usize::from(log[at]),
        };
        match call % 512 {
            OPEN.. => count(counts, "open asked"),
            _ => count_answer(counts, *call, &log[at..at + length]),
        }
        at += length;
    }
}

/// Plays a list on both ends, and tells whether all answers agree.
fn agree(kind: Kind, calls: &[u16], logs: &mut [Vec<u8>; 2]) -> Result<usize, usize> {
    let [ours, theirs] = logs;
    let room = calls.len() * 20;
    for log in [&mut *ours, &mut *theirs] {
        log.clear();
        log.resize(room, 0xa5);
    }
    let count = plain::log(kind, calls, ours);
    let other = proved::log(kind, calls, theirs);
    match ours.iter().zip(theirs.iter()).position(|(a, b)| a != b) {
        Some(at) => Err(at),
        None if count != other => Err(count.min(other)),
        None => Ok(count),
    }
}

pub fn compare(least: u64, seed: u64) -> ExitCode {
    let mut dice = Dice(seed);
    let mut counts = Counts::new();
    let mut logs = [Vec::new(), Vec::new()];
    let (mut calls_made, mut ticks, mut turn) = (0u64, 0u64, 0u64);
    while calls_made < least {
        let kind = Kind::ALL[(turn % 3) as usize];
        let calls = if turn < 30 {
            lecture_calls(1 + (turn / 3) as usize)
        } else {
            random(&mut dice, STRETCH)
        };
        match agree(kind, &calls, &mut logs) {
            Ok(length) => count_records(&mut counts, &calls, &logs[0][..length]),
            Err(at) => {
                eprintln!(
                    "{kind:?}, list {turn} of seed {seed}: answers differ at byte {at} of the log"
                );
                return ExitCode::FAILURE;
            }
        }
        count_kind(&mut counts, kind, &calls);
        calls_made += calls.len() as u64;
        ticks += calls.iter().filter(|call| **call % 512 == TICK).count() as u64;
        turn += 1;
    }
    println!(
        "{calls_made} calls in {turn} lists, of them {ticks} ticks, on both ends: no difference"
    );
    tell(&counts)
}

/// Prints the counts. Traffic in which a mode never forbade anything would compare too little.
fn tell(counts: &Counts) -> ExitCode {
    for (what, times) in counts {
        println!("{times:>12} {what}");
    }
    let each = |reason| counts.contains_key(&format!("forbidden by {reason:?}"));
    if Forbids::ALL.iter().all(each) {
        ExitCode::SUCCESS
    } else {
        ExitCode::FAILURE
    }
}
