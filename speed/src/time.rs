//! What a byte, a tick and a packet cost at each end.

use crate::calls::{Kind, TICK, bytes};
use crate::plain::plain_time;
use crate::proved;
use crate::traffic::{lecture_calls, lecture_without_ticks};
use std::hint::black_box;
use std::time::Instant;

/// The lecture as it was recorded, and with each stretch of ticks thirty times as long.
const STRETCHES: [usize; 2] = [1, 30];

/// A list by name, for callgrind: `bytes` is the lecture, `ticks` the same with more ticks, a number a row's packets.
pub fn list(name: &str) -> Vec<u16> {
    match name {
        "bytes" => lecture_calls(STRETCHES[0]),
        "ticks" => lecture_calls(STRETCHES[1]),
        row => packets(&ROWS[row.parse::<usize>().expect("a row")].1),
    }
}

/// The lists for scripts: of the lecture with the numbers of bytes and ticks, of a row with the number of packets
/// and what it is.
pub fn lists() {
    for name in ["bytes", "ticks"] {
        let [bytes, ticks] = counted(&list(name));
        println!("{name} {bytes} {ticks}");
    }
    for (place, (name, packet)) in ROWS.iter().enumerate() {
        println!("{place} {PACKETS} {name} ({} bytes)", packet.len());
    }
}

fn counted(calls: &[u16]) -> [f64; 2] {
    let ticks = calls.iter().filter(|call| **call == TICK).count();
    [(calls.len() - ticks) as f64, ticks as f64]
}

fn clock(play: impl Fn() -> u64, times: usize) -> f64 {
    let begun = Instant::now();
    for _ in 0..times {
        black_box(play());
    }
    begun.elapsed().as_nanos() as f64 / times as f64
}

fn median(mut some: Vec<f64>) -> f64 {
    some.sort_by(f64::total_cmp);
    some[some.len() / 2]
}

/// The median nanoseconds of a list at both ends, plain first, in alternating rounds. A round is well under a
/// millisecond, so that most are not interrupted on a machine with other work.
fn both(kind: Kind, calls: &[u16], rounds: usize) -> [f64; 2] {
    let times = (20_000 / calls.len()).max(1);
    let mut taken = [Vec::new(), Vec::new()];
    for _ in 0..rounds {
        taken[0].push(clock(|| plain_time(kind, black_box(calls)), times));
        taken[1].push(clock(|| proved::time(kind, black_box(calls)), times));
    }
    taken.map(median)
}

fn row(name: &str, [plain, proved]: [f64; 2]) {
    println!(
        "{name:<34} {plain:>9.2} {proved:>9.2} {:>7.2}",
        proved / plain
    );
}

pub fn time(rounds: usize) {
    println!(
        "{:<34} {:>9} {:>9} {:>7}",
        "nanoseconds", "plain", "proved", "ratio"
    );
    for kind in Kind::ALL {
        let silent = lecture_without_ticks();
        let [few, many] = STRETCHES.map(lecture_calls);
        let added = (many.len() - few.len()) as f64;
        let alone = both(kind, &silent, rounds).map(|ns| ns / silent.len() as f64);
        let [some, more] = [&few, &many].map(|calls| both(kind, calls, rounds));
        row(&format!("{kind:?}, a byte, no ticks between"), alone);
        let tick = [0, 1].map(|end| (more[end] - some[end]) / added);
        row(&format!("{kind:?}, a tick that is added"), tick);
        let call = some.map(|ns| ns / few.len() as f64);
        row(&format!("{kind:?}, a call of the lecture"), call);
    }
}

/// A packet for each row; its place in the list is the row's number.
const ROWS: [(&str, &[u8]); 14] = [
    ("no row", &[0x81, 0x01, 0x7e, 0x01, 0x02, 0x00, 0x01, 0xff]),
    ("row 1", &[0x81, 0x01, 0x04, 0x00, 0x02, 0xff]),
    ("row 2", &[0x81, 0x01, 0x04, 0x07, 0x25, 0xff]),
    ("row 3", &[0x81, 0x01, 0x04, 0x08, 0x25, 0xff]),
    ("row 4", &[0x81, 0x01, 0x04, 0x47, 1, 2, 3, 4, 0xff]),
    ("row 5", &[0x81, 0x01, 0x04, 0x47, 2, 1, 2, 3, 4, 0xff]),
    ("row 6", &[0x81, 0x01, 0x04, 0x48, 1, 2, 3, 4, 0xff]),
    ("row 7, code 38", &[0x81, 0x01, 0x04, 0x38, 0x03, 0xff]),
    (
        "row 8, code 4D",
        &[0x81, 0x01, 0x04, 0x4d, 0, 0, 5, 6, 0xff],
    ),
    ("row 9", &[0x81, 0x01, 0x04, 0x22, 1, 2, 3, 4, 0xff]),
    ("row 10", &[0x81, 0x01, 0x06, 0x01, 5, 6, 1, 2, 0xff]),
    (
        "row 11",
        &[0x81, 0x01, 0x06, 0x02, 5, 6, 0, 1, 2, 3, 0, 0, 2, 3, 0xff],
    ),
    ("row 12", &[0x81, 0x01, 0x06, 0x04, 0xff]),
    ("row 7, code 01", &[0x81, 0x01, 0x04, 0x01, 0x03, 0xff]),
];

const PACKETS: usize = 2000;

/// A packet again and again, at an end with both sockets open: it is read, and answered that there is no
/// room; so what is timed is framing and reading, and nothing that a command does.
fn packets(packet: &[u8]) -> Vec<u16> {
    let mut calls: Vec<u16> = Vec::new();
    calls.extend(bytes(&[0x88, 0x30, 0x01, 0xff]));
    calls.extend(bytes(&[0x81, 0x01, 0x04, 0x75, 0x03, 0xff]));
    calls.extend(bytes(&[0x81, 0x01, 0x04, 0x22, 1, 2, 3, 4, 0xff]));
    for _ in 0..PACKETS {
        calls.extend(bytes(packet));
    }
    calls
}

pub fn rows(rounds: usize) {
    println!(
        "{:<34} {:>9} {:>9} {:>7}",
        "nanoseconds a packet", "plain", "proved", "ratio"
    );
    for (name, packet) in ROWS {
        let taken = both(Kind::Dome, &packets(packet), rounds);
        let name = format!("{name} ({} bytes)", packet.len());
        row(&name, taken.map(|ns| ns / PACKETS as f64));
    }
}
