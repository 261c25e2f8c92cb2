//! Traffic: random calls over all that the rules tell apart, and the lecture of lecture.txt, which is made up.

use crate::calls::{OPEN, SHORT, TICK, bytes};

/// SplitMix64.
pub struct Dice(pub u64);

impl Dice {
    fn next(&mut self) -> u64 {
        self.0 = self.0.wrapping_add(0x9e37_79b9_7f4a_7c15);
        let mut z = self.0;
        z = (z ^ (z >> 30)).wrapping_mul(0xbf58_476d_1ce4_e5b9);
        z = (z ^ (z >> 27)).wrapping_mul(0x94d0_49bb_1331_11eb);
        z ^ (z >> 31)
    }

    pub fn below(&mut self, n: u64) -> u64 {
        self.next() % n
    }

    fn byte(&mut self) -> u8 {
        self.next() as u8
    }

    fn one_of<T: Copy>(&mut self, some: &[T]) -> T {
        some[self.below(some.len() as u64) as usize]
    }

    /// A number from low to high, the ends of the range, or one past them.
    fn edge(&mut self, low: i32, high: i32) -> i32 {
        match self.below(8) {
            0 => low,
            1 => high,
            2 => low - 1,
            3 => high + 1,
            _ => low + self.below((high - low + 1) as u64) as i32,
        }
    }
}

const MODES: [u8; 6] = [0x38, 0x35, 0x39, 0x62, 0x75, 0x01];
const LEVELS: [u8; 6] = [0x43, 0x44, 0x4a, 0x4b, 0x4c, 0x4d];

fn digits(n: i32) -> [u8; 4] {
    [12, 8, 4, 0].map(|shift| (n >> shift) as u8 & 15)
}

/// What a command of a lens row, 1 to 6, has behind its first byte.
fn lens(dice: &mut Dice, row: u64) -> Vec<u8> {
    let drive = match dice.below(3) {
        0 => dice.one_of(&[0x00, 0x02, 0x03, 0x01, 0x04]),
        1 => dice.edge(0x20, 0x27) as u8,
        _ => dice.edge(0x30, 0x37) as u8,
    };
    let zoom = digits(dice.edge(0, 0x4000));
    match row {
        1 => vec![0x04, 0x00, dice.one_of(&[2, 2, 2, 2, 2, 2, 2, 3, 1, 4])],
        2 => vec![0x04, 0x07, drive],
        3 => vec![0x04, 0x08, drive],
        4 => [&[0x04, 0x47], &zoom[..]].concat(),
        5 => [&[0x04, 0x47, dice.edge(0, 7) as u8], &zoom[..]].concat(),
        _ => [&[0x04, 0x48], &digits(dice.edge(0, 0xffff))[..]].concat(),
    }
}

/// The same of the rows 7 to 12.
fn picture_or_pan_tilt(dice: &mut Dice, row: u64) -> Vec<u8> {
    let mode = dice.one_of(&[2, 3, 2, 3, 0, 1, 5, 10, 11, 13, 4, 16]);
    let level = [dice.edge(0, 15) as u8, dice.edge(0, 15) as u8];
    let paces = [dice.edge(1, 24) as u8, dice.edge(1, 20) as u8];
    let ways = [dice.edge(1, 3) as u8, dice.edge(1, 3) as u8];
    let pan = digits(dice.edge(-5120, 5120));
    let tilt = digits(dice.edge(-1280, 1280));
    match row {
        7 => vec![0x04, dice.one_of(&MODES), mode],
        8 => [&[0x04, dice.one_of(&LEVELS), 0, 0], &level[..]].concat(),
        9 => [&[0x04, 0x22], &digits(dice.edge(0, 0xffff))[..]].concat(),
        10 => [&[0x06, 0x01], &paces[..], &ways[..]].concat(),
        11 => [&[0x06, 0x02], &paces[..], &pan[..], &tilt[..]].concat(),
        _ => vec![0x06, 0x04],
    }
}

/// The body of a command; most have operands that a row admits.
fn command(dice: &mut Dice) -> Vec<u8> {
    let rest = match 1 + dice.below(12) {
        row @ 1..=6 => lens(dice, row),
        row => picture_or_pan_tilt(dice, row),
    };
    [&[0x01], &rest[..]].concat()
}

fn inquiry(dice: &mut Dice) -> Vec<u8> {
    let tail = match dice.below(4) {
        0 => [0x04, dice.one_of(&[0x00, 0x47, 0x48, 0x22])],
        1 => [0x04, dice.one_of(&MODES)],
        2 => [0x04, dice.one_of(&LEVELS)],
        _ => [0x06, 0x12],
    };
    let mut body = vec![0x09];
    body.extend(tail);
    body
}

/// The body changed in a byte, one byte shorter or longer, or of another kind.
fn spoiled(dice: &mut Dice, mut body: Vec<u8>) -> Vec<u8> {
    let at = dice.below(body.len() as u64) as usize;
    match dice.below(4) {
        0 => body[at] = dice.byte(),
        1 => {
            body.truncate(at);
        }
        2 => body.push(dice.byte() & 0x0f),
        _ => body[0] = dice.one_of(&[0x01, 0x09, 0x02, 0x20]),
    }
    body
}

fn body(dice: &mut Dice) -> Vec<u8> {
    match dice.below(24) {
        0..=11 => command(dice),
        12..=14 => inquiry(dice),
        15..=16 => vec![0x20 + dice.one_of(&[1, 2, 1, 2, 0, 3, 15])],
        17 if dice.below(4) == 0 => vec![0x01, 0x00, 0x01],
        18..=19 => {
            let body = command(dice);
            spoiled(dice, body)
        }
        20 => {
            let body = inquiry(dice);
            spoiled(dice, body)
        }
        21 => vec![0x20 + dice.one_of(&[1, 2]), 0x00],
        _ => command(dice),
    }
}

/// A packet, most often for the camera with this address.
fn packet(dice: &mut Dice, address: u8) -> Vec<u8> {
    let header = match dice.below(40) {
        0 => 0x80 + dice.byte() % 8,
        1 => 0x90 + (dice.byte() % 7) * 16,
        2 => 0x88,
        3 => dice.byte() | 0x80,
        _ => 0x80 + address,
    };
    let mut packet = vec![header];
    packet.extend(match dice.below(400) {
        0 => vec![0x30, dice.edge(1, 7) as u8],
        1 => vec![0x01, 0x00, 0x01],
        _ => body(dice),
    });
    packet.push(0xff);
    packet
}

/// The calls of a random stretch of traffic, at least so many.
pub fn random(dice: &mut Dice, least: usize) -> Vec<u16> {
    let mut calls = Vec::with_capacity(least + 2048);
    let mut address = 1 + dice.byte() % 7;
    if dice.below(8) != 0 {
        calls.extend(bytes(&[0x88, 0x30, address, 0xff]));
    }
    // How often ticks come differs from stretch to stretch.
    let ticks = dice.one_of(&[0, 1, 3, 12, 80, 700]);
    while calls.len() < least {
        match dice.below(60) {
            0 => calls.extend((0..dice.below(30)).map(|_| u16::from(dice.byte()))),
            1 => {
                let long = (0..dice.edge(12, 18)).map(|_| u16::from(dice.byte() & 0x7f));
                calls.push(0x80 + u16::from(address));
                calls.extend(long);
                calls.push(0xff);
            }
            2 => calls.push(OPEN),
            3 => {
                let short = SHORT * (1 + dice.below(17) as u16);
                calls.push(short + dice.one_of(&[TICK, 0x81, 0xff, 0x01]));
            }
            4 if dice.below(60) == 0 => {
                address = 1 + dice.byte() % 7;
                calls.extend(bytes(&[0x88, 0x30, address, 0xff]));
            }
            5..=24 => calls.extend((0..dice.below(ticks + 1)).map(|_| TICK)),
            _ => calls.extend(bytes(&packet(dice, address))),
        }
    }
    calls
}

/// A line of the lecture: a packet, or so many ticks.
pub enum Line {
    Bytes(Vec<u8>),
    Ticks(usize),
}

pub fn lecture() -> Vec<Line> {
    let text = include_str!("../lecture.txt");
    let lines = text
        .lines()
        .map(|line| line.split('#').next().unwrap_or("").trim());
    lines
        .filter(|line| !line.is_empty())
        .map(|line| match line.strip_prefix("tick ") {
            Some(times) => Line::Ticks(times.parse().expect("a count of ticks")),
            None => Line::Bytes(
                line.split_whitespace()
                    .map(|byte| u8::from_str_radix(byte, 16).expect("a byte"))
                    .collect(),
            ),
        })
        .collect()
}

/// The lecture as calls, with each stretch of ticks so many times as long.
pub fn lecture_calls(stretch: usize) -> Vec<u16> {
    let mut calls = Vec::new();
    for line in lecture() {
        match line {
            Line::Bytes(packet) => calls.extend(bytes(&packet)),
            Line::Ticks(times) => calls.extend(std::iter::repeat_n(TICK, times * stretch)),
        }
    }
    calls
}

/// The bytes of the lecture with no tick between them. Nothing is ever done then, so that the line is cleared after
/// every second command, and the next one finds both sockets closed.
pub fn lecture_without_ticks() -> Vec<u16> {
    let mut calls = Vec::new();
    let mut commands = 0;
    for line in lecture() {
        let Line::Bytes(packet) = line else { continue };
        calls.extend(bytes(&packet));
        commands += usize::from(packet.starts_with(&[0x81, 0x01]));
        if commands == 2 {
            calls.extend(bytes(&[0x81, 0x01, 0x00, 0x01, 0xff]));
            commands = 0;
        }
    }
    calls
}
