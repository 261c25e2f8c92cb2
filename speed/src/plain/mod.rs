//! An end of the same rules, written by hand from docs/ alone: plain, and as fast as that makes it.

pub mod end;
pub mod head;
pub mod rows;

use crate::calls::{Kind, TICK};
use end::{End, Fault};
use head::{Camera, Head};

fn record(answer: Result<usize, Fault>, buffer: &[u8]) -> ([u8; 20], usize) {
    let (count, code) = match answer {
        Ok(count) => (count, [0; 3]),
        Err(fault) => (fault.sent, fault.code),
    };
    let mut record = [0; 20];
    record[0] = count as u8;
    record[1..4].copy_from_slice(&code);
    record[4..4 + count].copy_from_slice(&buffer[..count]);
    (record, 4 + count)
}

fn call<H: Head>(end: &mut End<H>, number: u16) -> ([u8; 20], usize) {
    let mut buffer = [0; 16];
    let out = &mut buffer[..16usize.saturating_sub(usize::from(number / 512))];
    match number % 512 {
        byte @ 0..=255 => record(end.byte(byte as u8, out), out),
        TICK => record(end.tick(out), out),
        _ => {
            let [one, two] = end.open();
            let mut record = [0; 20];
            record[0] = u8::from(one);
            record[1] = u8::from(two);
            (record, 2)
        }
    }
}

fn log_on<H: Head>(head: H, calls: &[u16], log: &mut [u8]) -> usize {
    let mut end = End::new(head);
    let mut at = 0;
    for number in calls {
        let (record, length) = call(&mut end, *number);
        if at + length <= log.len() {
            log[at..at + length].copy_from_slice(&record[..length]);
            at += length;
        }
    }
    at
}

/// A tick, kept apart from the loop so that a profile tells ticks from bytes.
#[inline(never)]
fn tick_on<H: Head>(end: &mut End<H>, buffer: &mut [u8; 16]) -> usize {
    end.tick(buffer).unwrap_or_else(|fault| fault.sent)
}

fn time_on<H: Head>(head: H, calls: &[u16]) -> u64 {
    let mut end = End::new(head);
    let mut buffer = [0; 16];
    let mut sum: u64 = 0;
    for number in calls {
        let count = match number % 512 {
            byte @ 0..=255 => end
                .byte(byte as u8, &mut buffer)
                .unwrap_or_else(|fault| fault.sent),
            TICK => tick_on(&mut end, &mut buffer),
            _ => usize::from(end.open()[0]),
        };
        sum = sum
            .wrapping_mul(31)
            .wrapping_add(count as u64)
            .wrapping_add(u64::from(buffer[1]));
    }
    sum
}

pub fn log(kind: Kind, calls: &[u16], log: &mut [u8]) -> usize {
    match kind {
        Kind::Block => log_on(Camera::<true>::new(false), calls, log),
        Kind::Dome => log_on(Camera::<false>::new(false), calls, log),
        Kind::StalledDome => log_on(Camera::<false>::new(true), calls, log),
    }
}

/// The same as `r3_time`; a function of its own name, for callgrind.
#[unsafe(no_mangle)]
#[inline(never)]
pub extern "Rust" fn plain_time(kind: Kind, calls: &[u16]) -> u64 {
    match kind {
        Kind::Block => time_on(Camera::<true>::new(false), calls),
        Kind::Dome => time_on(Camera::<false>::new(false), calls),
        Kind::StalledDome => time_on(Camera::<false>::new(true), calls),
    }
}
