//! The end of the line: bytes come in, packets go out.

use super::head::{Ending, Head, Order, Setting};
use super::rows::{Form, RowFault, command, inquiry};

/// A fault by number, layer and place, with the count of bytes sent.
#[derive(Clone, Copy, Debug, PartialEq, Eq)]
pub struct Fault {
    pub code: [u8; 3],
    pub sent: usize,
}

const fn fault(code: [u8; 3]) -> Fault {
    Fault { code, sent: 0 }
}

const SHORT_BUFFER: Fault = fault([1, 0, 0]);
const NO_HEADER: Fault = fault([2, 1, 0]);
const NO_BODY: Fault = fault([3, 1, 1]);
const OVERLONG: Fault = fault([4, 1, 15]);
const UNKNOWN_BODY: [u8; 3] = [5, 2, 1];
const NO_SUCH_CODE: [u8; 3] = [6, 3, 2];
const NO_SUCH_OPERANDS: [u8; 3] = [7, 3, 4];

const SYNTAX: u8 = 0x02;
const BUFFER_FULL: u8 = 0x03;
const CANCELLED: u8 = 0x04;
const NO_SOCKET: u8 = 0x05;
const NOT_EXECUTABLE: u8 = 0x41;

/// What forbids a command.
#[derive(Clone, Copy, Debug, PartialEq, Eq)]
pub enum Forbids {
    PoweringOn,
    PowerOff,
    Freeze,
    FocusMode,
    WhiteBalance,
    Exposure,
    Bright,
    NoPanTilt,
}

impl Forbids {
    pub const ALL: [Forbids; 8] = [
        Forbids::PoweringOn,
        Forbids::PowerOff,
        Forbids::Freeze,
        Forbids::FocusMode,
        Forbids::WhiteBalance,
        Forbids::Exposure,
        Forbids::Bright,
        Forbids::NoPanTilt,
    ];
}

// A length that says that the rest of a packet is skipped.
const SKIPPING: u8 = 255;

struct Framer {
    bytes: [u8; 16],
    len: u8,
}

/// Address, sockets and head: all but the framer.
pub struct Station<H> {
    head: H,
    address: u8,
    sockets: [Option<Order>; 2],
}

pub struct End<H> {
    framer: Framer,
    station: Station<H>,
}

fn send<const N: usize>(packet: [u8; N], out: &mut [u8]) -> usize {
    out[..N].copy_from_slice(&packet);
    N
}

fn forward(packet: &[u8], out: &mut [u8]) -> usize {
    out[..packet.len()].copy_from_slice(packet);
    packet.len()
}

impl Framer {
    /// Takes a byte, and tells whether a packet is whole.
    fn feed(&mut self, byte: u8) -> Result<bool, Fault> {
        match (self.len, byte) {
            (0, 0x80..=0xfe) => {
                self.bytes[0] = byte;
                self.len = 1;
            }
            (0, _) => return Err(NO_HEADER),
            (SKIPPING, 0xff) => self.len = 0,
            (SKIPPING, _) => {}
            (1, 0xff) => {
                self.len = 0;
                return Err(NO_BODY);
            }
            (_, 0xff) => {
                self.bytes[usize::from(self.len & 15)] = byte;
                return Ok(true);
            }
            (15, _) => {
                self.len = SKIPPING;
                return Err(OVERLONG);
            }
            _ => {
                self.bytes[usize::from(self.len & 15)] = byte;
                self.len += 1;
            }
        }
        Ok(false)
    }
}

impl<H: Head> Station<H> {
    fn own(&self) -> u8 {
        (self.address + 8) << 4
    }

    fn error(&self, socket: u8, code: u8, out: &mut [u8]) -> usize {
        send([self.own(), 0x60 + socket, code, 0xff], out)
    }

    fn clear(&mut self) {
        self.head.drop_slot(0);
        self.head.drop_slot(1);
        self.sockets = [None; 2];
    }

    /// What forbids the command, if anything does.
    pub fn forbids(&self, order: &Order) -> Option<Forbids> {
        if self.sockets.iter().flatten().any(Order::powers_on) {
            return Some(Forbids::PoweringOn);
        }
        let first = order.first();
        let row = first.setting as u8;
        if row != 0 && self.head.look(Setting::Power) == 3 {
            return Some(Forbids::PowerOff);
        }
        if matches!(row, 6..=13 | 16) && self.head.look(Setting::Freeze) == 2 {
            return Some(Forbids::Freeze);
        }
        let exposure = || self.head.look(Setting::ExposureMode);
        let lacks = match row {
            4 | 5 if self.head.look(Setting::FocusMode) != 3 => Some(Forbids::FocusMode),
            7 | 8 if self.head.look(Setting::WhiteBalance) != 5 => Some(Forbids::WhiteBalance),
            9 if first.value == 13 && matches!(exposure(), 3 | 11) => Some(Forbids::Bright),
            10 if !matches!(exposure(), 3 | 10) => Some(Forbids::Exposure),
            11 if !matches!(exposure(), 3 | 11) => Some(Forbids::Exposure),
            12 if exposure() != 3 => Some(Forbids::Exposure),
            13 if exposure() != 13 => Some(Forbids::Exposure),
            _ => None,
        };
        if lacks.is_none() && order.needs_pan_tilt() && !self.head.has_pan_tilt() {
            return Some(Forbids::NoPanTilt);
        }
        lacks
    }

    fn command(&mut self, order: &Order, out: &mut [u8]) -> usize {
        let slot = match self.sockets {
            [None, _] => 0,
            [_, None] => 1,
            _ => return self.error(0, BUFFER_FULL, out),
        };
        if self.forbids(order).is_some() {
            return self.error(0, NOT_EXECUTABLE, out);
        }
        let other = 1 - slot;
        let mut sent = 0;
        if self.sockets[other].is_some_and(|held| held.names & order.names != 0) {
            self.head.drop_slot(other);
            self.sockets[other] = None;
            sent = self.error(other as u8 + 1, CANCELLED, out);
        }
        let _ = self.head.start(slot, order);
        self.sockets[slot] = Some(*order);
        sent + send([self.own(), 0x41 + slot as u8, 0xff], &mut out[sent..])
    }

    fn inquiry(&self, setting: Setting, form: Form, out: &mut [u8]) -> usize {
        let x = self.own();
        let digits = |setting| {
            let n = self.head.look(setting) as u16;
            [12, 8, 4, 0].map(|shift| (n >> shift & 15) as u8)
        };
        let [p, q, r, s] = digits(setting);
        match form {
            Form::Digit => send([x, 0x50, s, 0xff], out),
            Form::Level => send([x, 0x50, 0, 0, r, s, 0xff], out),
            Form::Number => send([x, 0x50, p, q, r, s, 0xff], out),
            Form::PanTilt if !self.head.has_pan_tilt() => self.error(0, NOT_EXECUTABLE, out),
            Form::PanTilt => {
                let [a, b, c, d] = digits(Setting::Tilt);
                send([x, 0x50, p, q, r, s, a, b, c, d, 0xff], out)
            }
        }
    }

    fn cancel(&mut self, y: u8, out: &mut [u8]) -> usize {
        if let 1 | 2 = y {
            let slot = usize::from(y - 1);
            if self.sockets[slot].take().is_some() {
                self.head.drop_slot(slot);
                return self.error(y, CANCELLED, out);
            }
        }
        self.error(y, NO_SOCKET, out)
    }

    fn body(&mut self, body: &[u8], out: &mut [u8]) -> Result<usize, Fault> {
        let code = match body {
            [0x01, 0x00, 0x01] => {
                self.clear();
                return Ok(send([self.own(), 0x50, 0xff], out));
            }
            [y @ 0x20..=0x2f] => return Ok(self.cancel(y - 0x20, out)),
            [0x01, rest @ ..] => match command(rest) {
                Ok(order) => return Ok(self.command(&order, out)),
                Err(RowFault::Code) => NO_SUCH_CODE,
                Err(RowFault::Operands) => NO_SUCH_OPERANDS,
            },
            [0x09, rest @ ..] => match inquiry(rest) {
                Ok((setting, form)) => return Ok(self.inquiry(setting, form, out)),
                Err(RowFault::Code) => NO_SUCH_CODE,
                Err(RowFault::Operands) => NO_SUCH_OPERANDS,
            },
            _ => UNKNOWN_BODY,
        };
        let sent = self.error(0, SYNTAX, out);
        Err(Fault { code, sent })
    }

    // Most bytes make no packet whole.
    #[inline(never)]
    fn packet(&mut self, packet: &[u8], out: &mut [u8]) -> Result<usize, Fault> {
        let header = packet[0];
        if self.address != 0 && header >> 4 & 7 == self.address {
            return Ok(0);
        }
        match *packet {
            [0x88, 0x30, w @ 1..=7, 0xff] => {
                self.clear();
                self.address = w;
                Ok(send([0x88, 0x30, w + 1, 0xff], out))
            }
            [0x88, 0x01, 0x00, 0x01, 0xff] => {
                self.clear();
                Ok(forward(packet, out))
            }
            [_, ref body @ .., _] if self.address != 0 && header == 0x80 + self.address => {
                self.body(body, out)
            }
            _ => Ok(forward(packet, out)),
        }
    }

    fn ended(&mut self, slot: usize, ending: Ending, out: &mut [u8]) -> usize {
        self.sockets[slot] = None;
        let y = slot as u8 + 1;
        match ending {
            Ending::Done => send([self.own(), 0x50 + y, 0xff], out),
            Ending::Jammed => self.error(y, NOT_EXECUTABLE, out),
        }
    }
}

impl<H: Head> End<H> {
    pub fn new(head: H) -> Self {
        let mut station = Station {
            head,
            address: 0,
            sockets: [None; 2],
        };
        station.clear();
        End {
            framer: Framer {
                bytes: [0; 16],
                len: 0,
            },
            station,
        }
    }

    #[inline]
    pub fn byte(&mut self, byte: u8, out: &mut [u8]) -> Result<usize, Fault> {
        if out.len() < 16 {
            return Err(SHORT_BUFFER);
        }
        if !self.framer.feed(byte)? {
            return Ok(0);
        }
        let last = usize::from(self.framer.len & 15);
        self.framer.len = 0;
        self.station.packet(&self.framer.bytes[..=last], out)
    }

    #[inline(always)]
    pub fn tick(&mut self, out: &mut [u8]) -> Result<usize, Fault> {
        if out.len() < 16 {
            return Err(SHORT_BUFFER);
        }
        let endings = self.station.head.tick();
        let mut sent = 0;
        for (slot, ending) in endings.into_iter().enumerate() {
            if let Some(ending) = ending {
                sent += self.station.ended(slot, ending, &mut out[sent..]);
            }
        }
        Ok(sent)
    }

    pub fn open(&self) -> [bool; 2] {
        self.station.sockets.map(|socket| socket.is_some())
    }

    pub fn station(&self) -> &Station<H> {
        &self.station
    }
}
