//! Calls as numbers: the low nine bits are a byte, a tick or the question which sockets are open; the bits
//! above tell how many bytes the buffer is short of 16.

pub const TICK: u16 = 256;
pub const OPEN: u16 = 257;
pub const SHORT: u16 = 512;

#[derive(Clone, Copy, Debug, PartialEq, Eq)]
pub enum Kind {
    Block,
    Dome,
    StalledDome,
}

impl Kind {
    pub const ALL: [Kind; 3] = [Kind::Block, Kind::Dome, Kind::StalledDome];
}

pub fn bytes(packet: &[u8]) -> impl Iterator<Item = u16> + '_ {
    packet.iter().map(|b| u16::from(*b))
}
