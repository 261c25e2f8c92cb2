//! Bodies to orders and questions.

use super::head::{Order, Paces, Setting, Target};

/// What is wrong with a body behind `01` or `09`.
#[derive(Clone, Copy, Debug, PartialEq, Eq)]
pub enum RowFault {
    Code,
    Operands,
}

/// How an inquiry is answered.
#[derive(Clone, Copy, Debug, PartialEq, Eq)]
pub enum Form {
    Digit,
    Level,
    Number,
    PanTilt,
}

/// The settings of one digit.
fn mode(code: u8) -> Option<Setting> {
    Some(match code {
        0x38 => Setting::FocusMode,
        0x35 => Setting::WhiteBalance,
        0x39 => Setting::ExposureMode,
        0x62 => Setting::Freeze,
        0x75 => Setting::Mute,
        0x01 => Setting::Infrared,
        _ => return None,
    })
}

/// The settings of two digits.
fn level(code: u8) -> Option<Setting> {
    Some(match code {
        0x43 => Setting::RedGain,
        0x44 => Setting::BlueGain,
        0x4a => Setting::Shutter,
        0x4b => Setting::Iris,
        0x4c => Setting::Gain,
        0x4d => Setting::Bright,
        _ => return None,
    })
}

fn word([p, q, r, s]: [u8; 4]) -> Option<u16> {
    if p | q | r | s > 15 {
        return None;
    }
    Some(u16::from(p << 4 | q) << 8 | u16::from(r << 4 | s))
}

fn to(setting: Setting, value: i32) -> Target {
    Target { setting, value }
}

fn alone(setting: Setting, value: i32) -> Option<Order> {
    Order::new([to(setting, value)], Paces::default())
}

fn digit(setting: Setting, p: u8) -> Option<Order> {
    alone(setting, i32::from(p))
}

fn pushed(b: u8) -> Option<i32> {
    Some(match b {
        0x00 => 0,
        0x02 => 4,
        0x03 => -4,
        0x20..=0x27 => i32::from(b - 0x20) + 1,
        0x30..=0x37 => -i32::from(b - 0x30) - 1,
        _ => return None,
    })
}

fn placed(position: Setting, drive: Setting, lens: u8, digits: [u8; 4]) -> Option<Order> {
    let value = i32::from(word(digits)?);
    let paces = Paces {
        lens,
        ..Paces::default()
    };
    Order::new([to(position, value), to(drive, 0)], paces)
}

fn turning(pan: u8, tilt: u8) -> Option<Paces> {
    match (pan, tilt) {
        (1..=0x18, 1..=0x14) => Some(Paces { lens: 0, pan, tilt }),
        _ => None,
    }
}

fn steered(d: u8, pace: u8) -> Option<i32> {
    match d {
        0x01 => Some(-i32::from(pace)),
        0x02 => Some(i32::from(pace)),
        0x03 => Some(0),
        _ => None,
    }
}

fn pan_tilt(x: i32, y: i32, paces: Paces) -> Option<Order> {
    let targets = [
        to(Setting::Pan, x),
        to(Setting::Tilt, y),
        to(Setting::PanDrive, 0),
        to(Setting::TiltDrive, 0),
    ];
    Order::new(targets, paces)
}

fn pan_tilt_driven(v: u8, w: u8, d: u8, e: u8) -> Option<Order> {
    let paces = turning(v, w)?;
    let targets = [
        to(Setting::PanDrive, steered(d, v)?),
        to(Setting::TiltDrive, -steered(e, w)?),
    ];
    Order::new(targets, paces)
}

fn pan_tilt_placed(v: u8, w: u8, x: [u8; 4], y: [u8; 4]) -> Option<Order> {
    let paces = turning(v, w)?;
    let signed = |digits| word(digits).map(|n| i32::from(n as i16));
    pan_tilt(signed(x)?, signed(y)?, paces)
}

/// Reads a command behind its first byte, `01`.
pub fn command(body: &[u8]) -> Result<Order, RowFault> {
    use Setting::*;
    let order = match *body {
        [0x04, 0x00, p] => digit(Power, p),
        [0x04, 0x07, b] => pushed(b).and_then(|drive| alone(ZoomDrive, drive)),
        [0x04, 0x08, b] => pushed(b).and_then(|drive| alone(FocusDrive, -drive)),
        [0x04, 0x47, p, q, r, s] => placed(Zoom, ZoomDrive, 4, [p, q, r, s]),
        [0x04, 0x47, n @ 0..=7, p, q, r, s] => placed(Zoom, ZoomDrive, n + 1, [p, q, r, s]),
        [0x04, 0x48, p, q, r, s] => placed(Focus, FocusDrive, 4, [p, q, r, s]),
        [0x04, 0x22, p, q, r, s] => word([p, q, r, s]).and_then(|n| alone(Identity, i32::from(n))),
        [0x04, 0x00 | 0x07 | 0x08 | 0x47 | 0x48 | 0x22, ..] => None,
        [0x04, code, ref operands @ ..] => match (mode(code), level(code), operands) {
            (Some(setting), _, [p]) => digit(setting, *p),
            (_, Some(setting), [0, 0, p @ 0..=15, q @ 0..=15]) => {
                alone(setting, i32::from(p << 4 | q))
            }
            (None, None, _) => return Err(RowFault::Code),
            _ => None,
        },
        [0x06, 0x01, v, w, d, e] => pan_tilt_driven(v, w, d, e),
        [0x06, 0x02, v, w, a, b, c, d, e, f, g, h] => {
            pan_tilt_placed(v, w, [a, b, c, d], [e, f, g, h])
        }
        [0x06, 0x04] => pan_tilt(
            0,
            0,
            Paces {
                lens: 0,
                pan: 24,
                tilt: 20,
            },
        ),
        [0x06, 0x01 | 0x02 | 0x04, ..] => None,
        _ => return Err(RowFault::Code),
    };
    order.ok_or(RowFault::Operands)
}

/// Reads an inquiry behind its first byte, `09`.
pub fn inquiry(body: &[u8]) -> Result<(Setting, Form), RowFault> {
    use Setting::*;
    let (asked, rest) = match *body {
        [0x04, 0x00, ref rest @ ..] => ((Power, Form::Digit), rest),
        [0x04, 0x47, ref rest @ ..] => ((Zoom, Form::Number), rest),
        [0x04, 0x48, ref rest @ ..] => ((Focus, Form::Number), rest),
        [0x04, 0x22, ref rest @ ..] => ((Identity, Form::Number), rest),
        [0x04, code, ref rest @ ..] => match (mode(code), level(code)) {
            (Some(setting), _) => ((setting, Form::Digit), rest),
            (_, Some(setting)) => ((setting, Form::Level), rest),
            _ => return Err(RowFault::Code),
        },
        [0x06, 0x12, ref rest @ ..] => ((Pan, Form::PanTilt), rest),
        _ => return Err(RowFault::Code),
    };
    if rest.is_empty() {
        Ok(asked)
    } else {
        Err(RowFault::Operands)
    }
}
