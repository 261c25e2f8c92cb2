//! Settings, orders, and the block and dome.

#[derive(Clone, Copy, Debug, PartialEq, Eq)]
#[repr(u8)]
pub enum Setting {
    Power,
    Zoom,
    ZoomDrive,
    FocusMode,
    Focus,
    FocusDrive,
    WhiteBalance,
    RedGain,
    BlueGain,
    ExposureMode,
    Shutter,
    Iris,
    Gain,
    Bright,
    Freeze,
    Mute,
    Infrared,
    Identity,
    Pan,
    Tilt,
    PanDrive,
    TiltDrive,
}

impl Setting {
    pub fn bit(self) -> u32 {
        1 << self as u32
    }

    pub fn admits(self, value: i32) -> bool {
        use Setting::*;
        match self {
            Power | FocusMode | Freeze | Mute | Infrared => matches!(value, 2 | 3),
            Zoom => (0..=0x4000).contains(&value),
            ZoomDrive | FocusDrive => (-8..=8).contains(&value),
            Focus | Identity => (0..=0xffff).contains(&value),
            WhiteBalance => matches!(value, 0..=3 | 5),
            RedGain | BlueGain | Shutter | Iris | Gain | Bright => (0..=255).contains(&value),
            ExposureMode => matches!(value, 0 | 3 | 10 | 11 | 13),
            Pan => (-5120..=5120).contains(&value),
            Tilt => (-1280..=1280).contains(&value),
            PanDrive => (-24..=24).contains(&value),
            TiltDrive => (-20..=20).contains(&value),
        }
    }
}

const PAN_TILT: u32 = 0xf << Setting::Pan as u32;

#[derive(Clone, Copy, Debug, PartialEq, Eq)]
pub struct Target {
    pub setting: Setting,
    pub value: i32,
}

#[derive(Clone, Copy, Debug, Default, PartialEq, Eq)]
pub struct Paces {
    pub lens: u8,
    pub pan: u8,
    pub tilt: u8,
}

/// One to four targets; `names` has a bit for each setting that is named.
#[derive(Clone, Copy, Debug, PartialEq, Eq)]
pub struct Order {
    targets: [Target; 4],
    len: u8,
    pub paces: Paces,
    pub names: u32,
}

impl Order {
    /// An order, if every target is in range.
    pub fn new<const N: usize>(some: [Target; N], paces: Paces) -> Option<Order> {
        let mut targets = [some[0]; 4];
        let mut names = 0;
        for (to, from) in targets.iter_mut().zip(some) {
            if !from.setting.admits(from.value) {
                return None;
            }
            *to = from;
            names |= from.setting.bit();
        }
        Some(Order {
            targets,
            len: N as u8,
            paces,
            names,
        })
    }

    pub fn targets(&self) -> &[Target] {
        &self.targets[..usize::from(self.len)]
    }

    pub fn first(&self) -> Target {
        self.targets[0]
    }

    pub fn needs_pan_tilt(&self) -> bool {
        self.names & PAN_TILT != 0
    }

    pub fn powers_on(&self) -> bool {
        self.first().setting == Setting::Power && self.first().value == 2
    }
}

#[derive(Clone, Copy, Debug, PartialEq, Eq)]
pub enum Ending {
    Done,
    Jammed,
}

/// Why an order is turned down.
#[derive(Clone, Copy, Debug, PartialEq, Eq)]
pub enum Refusal {
    SlotBusy,
    OutOfRange,
    NoPanTilt,
    SettingInUse,
}

/// Slots go by 0 and 1 here.
pub trait Head {
    fn look(&self, setting: Setting) -> i32;
    fn has_pan_tilt(&self) -> bool;
    fn start(&mut self, slot: usize, order: &Order) -> Result<(), Refusal>;
    fn tick(&mut self) -> [Option<Ending>; 2];
    fn drop_slot(&mut self, slot: usize);
}

struct Axis {
    position: Setting,
    drive: Setting,
    unit: i32,
    low: i32,
    high: i32,
}

const AXES: [Axis; 4] = [
    Axis {
        position: Setting::Zoom,
        drive: Setting::ZoomDrive,
        unit: 128,
        low: 0,
        high: 0x4000,
    },
    Axis {
        position: Setting::Focus,
        drive: Setting::FocusDrive,
        unit: 128,
        low: 0,
        high: 0xffff,
    },
    Axis {
        position: Setting::Pan,
        drive: Setting::PanDrive,
        unit: 16,
        low: -5120,
        high: 5120,
    },
    Axis {
        position: Setting::Tilt,
        drive: Setting::TiltDrive,
        unit: 16,
        low: -1280,
        high: 1280,
    },
];

/// The step of a position that an order names; none for a setting that is no position.
fn step(paces: Paces, setting: Setting) -> Option<i32> {
    let (unit, pace) = match setting {
        Setting::Zoom | Setting::Focus => (128, paces.lens),
        Setting::Pan => (16, paces.pan),
        Setting::Tilt => (16, paces.tilt),
        _ => return None,
    };
    Some(unit * i32::from(pace.max(1)))
}

#[derive(Clone, Copy)]
struct Job {
    order: Order,
    left: u16,
}

/// A block, or a dome, which may be stalled.
pub struct Camera<const BLOCK: bool> {
    settings: [i32; 22],
    slots: [Option<Job>; 2],
    stalled: bool,
}

impl<const BLOCK: bool> Camera<BLOCK> {
    pub fn new(stalled: bool) -> Self {
        let mut settings = [0; 22];
        settings[Setting::Power as usize] = 2;
        settings[Setting::FocusMode as usize] = 2;
        settings[Setting::Freeze as usize] = 3;
        settings[Setting::Mute as usize] = 3;
        settings[Setting::Infrared as usize] = 3;
        Camera {
            settings,
            slots: [None; 2],
            stalled,
        }
    }

    fn ticks(&self, order: &Order) -> u16 {
        if BLOCK {
            return 1;
        }
        let mut most = 1;
        for target in order.targets() {
            if let Some(step) = step(order.paces, target.setting) {
                let distance = self.settings[target.setting as usize].abs_diff(target.value);
                most = most.max(distance.div_ceil(step as u32));
            }
        }
        most as u16
    }

    fn drive(&mut self) {
        let named = self
            .slots
            .iter()
            .flatten()
            .fold(0, |all, job| all | job.order.names);
        for axis in &AXES {
            let drive = self.settings[axis.drive as usize];
            if drive != 0 && named & axis.position.bit() == 0 {
                let position = &mut self.settings[axis.position as usize];
                *position = (*position + axis.unit * drive).clamp(axis.low, axis.high);
            }
        }
    }

    /// Moves the positions that an order names, and tells whether all are at their targets.
    fn pull(&mut self, order: &Order) -> bool {
        let mut there = true;
        for target in order.targets() {
            if let Some(step) = step(order.paces, target.setting) {
                let position = &mut self.settings[target.setting as usize];
                if BLOCK {
                    *position = target.value;
                } else if !self.stalled {
                    *position = target.value.clamp(*position - step, *position + step);
                }
                there &= *position == target.value;
            }
        }
        there
    }

    fn go_on(&mut self, slot: usize) -> Option<Ending> {
        let job = self.slots[slot]?;
        let there = self.pull(&job.order);
        if job.left > 1 {
            self.slots[slot] = Some(Job {
                left: job.left - 1,
                ..job
            });
            return None;
        }
        self.slots[slot] = None;
        if !there {
            return Some(Ending::Jammed);
        }
        for target in job.order.targets() {
            self.settings[target.setting as usize] = target.value;
        }
        Some(Ending::Done)
    }
}

impl<const BLOCK: bool> Head for Camera<BLOCK> {
    fn look(&self, setting: Setting) -> i32 {
        self.settings[setting as usize]
    }

    fn has_pan_tilt(&self) -> bool {
        !BLOCK
    }

    fn start(&mut self, slot: usize, order: &Order) -> Result<(), Refusal> {
        if self.slots[slot].is_some() {
            return Err(Refusal::SlotBusy);
        }
        if !order.targets().iter().all(|t| t.setting.admits(t.value)) {
            return Err(Refusal::OutOfRange);
        }
        if BLOCK && order.needs_pan_tilt() {
            return Err(Refusal::NoPanTilt);
        }
        if self.slots[1 - slot].is_some_and(|job| job.order.names & order.names != 0) {
            return Err(Refusal::SettingInUse);
        }
        let left = self.ticks(order);
        self.slots[slot] = Some(Job {
            order: *order,
            left,
        });
        Ok(())
    }

    #[inline(always)]
    fn tick(&mut self) -> [Option<Ending>; 2] {
        if !self.stalled {
            self.drive();
        }
        [self.go_on(0), self.go_on(1)]
    }

    fn drop_slot(&mut self, slot: usize) {
        self.slots[slot] = None;
    }
}
