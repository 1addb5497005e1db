//! Frames that go on with SSE clear, counted: how much of them a comparison has met.

use crate::calls::wired;
use crate::command::Command;
use crate::device::offset::CR1;
use crate::device::{refusal, Device};
use crate::kinds::Kinds;
use crate::record::{at, sound_device};
use std::fmt;

const SSE: u32 = 2;

#[derive(Clone, Copy, Default, PartialEq, Eq, Debug)]
pub struct Tally {
    /// Cycles that began with SSE clear and a frame in progress.
    pub cycles: u64,
    /// Of these: a word waited and would have been taken with SSE set.
    pub passed: u64,
    /// Of these: the frame was over or dropped at the end.
    pub ended: u64,
    /// SSE set again in the frame, with no word waiting and with some.
    pub resumed: u64,
    pub resumed_with_words: u64,
    /// Writes refused with 5 for the frame's sake.
    pub refused: u64,
}

#[derive(Clone, Copy, Default)]
pub struct Stopped(Kinds<Tally>);

impl Stopped {
    /// Looks at a call that was made on these records.
    pub fn add(&mut self, before: &[Vec<u8>; 2], command: &Command, refusal: u64) {
        match command {
            Command::Write { device, offset, value } => {
                self.write(&before[*device], *offset, *value, refusal)
            }
            _ if refusal != 0 => {}
            Command::Run { device, input, .. } | Command::Idle { device, input, .. } => {
                self.run(&before[*device], input)
            }
            Command::PairRun { cycles } | Command::Pair { cycles } => self.pair(before, *cycles),
            _ => {}
        }
    }

    pub fn of(&self, format: usize, slave: bool) -> &Tally {
        self.0.of(format, slave)
    }

    fn write(&mut self, record: &[u8], offset: u32, value: u32, refusal: u64) {
        let Some(device) = stopped(record) else { return };
        let waits = !device.tx.is_empty();
        let tally = self.0.of_device(&device);
        if refusal == u64::from(refusal::ACTIVE) {
            tally.refused += 1;
        } else if refusal == 0 && offset == CR1 && value & SSE != 0 {
            tally.resumed += u64::from(!waits);
            tally.resumed_with_words += u64::from(waits);
        }
    }

    /// As far as the frame goes; a run to idle does not stop in it.
    fn run(&mut self, record: &[u8], input: &[u8]) {
        let Some(mut device) = stopped(record) else { return };
        for pins in input {
            if !is_stopped(&device) {
                return;
            }
            self.cycle(&mut device, *pins);
        }
    }

    fn pair(&mut self, records: &[Vec<u8>; 2], cycles: u64) {
        if records.iter().all(|record| stopped(record).is_none()) {
            return;
        }
        let (Some(mut one), Some(mut other)) =
            (sound_device(&records[0]), sound_device(&records[1]))
        else {
            return;
        };
        for _ in 0..cycles {
            if !is_stopped(&one) && !is_stopped(&other) {
                return;
            }
            let (to_one, to_other) = (wired(other.lines), wired(one.lines));
            self.cycle(&mut one, to_one);
            self.cycle(&mut other, to_other);
        }
    }

    fn cycle(&mut self, device: &mut Device, pins: u8) {
        if !is_stopped(device) {
            device.cycle(pins);
            return;
        }
        let mut enabled = Device { cr1: device.cr1 | SSE as u8, ..device.clone() };
        enabled.cycle(pins);
        let passed = enabled.tx.len() < device.tx.len();
        device.cycle(pins);
        let tally = self.0.of_device(device);
        tally.cycles += 1;
        tally.passed += u64::from(passed);
        tally.ended += u64::from(!device.frame);
    }
}

fn is_stopped(device: &Device) -> bool {
    device.active() && !device.enabled()
}

/// The device of this record, if it has SSE clear and a frame in progress.
pub fn stopped(record: &[u8]) -> Option<Device> {
    // Most records are told by two bytes.
    if record.get(at::FRAME) != Some(&1) || u32::from(record[at::CR1]) & SSE != 0 {
        return None;
    }
    sound_device(record).filter(is_stopped)
}

impl fmt::Display for Tally {
    fn fmt(&self, f: &mut fmt::Formatter) -> fmt::Result {
        let Tally { cycles, passed, ended, resumed, resumed_with_words, refused } = self;
        write!(f, "{cycles} cycles ({passed} chances passed), {ended} ended, ")?;
        write!(f, "{resumed} + {resumed_with_words} set again, {refused} refused")
    }
}

impl fmt::Display for Stopped {
    fn fmt(&self, f: &mut fmt::Formatter) -> fmt::Result {
        write!(f, "SSE clear in a frame: {}", self.0)
    }
}
