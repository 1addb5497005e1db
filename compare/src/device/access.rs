//! Register access between cycles, with its refusals.

use super::{permitted, Device, LBM, MS, SSE};

/// Refusal numbers; 0 means done.
pub mod refusal {
    pub const OFFSET: u32 = 1;
    pub const RESERVED: u32 = 2;
    pub const DIRECTION: u32 = 3;
    pub const BITS: u32 = 4;
    pub const ACTIVE: u32 = 5;
    pub const SETTING: u32 = 6;
    pub const FULL: u32 = 7;
    pub const EMPTY: u32 = 8;
    pub const UNSOUND: u32 = 9;
    pub const RECORD_LENGTH: u32 = 10;
    pub const BUFFER_LENGTH: u32 = 11;
    pub const INPUT_BYTE: u32 = 12;
    pub const TOO_MANY_CYCLES: u32 = 13;
    pub const BAD_CYCLE: u32 = 14;
    pub const BAD_PLACES: u32 = 15;
    pub const TOO_SHORT: u32 = 16;
    pub const BAD_CHARACTER: u32 = 17;
    pub const EMPTY_LINE: u32 = 18;
    pub const NO_LINE_FEED: u32 = 19;
    pub const EDITION: u32 = 20;
    pub const NO_LIST: u32 = 21;
    pub const TOO_LONG: u32 = 22;
}

pub mod offset {
    pub const CR0: u32 = 0x00;
    pub const CR1: u32 = 0x04;
    pub const DR: u32 = 0x08;
    pub const SR: u32 = 0x0C;
    pub const CPSR: u32 = 0x10;
    pub const IMSC: u32 = 0x14;
    pub const RIS: u32 = 0x18;
    pub const MIS: u32 = 0x1C;
    pub const ICR: u32 = 0x20;
    pub const DMACR: u32 = 0x24;
    pub const IDENTITY: u32 = 0xFE0;
    pub const END: u32 = 0x1000;
}

use offset::*;

const IDENTITY_BYTES: [u32; 8] = [0x22, 0x10, 0x34, 0x00, 0x0D, 0xF0, 0x05, 0xB1];

/// Refuses offsets that name no register.
fn check_offset(offset: u32) -> Result<(), u32> {
    if offset % 4 != 0 || offset >= END {
        return Err(refusal::OFFSET);
    }
    if offset > DMACR && offset < IDENTITY {
        return Err(refusal::RESERVED);
    }
    Ok(())
}

/// Bits that may be written; None for a read-only register.
fn writable(offset: u32) -> Option<u32> {
    match offset {
        CR0 | DR => Some(0xFFFF),
        CR1 | IMSC => Some(0xF),
        CPSR => Some(0xFF),
        ICR | DMACR => Some(0x3),
        _ => None,
    }
}

impl Device {
    pub fn read(&mut self, offset: u32) -> Result<u32, u32> {
        check_offset(offset)?;
        match offset {
            CR0 => Ok(u32::from(self.cr0)),
            CR1 => Ok(u32::from(self.cr1)),
            DR => self.read_data(),
            SR => Ok(self.status()),
            CPSR => Ok(u32::from(self.cpsr)),
            IMSC => Ok(u32::from(self.imsc)),
            RIS => Ok(self.raw_interrupts()),
            MIS => Ok(self.raw_interrupts() & u32::from(self.imsc)),
            ICR => Err(refusal::DIRECTION),
            DMACR => Ok(u32::from(self.dmacr)),
            _ => Ok(IDENTITY_BYTES[((offset - IDENTITY) / 4) as usize]),
        }
    }

    fn read_data(&mut self) -> Result<u32, u32> {
        let word = self.rx.pop().ok_or(refusal::EMPTY)?;
        self.rt_count = 0;
        if self.rx.is_empty() {
            self.rt = false;
        }
        Ok(u32::from(word))
    }

    pub fn write(&mut self, offset: u32, value: u32) -> Result<(), u32> {
        check_offset(offset)?;
        let allowed = writable(offset).ok_or(refusal::DIRECTION)?;
        if value & !allowed != 0 {
            return Err(refusal::BITS);
        }
        match offset {
            CR0 => self.write_cr0(value as u16),
            CR1 => self.write_cr1(value as u8),
            CPSR => self.write_cpsr(value as u8),
            DR => self.write_data(value as u16),
            IMSC => {
                self.imsc = value as u8;
                Ok(())
            }
            ICR => {
                self.clear_interrupts(value);
                Ok(())
            }
            _ => {
                self.dmacr = value as u8;
                Ok(())
            }
        }
    }

    fn write_data(&mut self, word: u16) -> Result<(), u32> {
        match self.tx.push(word) {
            None => Ok(()),
            Some(_) => Err(refusal::FULL),
        }
    }

    fn write_cr0(&mut self, value: u16) -> Result<(), u32> {
        if self.active() {
            return Err(refusal::ACTIVE);
        }
        if !permitted(value) {
            return Err(refusal::SETTING);
        }
        self.cr0 = value;
        Ok(())
    }

    fn write_cpsr(&mut self, value: u8) -> Result<(), u32> {
        if self.active() {
            return Err(refusal::ACTIVE);
        }
        self.cpsr = value & 0xFE;
        Ok(())
    }

    fn write_cr1(&mut self, value: u8) -> Result<(), u32> {
        let was_enabled = self.enabled();
        if self.active() && (self.cr1 ^ value) & (MS | LBM) != 0 {
            return Err(refusal::ACTIVE);
        }
        if value & SSE != 0 && (!permitted(self.cr0) || self.cpsr == 0) {
            return Err(refusal::SETTING);
        }
        self.cr1 = value;
        if was_enabled && !self.enabled() {
            self.rt_count = 0;
            if !self.active() {
                // All but the queues, flags and last levels is gone.
                self.clear_engine();
            }
        }
        Ok(())
    }

    fn clear_interrupts(&mut self, value: u32) {
        if value & 1 != 0 {
            self.ror = false;
        }
        if value & 2 != 0 {
            self.rt = false;
            self.rt_count = 0;
        }
    }
}
