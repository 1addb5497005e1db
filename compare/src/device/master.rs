//! The master: slot by slot, events in a slot's first cycle.

use super::{Cycle, Device, Format, CLK, CONTROL_BITS, DATA, FSS, NSSPOE};

fn pack(clk: bool, fss: bool, data: bool, released: bool) -> u8 {
    let level = |on: bool, bit: u8| if on { bit } else { 0 };
    level(clk, CLK) | level(fss, FSS) | level(data, DATA) | level(released, NSSPOE)
}

impl Device {
    /// No frame and no slot left to run.
    pub fn at_rest(&self) -> bool {
        !self.frame && self.slot == 0 && self.gone == 0
    }

    /// The next cycle takes a word to send out of the queue.
    pub fn master_takes_word(&self) -> bool {
        let b = self.bits();
        let joins = match self.format() {
            Format::Motorola => self.sph() && self.slot == 2 * b + 1,
            Format::Ti => self.slot == 2 * b,
            Format::Microwire => self.slot == 18 + 2 * b,
        };
        let in_frame = self.frame && self.gone == 0 && (self.slot == 0 || joins);
        !self.slave() && self.word_waits() && (self.at_rest() || in_frame)
    }

    pub(super) fn master_cycle(&mut self, pins: u8) -> Cycle {
        let rest = self.at_rest();
        if rest && !self.word_waits() {
            return Cycle::showing(self.idle_lines());
        }
        // A slot without a frame only runs out.
        let event = self.gone == 0 && (self.frame || rest);
        if event {
            self.slot_event();
        }
        let mut cycle = Cycle::showing(self.master_lines());
        if event && self.captures_in_slot() {
            let source = if self.loopback() { cycle.lines } else { pins };
            cycle.lost = self.capture(source & DATA != 0);
        }
        self.advance();
        cycle
    }

    fn slot_event(&mut self) {
        match self.format() {
            Format::Motorola => self.motorola_event(),
            Format::Ti => self.ti_event(),
            Format::Microwire => self.microwire_event(),
        }
    }

    fn motorola_event(&mut self) {
        let b = self.bits();
        let slot = self.slot;
        if slot == 0 {
            self.begin_word();
        } else if slot == 2 * b + 1 && self.sph() && self.word_waits() {
            // The next word follows with FSS still LOW; this is its slot 1.
            self.begin_word();
            self.slot = 1;
            self.held = self.bit(0);
        } else if slot < 2 * b && slot % 2 == 1 {
            self.held = self.bit((slot - 1) / 2);
        } else if slot == 2 * b + 2 {
            self.end_frame();
        }
    }

    fn ti_event(&mut self) {
        let b = self.bits();
        let slot = self.slot;
        if slot == 0 {
            self.begin_word();
            return;
        }
        if slot == 2 {
            // A joined word starts here with the old word's capture done.
            self.captured = 0;
            self.receiving = 0;
        }
        if slot % 2 == 0 {
            self.held = self.bit((slot - 2) / 2);
        }
        if slot == 2 * b && self.word_waits() {
            // Joined: the last bit stays on TXD, its capture is still to come.
            self.take_word();
            self.slot = 0;
        }
    }

    fn microwire_event(&mut self) {
        let b = self.bits();
        if self.slot == 18 + 2 * b && self.word_waits() {
            self.slot = 0;
        }
        let slot = self.slot;
        if slot == 0 {
            self.begin_word();
        }
        if slot < 2 * CONTROL_BITS && slot % 2 == 0 {
            self.held = self.sending >> (CONTROL_BITS - 1 - slot / 2) & 1 != 0;
        } else if slot == 2 * CONTROL_BITS {
            self.held = false;
        } else if slot == 19 + 2 * b {
            self.end_frame();
        }
    }

    /// The slot's first cycle captures a bit.
    fn captures_in_slot(&self) -> bool {
        let b = self.bits();
        let slot = self.slot;
        match self.format() {
            Format::Motorola => slot % 2 == 0 && slot >= 2 && slot <= 2 * b,
            Format::Ti => slot % 2 == 1 && (slot >= 3 || self.joined()),
            Format::Microwire => slot % 2 == 1 && slot >= 19 && slot <= 17 + 2 * b,
        }
    }

    /// TI slots 0 and 1 that also end the word before.
    fn joined(&self) -> bool {
        self.slot < 2 && self.captured != 0
    }

    /// A frame shows its lines in every slot, also in those where it should be over.
    fn master_lines(&self) -> u8 {
        if !self.frame {
            return self.idle_lines();
        }
        let slot = self.slot;
        let odd = slot % 2 == 1;
        match self.format() {
            Format::Motorola => {
                let active = slot > 0 && slot <= 2 * self.bits() && odd == self.sph();
                pack(active != self.spo(), false, slot > 0 && self.held, false)
            }
            Format::Ti if slot < 2 => {
                let joined = self.joined();
                pack(!odd, true, joined && self.held, !joined)
            }
            Format::Ti => pack(!odd, false, self.held, false),
            Format::Microwire if slot < 2 * CONTROL_BITS => pack(odd, false, self.held, false),
            Format::Microwire => pack(odd, false, false, true),
        }
    }

    /// One cycle of the slot is gone.
    fn advance(&mut self) {
        self.gone += 1;
        if u32::from(self.gone) < self.slot_cycles() {
            return;
        }
        self.gone = 0;
        self.slot += 1;
        if self.slot > self.last_slot() {
            self.clear_engine();
        }
    }
}
